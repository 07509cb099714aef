"""Real models, and what today's programs write of them.

The models are the examples of Debian's packages glpk-utils and lp-solve-doc and those of this repository. Each is
read by a program that knows its language, and written again by each writer, in each format that the writer has.
"""

import html
import os
import re
import shutil
import subprocess
import sys
from pathlib import Path
from typing import NamedTuple

from repository import ROOT

GLPK = Path("/usr/share/doc/glpk-utils/examples")
LP_SOLVE = Path("/usr/share/doc/lp-solve-doc")
SECONDS = 300
PULP = """import sys, pulp
format, source, out, *is_max = sys.argv[1:]
_, model = pulp.LpProblem.fromMPS(source, pulp.LpMaximize if is_max else pulp.LpMinimize)
getattr(model, "write" + format)(out)
"""


ODD_NAMES = """import sys, pulp
names = ["2x", "e1", "free", "a:b", "x^2", "x*y", ".5z", "end", "größe", "x<y", "bin", "obj", "#a", "x,1"]
model = pulp.LpProblem("odd", pulp.LpMaximize)
kinds = ["Continuous" if at % 3 else "Integer" for at in range(len(names))]
columns = [pulp.LpVariable(name, 0, 4 + at, kinds[at]) for at, name in enumerate(names)]
low, free, binary = pulp.LpVariable("low", None, -2), pulp.LpVariable("any"), pulp.LpVariable("b1", cat="Binary")
model += pulp.lpSum((at + 1) * column for at, column in enumerate(columns)) + low + free - binary
model += pulp.lpSum(columns) + free >= -10, "c1"
model += columns[0] - columns[1] <= 3
model += low + free <= 3 + columns[2], "2c"
model.writeLP(sys.argv[1])
model.writeMPS(sys.argv[2])
"""


class Writer(NamedTuple):
    """A program that writes a model. Its command reads BASE, free MPS, and writes OUT; MAX is its word for maximise."""

    name: str
    dialect: str
    format: str
    tool: str
    maximise: str
    command: str


GLPSOL = "glpsol --freemps BASE MAX --check"
LP_SOLVE_COMMAND = "lp_solve -S1 -parse_only MAX -fmps BASE"
WRITERS = (
    Writer("glpsol LP", "glpsol", "lp", "glpsol", "--max", f"{GLPSOL} --wlp OUT"),
    Writer("glpsol free MPS", "glpsol", "mps", "glpsol", "--max", f"{GLPSOL} --wfreemps OUT"),
    Writer("glpsol fixed MPS", "glpsol", "mps", "glpsol", "--max", f"{GLPSOL} --wmps OUT"),
    Writer("CoinUtils LP", "coinutils", "lp", "cbc", "-max", "cbc BASE MAX -presolve off -export OUT -quit"),
    Writer(
        "CoinUtils MPS",
        "coinutils",
        "mps",
        "clp",
        "-maximize",
        "clp BASE MAX -presolve off -outputFormat 4 -export OUT -quit",
    ),
    Writer("cbc MPS", "coinutils", "mps", "cbc", "-max", "cbc BASE MAX -presolve off -export OUT -quit"),
    Writer("lp_solve free MPS", "lp_solve", "mps", "lp_solve", "-max", f"{LP_SOLVE_COMMAND} -wfmps OUT"),
    Writer("lp_solve fixed MPS", "lp_solve", "mps", "lp_solve", "-max", f"{LP_SOLVE_COMMAND} -wmps OUT"),
    Writer("PuLP LP", "pulp", "lp", "pulp", "max", "PULP LP BASE OUT MAX"),
    Writer("PuLP MPS", "pulp", "mps", "pulp", "max", "PULP MPS BASE OUT MAX"),
)


def python_with_pulp():
    """A Python that has PuLP, or None."""
    for python in (sys.executable, "/usr/bin/python3"):
        if os.path.exists(python) and run([python, "-c", "import pulp"], Path("/")):
            return python
    return None


def run(command, cwd):
    """Whether a command ends well."""
    try:
        return (
            subprocess.run(command, cwd=cwd, stdin=subprocess.DEVNULL, capture_output=True, timeout=SECONDS).returncode
            == 0
        )
    except (OSError, subprocess.TimeoutExpired):
        return False


PYTHON = python_with_pulp()


def is_installed(writer):
    return PYTHON is not None if writer.tool == "pulp" else shutil.which(writer.tool) is not None


def is_written(path):
    return path.exists() and path.stat().st_size > 0


def blocks():
    """The preformatted blocks of the pages of lp-solve-doc, with the page and the number of each."""
    for page in sorted(LP_SOLVE.glob("*.htm")):
        text = page.read_text(encoding="latin-1")
        for number, block in enumerate(re.findall(r"<pre>(.*?)</pre>", text, re.S | re.I)):
            yield f"{page.stem}-{number}", html.unescape(re.sub(r"<[^>]*>", "", block)).strip("\n") + "\n"


def bases(folder, program):
    """The models as free MPS in a directory: each is read by a program that knows its language."""
    folder.mkdir(parents=True, exist_ok=True)
    if shutil.which("glpsol"):
        for path in sorted(GLPK.glob("*")):
            option = {".mod": ["--math"], ".lp": ["--lp"], ".mps": ["--mps"]}.get(path.suffix)
            if option:
                out = folder / f"glpk-{path.stem}{path.suffix.replace('.', '-')}.mps"
                run(["glpsol", *option, path, "--check", "--wfreemps", out], GLPK)
    if shutil.which("lp_solve"):
        for name, text in blocks():
            source = folder / "block"
            source.write_text(text, encoding="latin-1", errors="replace")
            options = ["-fmps", "-mps"] if "ROWS" in text and "COLUMNS" in text else ["-lp"]
            for option in options:
                out = folder / f"lp_solve-{name}.mps"
                if not is_written(out):
                    run(["lp_solve", "-S1", "-parse_only", option, source, "-wfmps", out], folder)
            source.unlink()
    for path in sorted([*(ROOT / "examples").glob("*"), *(ROOT / "vectors").glob("*")]):
        if path.suffix in (".mps", ".lp") and "canonical" not in path.name:
            done = subprocess.run([program, "canon", path.suffix[1:], "mps", path], capture_output=True)
            if done.returncode == 0:
                (folder / f"repository-{path.stem}{path.suffix.replace('.', '-')}.mps").write_bytes(done.stdout)
    for path in folder.iterdir():
        if not is_written(path) or not is_whole(path.read_bytes()):
            path.unlink()
        else:
            path.write_bytes(common(path.read_bytes()))
    return sorted(folder.iterdir())


def is_whole(text):
    """Whether a model in MPS has a column, and its end: a program that takes too long is ended before."""
    return all(re.search(pattern, text, re.M) is not None for pattern in (rb"^COLUMNS\s+\S+\s+\S+", rb"^ENDATA"))


def common(text):
    """Free MPS that each writer reads: no comments, no OBJSENSE but a first line that says it, and an RHS section."""
    is_max = re.search(rb"^OBJSENSE\s+MAX", text, re.M)
    lines = [line for line in text.splitlines() if line and not line.startswith((b"*", b"NAME", b"OBJSENSE"))]
    lines = [line for line in lines if line.strip() not in (b"MAX", b"MAXIMIZE", b"MIN", b"MINIMIZE")]
    if b"RHS" not in lines:
        lines.insert(next(n for n, line in enumerate(lines) if line in (b"RANGES", b"BOUNDS", b"ENDATA")), b"RHS")
    first = [b"* MAX"] if is_max else []
    return b"\n".join([*first, b"NAME  ANY  FREE", *lines, b""])


def written(writer, base, folder):
    """The file that a writer makes of a base, or None."""
    folder.mkdir(parents=True, exist_ok=True)
    out = folder / f"{base.stem}.{writer.format}"
    packed = out.with_name(f"{out.name}.gz")  # cbc compresses what it writes
    if not out.exists() and not packed.exists():
        is_max = base.read_bytes().startswith(b"* MAX")
        replaced = {
            "BASE": [base],
            "OUT": [out],
            "PULP": [PYTHON, "-c", PULP],
            "MAX": [writer.maximise] if is_max else [],
        }
        run([part for word in writer.command.split() for part in replaced.get(word, [word])], folder)
    return next((path for path in (out, packed) if is_written(path)), None)
