#!/usr/bin/env python3
"""Make each allocation fail in turn.

`try_library refused` makes each call of the library that allocates with its first
allocation failing, then with its second one, and so on until none fails: names, words,
jobs, the calls of a builder and of a reader's builder, and readers, conversions,
comparisons, runs and jobs on each file of vectors/. The same is done with the program,
on some files. If an allocation fails, the result must be out of memory, and nothing
else; otherwise the result that vectors/ has, or the file with the crate's output. A
builder's call that ran out of memory is repeated, and then all that follows must be as
if no allocation had failed; or it is left out, and then all that follows must be as if
it had never been made.

refused.tsv says of each call whether it allocates, and why not if it does not. A row is
for all files, or for those that it names; the latter go first. If a call allocates, at
least one of its allocations must have failed, otherwise none. The counts are printed.

refuse.c says what counts as an allocation. This needs the programs that `rt ci` builds,
and glibc; without a C compiler it reports that and tests nothing. Exits with 1 if a
result or a count differs, and names the call.
"""

import argparse
import csv
import os
import re
import shutil
import subprocess
import sys
import tempfile
from collections import Counter, namedtuple
from concurrent.futures import ThreadPoolExecutor
from functools import partial
from itertools import count
from pathlib import Path

ROOT = Path(__file__).resolve().parents[2]
HERE = Path(__file__).resolve().parent
VECTORS = ROOT / "vectors"
CRATES = ROOT / "crates"
CALLS = CRATES / "try_library" / "out" / "try_library"
PRINTED = CRATES / "try_library" / "stdout"
PROGRAM = CRATES / "mpslp" / "out" / "mpslp"
SOURCE = HERE / "refuse.c"
GROWTHS = HERE / "refused.tsv"

OUT_OF_MEMORY = b"out of memory\n"
# The end of the name of a builder's call that is repeated.
MADE_AGAIN = ", made again"

# What each file is compared with: the same model in both formats.
OTHER = "small.lp"
OTHER_OF_ITSELF = "small.mps"

# What the program is run on: files of vectors/, and arguments that are not a job, with their exit status.
PROGRAM_FILES = (
    "small.lp",
    "production.lp",
    "ranges-before-right-sides.mps",
    "upper-below-0.mps",
    "columns-of-each-kind.mps",
)
PROGRAM_WORDS = {"--help": 0, "canon mps": 3, "canon mps xml -": 3, "same mps - lp -": 3}

Entry = namedtuple("Entry", "topic input answer mps lp show")

# Whether a call allocates, on all files or on these, and why not.
Growth = namedtuple("Growth", "call files allocates why_not")
ALLOCATES = {"yes": True, "no": False}
ALL_FILES = "all"
# What is printed in place of a file.
NO_FILE = "without files"

# The results of a call, and what follows if it is never made, of a call that is left out.
Results = namedtuple("Results", "answers without")

# How many allocations were counted, and how many of them were made to fail.
Counted = namedtuple("Counted", "growths refused")


class Refusing:
    """Runs programs with the library that makes allocations fail."""

    def __init__(self, folder, compiler):
        self.folder = Path(folder)
        self.library = self.folder / "refuse.so"
        subprocess.run([compiler, "-O2", "-shared", "-fPIC", "-o", self.library, SOURCE], check=True)

    def run(self, command, growth=None):
        """How a command ends, and the counts. If an allocation is given, it fails, counted from the start of the
        command."""
        with tempfile.NamedTemporaryFile(dir=self.folder) as log:
            variables = dict(os.environ, LD_PRELOAD=str(self.library), REFUSE_LOG=log.name)
            if growth is not None:
                variables["REFUSE"] = str(growth)
            ended = subprocess.run(command, env=variables, capture_output=True, cwd=VECTORS, stdin=subprocess.DEVNULL)
            counts = [Counted(*map(int, line.split())) for line in Path(log.name).read_text().splitlines()]
            return (ended.returncode, ended.stdout, ended.stderr), counts

    def runs(self, command):
        """How a command ends with each allocation failing in turn, and finally with none; and the counts."""
        answers, counts = [], []
        for growth in count(1):
            answer, (counted,) = self.run(command, growth)
            answers.append(answer)
            counts.append(counted)
            if not counted.refused:
                return answers, counts


class Growths:
    """Which calls allocate, and how many allocations of each failed."""

    def __init__(self, path=GROWTHS):
        self.rows = {(row.call, file): row for row in rows_of(path, Growth) for file in row.files.split()}
        self.unused = set(self.rows)
        self.loops, self.refused = Counter(), Counter()

    def take(self, call, file, refused):
        """Takes the number of failed allocations of a call on a file. Returns what is wrong with it, if anything is."""
        key = (call, file) if (call, file) in self.rows else (call, ALL_FILES)
        if key not in self.rows:
            return f"{GROWTHS.name} has no row for {call}"
        row = self.rows[key]
        self.unused.discard(key)
        self.loops[row] += 1
        self.refused[row] += refused
        if ALLOCATES[row.allocates] != bool(refused):
            return f"{refused} growths refused, but {GROWTHS.name} has: {row.allocates}"
        return None

    def wrong(self):
        """What the table has although no call was made, and rows without a reason or with one too many."""
        for call, file in sorted(self.unused):
            yield f"{GROWTHS.name}: {call}, {file}: no call was made"
        for row in self.loops:
            if ALLOCATES[row.allocates] == bool(row.why_not):
                yield (
                    f"{GROWTHS.name}: {row.call}, {row.files}: a call that does not allocate needs a reason, and no "
                    "other has one"
                )

    def lines(self):
        for row in dict.fromkeys(self.rows.values()):
            why = f": {row.why_not}" if row.why_not else ""
            yield f"{self.refused[row]:6} growths refused in {self.loops[row]:3} loops: {row.call}{why}"


class Tally:
    """The number of runs of a program, and the unexpected results."""

    def __init__(self, name, growths):
        self.name = name
        self.possible = growths
        self.calls = self.growths = self.repeated = 0
        self.wrong = []

    def take(self, call, file, answers, counts, is_refused, is_whole):
        """Takes the results of a call on a file with each allocation failing in turn, and finally with none."""
        place = f"{file}: {call}"
        self.calls += 1
        self.growths += len(counts) - 1
        self.repeated += sum(counted.refused > 1 for counted in counts)
        wrong = self.possible.take(call, file, len(counts) - 1)
        if wrong:
            self.wrong.append(f"{place}: {wrong}")
        for growth, (answer, counted) in enumerate(zip(answers, counts), 1):
            if growth < len(answers):
                is_right = counted.growths == growth and counted.refused > 0 and is_refused(answer)
            else:
                is_right = counted == (growth - 1, 0) and is_whole(answer)
            if not is_right:
                self.wrong.append(f"{place}: growth {growth}: {counted}: {answer}")

    def line(self):
        return (
            f"{self.name}: {self.calls} calls, {self.growths} growths refused, {self.repeated} of them twice: "
            f"{len(self.wrong)} answered in another way"
        )


def rows_of(path, kind):
    with open(path, newline="") as table:
        return [kind(*row) for row in list(csv.reader(table, delimiter="\t", quoting=csv.QUOTE_NONE))[1:]]


def form_of(name):
    return name.rsplit(".", 1)[1]


def content(name):
    return (VECTORS / name).read_bytes()


def entries():
    return rows_of(VECTORS / "index.tsv", Entry)


def calls_of(output):
    """The calls that `try_library refused` prints, each with its results."""
    calls = {}
    while output:
        line, _, output = output.partition(b"\n")
        word, _, rest = line.partition(b" ")
        if word == b"call":
            name = rest.decode()
            calls[name] = Results([], None)
            continue
        text, output = output[: int(rest)], output[int(rest) :]
        if word == b"without":
            calls[name] = calls[name]._replace(without=text)
        else:
            calls[name].answers.append(text)
    return calls


def ended(status, out=b"", err=b""):
    """What `try_library refused` prints for a job."""
    return out + b"status %d\n" % status + err


def is_made_again(whole, answer):
    """Whether one call of a builder ran out of memory and was repeated, or `finish` ran out of memory."""
    again, refusals = re.subn(rb"(?m)^(.*): out of memory\n(?=\1: )", b"", answer)
    if refusals:
        return refusals == 1 and again == whole
    calls = b"".join(line for line in whole.splitlines(keepends=True) if b": " in line)
    return answer == calls + b"finish: " + OUT_OF_MEMORY


def answer_left_out(whole, without):
    """The result of a builder's call that ran out of memory and was left out."""
    call = whole.partition(b": ")[0]
    return call + b": " + OUT_OF_MEMORY + without


def is_shown(answer):
    """Whether a model is shown, if no file has the text."""
    return answer.startswith(b"sense ")


def refusal_of(name, whole, without):
    """The test of a result with a failed allocation."""
    if without is not None:
        return answer_left_out(whole, without).__eq__
    if name.startswith("builder") or name.endswith(MADE_AGAIN):
        return partial(is_made_again, whole)
    return (ended(5, err=OUT_OF_MEMORY) if name.startswith("perform") else OUT_OF_MEMORY).__eq__


def take_calls(tally, file, run, whole):
    """Takes the output of `try_library refused`. `whole` has the results if no allocation fails, or None for a model
    that is shown."""
    (status, output, errors), counts = run
    calls = calls_of(output)
    if (status, errors, calls.keys(), sum(len(it.answers) for it in calls.values())) != (
        0,
        b"",
        whole.keys(),
        len(counts),
    ):
        tally.wrong.append(f"{file}: status {status}, {len(counts)} counts, {errors}, {list(calls)}")
        return
    counts = iter(counts)
    for name, (answers, without) in calls.items():
        is_whole = is_shown if whole[name] is None else whole[name].__eq__
        refusal = refusal_of(name, whole[name], without)
        tally.take(name, file, answers, [next(counts) for _ in answers], refusal, is_whole)


def take_printed(tally, run):
    """Takes the output of `try_library refused` without files, which the crate has in a file."""
    printed, calls = calls_of(PRINTED.read_bytes()), calls_of(run[0][1])
    take_calls(tally, NO_FILE, run, {name: it.answers[-1] for name, it in printed.items()})
    for name, (answers, without) in printed.items():
        if name in calls and calls[name].without != without:
            tally.wrong.append(f"{name}: without it: {calls[name].without}")
        if without is not None and answers[-1].partition(b"\n")[2] == without:
            tally.wrong.append(f"{name}: what follows is the same without it")


# The calls whose result is the canonical text of the model, or the error of the file.
TO_MPS = ("read", "feed", "feed by columns", "model_of", "read_text", "canonical mps", "run mps")
TO_LP = ("canonical lp", "run lp")
# Those on a model.
MODEL_TO_MPS = ("finish_by_columns", "text_of mps", "prepare mps")
MODEL_TO_LP = ("text_of lp", "prepare lp", "with_row_lists")


def answers_of_fault(text, fault):
    named = (*TO_MPS, *TO_LP, "same_model", "same_model as second", "is_canonical", "show")
    performed = ("perform canon mps", "perform canon lp", "perform show")
    return {
        **dict.fromkeys(named, fault),
        **dict.fromkeys(performed, ended(2, err=fault)),
        "load": text,
        "perform same": ended(2, err=b"first: " + fault),
        "perform same as second": ended(2, err=b"second: " + fault),
    }


def answers_of_model(entry, text, is_same):
    mps = content(entry.mps)
    lp = entry.lp.encode() + b"\n" if entry.lp.endswith(": NotLp") else content(entry.lp)
    shown = None if entry.show == "-" else content(entry.show)
    is_own = text == (mps if form_of(entry.input) == "mps" else lp)
    compared = ended(0, b"same\n") if is_same else ended(1, b"not the same\n")
    return {
        **dict.fromkeys((*TO_MPS, *MODEL_TO_MPS), mps),
        **dict.fromkeys((*TO_LP, *MODEL_TO_LP), lp),
        **dict.fromkeys(("same_model", "same_model as second"), b"true\n" if is_same else b"false\n"),
        **dict.fromkeys(("perform same", "perform same as second"), compared),
        "is_canonical": b"true\n" if is_own else b"false\n",
        "load": text,
        "show": shown,
        "perform show": shown and ended(0, shown),
        "perform canon mps": ended(0, mps),
        "perform canon lp": ended(2, err=lp) if entry.lp.endswith(": NotLp") else ended(0, lp),
    }


def answers_of(entry, other):
    """The expected results for a file and another one, call by call."""
    text = content(entry.input)
    if entry.answer == "model":
        return answers_of_model(entry, text, entry.mps == other.mps)
    return answers_of_fault(text, entry.answer.encode() + b"\n")


def check_calls(workers, refusing, program, growths):
    """The calls that need no file, and those on each file."""
    tally = Tally("calls of the library", growths)
    take_printed(tally, refusing.run([program, "refused"]))
    by_name = {entry.input: entry for entry in entries()}
    pairs = [(entry, by_name[OTHER_OF_ITSELF if entry.input == OTHER else OTHER]) for entry in by_name.values()]
    commands = [
        [program, "refused", *(word for entry in pair for word in (form_of(entry.input), entry.input))]
        for pair in pairs
    ]
    for (entry, other), run in zip(pairs, workers.map(refusing.run, commands)):
        take_calls(tally, entry.input, run, answers_of(entry, other))
    return tally


def jobs_on(entry):
    """Jobs of the program on a file, and their names among the calls."""
    form = form_of(entry.input)
    yield f"canon {form} mps {entry.input}", "perform canon mps"
    yield f"canon {form} lp {entry.input}", "perform canon lp"
    yield f"show {form} {entry.input}", "perform show"
    yield f"same {form} {entry.input} {form_of(OTHER)} {OTHER}", "perform same"


def has_ended(whole, answer):
    return ended(*answer) == whole


def check_program(workers, refusing, program, growths):
    """The program, whose allocations are counted from its start."""
    tally = Tally("mpslp", growths)
    by_name = {entry.input: entry for entry in entries()}
    tests = {words: lambda answer, status=status: answer[0] == status for words, status in PROGRAM_WORDS.items()}
    for entry in map(by_name.get, PROGRAM_FILES):
        whole = answers_of(entry, by_name[OTHER])
        tests.update((words, partial(has_ended, whole[name])) for words, name in jobs_on(entry))
    runs = workers.map(lambda words: refusing.runs([program, *words.split()]), tests)
    for (words, is_whole), (answers, counts) in zip(tests.items(), runs):
        tally.take("mpslp", words, answers, counts, (5, b"", OUT_OF_MEMORY).__eq__, is_whole)
    return tally


def arguments():
    parser = argparse.ArgumentParser(description=__doc__, formatter_class=argparse.RawDescriptionHelpFormatter)
    parser.add_argument("--program", type=Path, default=PROGRAM, help="the path of mpslp")
    parser.add_argument("--calls", type=Path, default=CALLS, help="the path of try_library")
    return parser.parse_args()


def main():
    options = arguments()
    compiler = os.environ.get("CC") or shutil.which("cc")
    if compiler is None:
        print("skipped: refused memory (a C compiler is missing)")
        return 0
    with tempfile.TemporaryDirectory() as folder, ThreadPoolExecutor(os.cpu_count()) as workers:
        refusing, growths = Refusing(folder, compiler), Growths()
        tallies = [
            check_calls(workers, refusing, options.calls.resolve(), growths),
            check_program(workers, refusing, options.program.resolve(), growths),
        ]
    for line in (*growths.lines(), *(tally.line() for tally in tallies)):
        print(line)
    wrong = [line for tally in tallies for line in tally.wrong] + list(growths.wrong())
    for line in wrong:
        print(line, file=sys.stderr)
    return 1 if wrong else 0


if __name__ == "__main__":
    sys.exit(main())
