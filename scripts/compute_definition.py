#!/usr/bin/env python3
"""Computes the definitions on a model file, in the checker: scripts/compute_definition.py FILE [--claim FILE]

The result of a file is its canonical MPS text or its first error. It is claimed: with --claim by a file of yours, which
has this text or the line of an error, such as `line 4: BadNumber`; otherwise by tests/shared/independent_reader.py. A
crate that says nothing but this claim is written to build/own_file: the bytes of the file and the claim, in the
definitions that docs/TRUST.md lists. The checker proves it by computing the definitions on the bytes, or rejects it. No
code of mpslp runs.

The first call on a machine proves the crates with the definitions, if `make` has not: some 20 minutes. Large files take
long; a hundred lines are no problem.
"""

import argparse
import re
import shutil
import subprocess
import sys
from pathlib import Path

from crates import LIBRARIES, Crate, crates_of_repository, words_of
from kit import ROOT, kit_folder, require_kit
from prove import prove_all

READER = ROOT / "tests" / "shared" / "independent_reader.py"
CRATE = "own_file"
# The status of `rattle check` if it is the claim that is not proved.
NOT_PROVED = 1
# The status if the crates with the definitions are not proved.
NO_VERDICT = 3
# The crates whose definitions and lemmas the claim cites.
USES = (
    "mpslp_decimal mpslp_types mpslp_model_core mpslp_builder mpslp_lines mpslp_mps mpslp_lp_tokens "
    "mpslp_lp_grammar mpslp_lp mpslp_mps_text mpslp_mps_laws"
)
# The lines in which the checker says what it rejects: where one value is expected, it found the other.
OF_AN_ERROR = re.compile(r": error: |^  ")
FAULT = re.compile(r"(?:line (\d+)|file): (\w+)(?: (\S+))?\n?")

CODE = """\
//! The result of one file, by the definitions.
#![tactic(auto)]

ghost use Rattle.own_file.specs.File.{Claim};

/// The claim of `specs/File.antt`.
pub fn result_of_the_file()
    ensures { Claim }
{}
"""

ANSWER = """\
use Rattle.own_file.proofs.Computed.{claimed}
use Rattle.own_file.proofs.result_of_the_file.Goals as goal

pub returns : goal.returns
returns c = claimed
"""

BYTES = """\
-- the lines that end with a line feed, and what comes after the last of them
abbrev pub lines : List (List ℕ)
lines = {lines}

abbrev pub bytes : List ℕ
bytes = flat_map (λ line. line ++ 10 ∷ []) lines{rest}
"""

TEXT_FILE = """\
-- The bytes of a file, and the canonical MPS text of the model that they are to declare.
use Rattle.std.specs.Prelude.{{◌≡◌, ℕ, List, [], ◌∷◌, ◌++◌, codes}}
use Rattle.std.specs.List.{{flat_map}}
use Rattle.mpslp_model_core.specs.Model.{{LinearModel}}
use Rattle.{module}.{{{declares}}}
use Rattle.mpslp_mps_text.specs.CanonicalMps.{{canonical_mps}}

{bytes}
abbrev pub claimed_lines : List (List ℕ)
claimed_lines = {claimed}

abbrev pub claimed_text : List ℕ
claimed_text = flat_map (λ line. line ++ 10 ∷ []) claimed_lines{claimed_rest}

-- the bytes declare a model, and this is its canonical text
abbrev pub Claim : Type 0
Claim = (m : LinearModel) × {declares} bytes m × (canonical_mps m ≡ claimed_text)
"""

TEXT_PROOF = """\
-- The claim, by computation.
use Rattle.std.proofs.Common.{{◌≡◌, ◌∙◌, ap, refl, List, ℕ, true}}
use Rattle.std.specs.Fmt.{{digits}}
use Rattle.mpslp_decimal.specs.Decimal.{{trailing_zeros}}
use Rattle.mpslp_model_core.specs.Model.{{LinearModel}}
use Rattle.mpslp_model_core.specs.Model.{{Listing}}
use Rattle.mpslp_builder.specs.Declaration.{{Draft, draft_of}}
use Rattle.mpslp_builder.specs.Meaning.{{model_of}}
use Rattle.mpslp_builder.proofs.MeaningFromNoFault.{{means-from_none}}
use Rattle.{module}.{{declarations_of, {declares}}}
use Rattle.mpslp_mps_text.specs.CanonicalMps.{{text_of, listed_lines, canonical_mps}}
use Rattle.mpslp_mps_laws.proofs.DraftText.{{listing_in, is_in_order, listing_of-model}}
use Rattle.own_file.specs.File.{{bytes, claimed_text, Claim}}

abbrev draft_in : List ℕ → Draft
draft_in text = draft_of (declarations_of text)

prints : (all : Draft) (output : List ℕ) → is_in_order (listing_in all) ≡ true
    → text_of (listed_lines (listing_in all)) ≡ output
    → canonical_mps (model_of all) ≡ output
prints all output sorted h = ap (λ (m : Listing). text_of (listed_lines m)) (listing_of-model all sorted) ∙ h

pub claimed : Claim
unfolding digits trailing_zeros
claimed =
    (model_of (draft_in bytes),
     record {{ text = refl; means = means-from_none (declarations_of bytes) refl refl refl refl }},
     prints (draft_in bytes) claimed_text refl refl)
"""

FAULT_FILE = """\
-- The bytes of a file, and what is to be their first error.
use Rattle.std.specs.Prelude.{{ℕ, List, [], ◌∷◌, ◌++◌, Some, None, codes}}
use Rattle.std.specs.List.{{flat_map}}
use Rattle.mpslp_types.specs.declared.faults.FaultKind.TheVariants.{{{kind}}}
use Rattle.{module}.{{{is_first}}}

{bytes}
-- an error of line 0 is one of the whole file
abbrev pub Claim : Type 0
Claim = {is_first} bytes (record {{ kind = {kind}; line = {line}; name = {name} }})
"""

FAULT_PROOF = """\
-- The claim, by computation.
use Rattle.std.proofs.Common.{refl}
use Rattle.std.specs.Fmt.{digits}
use Rattle.mpslp_decimal.specs.Decimal.{trailing_zeros}
use Rattle.own_file.specs.File.{Claim}

pub claimed : Claim
unfolding digits trailing_zeros
claimed = refl
"""


def literal(line: bytes) -> str:
    """A list of bytes in a definition."""
    if line and all(32 <= byte <= 126 for byte in line):
        text = line.decode().replace("\\", "\\\\").replace('"', '\\"')
        return f'codes "{text}"'
    return f"({' ∷ '.join([*map(str, line), '[]'])})"


def listed(text: bytes) -> tuple[str, str]:
    """The lines of a text that end with a line feed, as a list of lists of bytes, and what is appended to them."""
    *lines, rest = text.split(b"\n")
    return "\n    ∷ ".join([*map(literal, lines), "[]"]), f" ++ {literal(rest)}" if rest else ""


def claim_of_reader(form: str, file: Path) -> bytes:
    """What the independent reader makes of a file: a canonical text or the line of an error."""
    read = subprocess.run([sys.executable, READER, form, file, "--to", "mps"], capture_output=True, check=False)
    return read.stdout if read.returncode == 0 else read.stderr


def sources(form: str, text: bytes, claim: bytes) -> dict[str, str]:
    """The files of the crate that says the claim and proves it."""
    lines, rest = listed(text)
    words = {"bytes": BYTES.format(lines=lines, rest=rest)}
    if fault := FAULT.fullmatch(claim.decode("latin-1")):
        name = f'Some (codes "{fault[3]}")' if fault[3] else "None"
        module, is_first = {"mps": ("mpslp_mps", "IsFirstMpsFault"), "lp": ("mpslp_lp", "IsFirstLpFault")}[form]
        words |= {
            "kind": fault[2],
            "line": fault[1] or "0",
            "name": name,
            "module": f"{module}.specs.FirstFault",
            "is_first": is_first,
        }
        file, proof = FAULT_FILE, FAULT_PROOF
    else:
        module, declares = {
            "mps": ("mpslp_mps.specs.MpsText", "DeclaresMps"),
            "lp": ("mpslp_lp.specs.LpText", "DeclaresLp"),
        }[form]
        claimed, claimed_rest = listed(claim)
        words |= {"module": module, "declares": declares, "claimed": claimed, "claimed_rest": claimed_rest}
        file, proof = TEXT_FILE, TEXT_PROOF.format(module=module, declares=declares)
    return {
        "src/lib.rt": CODE,
        "specs/Lib.antt": "pub mod File\n",
        "specs/File.antt": file.format(**words),
        "proofs/Lib.antt": "pub mod Computed\n",
        "proofs/Computed.antt": proof,
        "proofs/result_of_the_file/Answers.antt": ANSWER,
    }


def crate_with(files: dict[str, str]) -> Path:
    """A crate of these files."""
    folder = ROOT / "build" / CRATE
    shutil.rmtree(folder, ignore_errors=True)
    for name, text in files.items():
        (folder / name).parent.mkdir(parents=True, exist_ok=True)
        (folder / name).write_text(text)
    return folder


def check(folder: Path) -> subprocess.CompletedProcess[bytes]:
    """Has the checker check the crate in this directory, over the proved libraries of the crates that it uses."""
    crates, uses = crates_of_repository(), tuple(USES.split())
    words = words_of(Crate(CRATE, f"{CRATE}: {USES}", uses, uses), crates, LIBRARIES)
    return subprocess.run(
        [f"{kit_folder()}/bin/rattle", "check", *words, "--jobs", "1"],
        cwd=folder,
        stdin=subprocess.DEVNULL,
        stdout=subprocess.PIPE,
        stderr=subprocess.STDOUT,
        check=False,
    )


def main() -> int:
    parser = argparse.ArgumentParser(description=__doc__, formatter_class=argparse.RawDescriptionHelpFormatter)
    parser.add_argument("file", type=Path, help="a model file; its format is its extension, .mps or .lp")
    parser.add_argument("--claim", type=Path, help="a file with a canonical MPS text or the line of an error")
    options = parser.parse_args()
    form = options.file.suffix.lower().removeprefix(".")
    if form not in ("mps", "lp"):
        parser.error(f"{options.file}: the format of a file is its extension, .mps or .lp")
    require_kit()
    if not prove_all(tuple(USES.split())):
        return NO_VERDICT
    claim = options.claim.read_bytes() if options.claim else claim_of_reader(form, options.file)
    folder = crate_with(sources(form, options.file.read_bytes(), claim))
    print(
        f"the claim is {(folder / 'specs' / 'File.antt').relative_to(ROOT)}; the checker computes the definitions",
        flush=True,
    )
    checked = check(folder)
    printed = checked.stdout.decode(errors="replace").splitlines()
    if checked.returncode == NOT_PROVED:
        print("\n".join(line for line in printed if OF_AN_ERROR.search(line)), file=sys.stderr)
        print("not proved: by the definitions this is not the result of the file", file=sys.stderr)
    elif checked.returncode:
        print("\n".join(printed[-15:]), file=sys.stderr)
        print("the checker gave no verdict", file=sys.stderr)
    if checked.returncode:
        return checked.returncode
    sys.stdout.write(f"proved: the result of {options.file} is\n{claim.decode('latin-1')}")
    return 0


if __name__ == "__main__":
    sys.exit(main())
