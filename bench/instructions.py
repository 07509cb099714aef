"""How many instructions a command executes: nearly the same in each run, whatever else the machine does. It needs
valgrind."""

import re
import subprocess
import sys

COUNTING = ("valgrind", "--tool=callgrind", "--callgrind-out-file=/dev/null")
"""What comes before the words of a command whose instructions are counted."""
_COLLECTED = re.compile(r"Collected : (\d+)")


def counted(errors: str) -> int:
    """The number of instructions in what such a command wrote to standard error."""
    found = _COLLECTED.search(errors)
    if found is None:
        sys.exit(f"valgrind counts no instructions: {errors}")
    return int(found[1])


def instructions(words: list[str]) -> int:
    """The instructions of a command without input, whose output is not kept."""
    done = subprocess.run(
        [*COUNTING, *words], stdin=subprocess.DEVNULL, stdout=subprocess.DEVNULL, stderr=subprocess.PIPE, check=False
    )
    return counted(done.stderr.decode(errors="replace"))
