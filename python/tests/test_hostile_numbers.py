"""No command takes long for a number, whatever it is: hostile ones in each place of small files, accepted and
rejected."""

import itertools
import os
import random
import time
import unittest

import test_every_input
from repository import EXAMPLES

SECONDS = 2
SMALL = str(EXAMPLES / "small.mps")
COMMANDS = (
    ["canon"],
    ["canon", "--diff"],
    ["canon", "-q", "--for", "glpsol"],
    ["canon", "-q", "--for", "esolver"],
    ["fmt"],
    ["fmt", "--diff"],
    ["check"],
    ["check", "--portable"],
    ["same", SMALL],
    ["diff", SMALL],
    ["diff", os.devnull],
    ["show"],
    ["digest"],
    ["adapt"],
    ["adapt", "--diff"],
    ["survey"],
    ["report"],
    ["report", SMALL],
)
EXPONENTS = ("9", "99", "999", "99999999", "9" * 10, "9" * 18, "9" * 19, "9" * 50, "9" * 250, "0" * 249 + "1")
MANTISSAS = ("0", "0.", ".0", "0.000", "1", "1.", ".1", "1.5", "9" * 36)
LONG = ("0" * 255, "9" * 255, "0." + "0" * 253, "9" * 4400, "1." + "0" * 5000, "0" * 5000)
NUMBERS = (
    *LONG,
    *(
        f"{mantissa}{e}{sign}{exponent}"
        for mantissa, e, sign, exponent in itertools.product(MANTISSAS, "eE", ("", "+", "-"), EXPONENTS)
    ),
)
ALWAYS = ("0e99999999", "0e-99999999", "1e99999999", "1.5e-99999999")
DRAWN = 8
"""Of the other numbers so many are drawn for each command and each file."""

FILES = {
    "lp": (
        "min x\nst\n x + 3 >= N\nend\n",
        "min x\nst\n x + N >= 3\nend\n",
        "min x\nst\n N + x >= N - x\nend\n",
        "min x\nst\n x >= N + N\nend\n",
        "min x\nst\n x >= N/N\nend\n",
        "min x\nst\n x >= N/3\nend\n",
        "min x\nst\n x >= 1\nbounds\n N x <= N\nend\n",
        "min N x + N\nst\n N x >= N\nend\n",
        "min x\nst\n N <= x <= N\nend\n",
        "min x\nst\n x >= 1\nbounds\n -N <= x <= N\nend\n",
        "min x\nst\n x >= N,5\nend\n",
        "min x\nst\n x >= N %\nend\n",
        "min x\nst\n N >= N x\nend\n",
        "min x\n\\* constant term = N *\\\nst\n x >= 1\nend\n",
        "/* a */ min: x;\nc: x >= N;\n",
    ),
    "mps": (
        "NAME\nROWS\n N  C\n G  R\nCOLUMNS\n    X  C  N  R  N\nRHS\n    RHS  R  N\n    RHS  C  N\nENDATA\n",
        "NAME\nROWS\n N  C\n E  R\nCOLUMNS\n    X  C  1  R  1\nRHS\n    RHS  R  4\nRANGES\n    RNG  R  N\n"
        "BOUNDS\n UP  BND  X  N\nENDATA\n",
        "NAME\nROWS\n N  C\n G  R\nCOLUMNS\n    X  C  1  R  1\nBOUNDS\n LO  BND  X  -N\n UP  BND  X  N\nENDATA\n",
        "NAME\nROWS\n N  C\n G  R\nCOLUMNS\n    X  C  N,5\n    X  R  N/3\n    X  N\nENDATA\n",
    ),
}


class HostileNumbers(test_every_input.EveryInput):
    test_vectors = test_random_files = test_outputs_and_variables = test_an_output_that_fails_is_said = None

    def test_each_command_is_quick(self):
        source = random.Random(83)
        for form, files in FILES.items():
            for command, file in itertools.product(COMMANDS, files):
                for number in (*ALWAYS, *source.sample(NUMBERS, DRAWN)):
                    self.file(
                        f"a.{form}", (file.replace("N", number) if form == "lp" else _in_mps(file, number)).encode()
                    )
                    begun = time.process_time()
                    status = self.run_quietly([*command, f"a.{form}"])
                    seconds = time.process_time() - begun
                    with self.subTest(command, file=file, number=number):
                        self.assertIn(status, test_every_input.STATUSES)
                        self.assertLess(seconds, SECONDS)


def _in_mps(file, number):
    """The file with a number where a field, or the start of one, is the letter N; the types of rows stay."""
    head, columns = file.split("COLUMNS\n")
    return f"{head}COLUMNS\n" + "\n".join(
        line
        if not line.startswith(" ")
        else line.replace("N", number).replace(f"R{number}G", "RNG").replace(f"B{number}D", "BND")
        for line in columns.split("\n")
    )


if __name__ == "__main__":
    unittest.main()
