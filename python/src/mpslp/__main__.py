"""``python3 -m mpslp``, which is also the command mpslp-tools."""

import sys

from mpslp_tools import run

if __name__ == "__main__":
    sys.exit(run("python3 -m mpslp"))
