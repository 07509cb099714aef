#!/usr/bin/env python3
"""colliding.py COUNT FOLDER: writes files of names that collide under the fixed seed, and of other names, in both
formats.

They are colliding.mps, colliding.lp, alike.mps and alike.lp.
"""

import sys
from pathlib import Path

sys.path.insert(0, str(Path(__file__).resolve().parents[2] / "bench"))

from colliding import alike, colliding
from hostile import named_as_lp, named_as_mps

SEED = 1


def main():
    count, folder = int(sys.argv[1]), Path(sys.argv[2])
    for names in (colliding, alike):
        for form, named in (("mps", named_as_mps), ("lp", named_as_lp)):
            (folder / f"{names.__name__}.{form}").write_text("".join(named(names)(count, SEED)))


if __name__ == "__main__":
    main()
