#!/usr/bin/env python3
"""Write number literals to standard output, one per line, in the mix of model files."""

import argparse
import random
import sys

from literals import literal


def arguments():
    parser = argparse.ArgumentParser(description=__doc__)
    parser.add_argument("--count", type=int, default=1_000_000)
    parser.add_argument("--seed", type=int, default=1)
    return parser.parse_args()


def main():
    options = arguments()
    source = random.Random(options.seed)
    sys.stdout.writelines(literal(source) + "\n" for _ in range(options.count))


if __name__ == "__main__":
    main()
