"""Runs all tests of this directory, and prints a line for each one that is skipped: python3 tests/run.py"""

import sys
import unittest
from pathlib import Path


def main() -> int:
    tests = unittest.defaultTestLoader.discover(str(Path(__file__).parent))
    result = unittest.TextTestRunner().run(tests)
    for test, reason in result.skipped:
        print(f"skipped: {test.id()} ({reason})")
    return 0 if result.wasSuccessful() else 1


if __name__ == "__main__":
    sys.exit(main())
