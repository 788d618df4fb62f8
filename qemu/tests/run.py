#!/usr/bin/env python3
"""Runs the tests of `vmstate-qemu`; the last line is `N passed, M failed`, and the status is 1 where one failed.

They need the program `vmstate`: that of crates/vmstate/out if it is built, else the variable VMSTATE or the path.
"""
import os
import sys
import unittest

sys.dont_write_bytecode = True
HERE = os.path.dirname(os.path.abspath(__file__))
sys.path.insert(0, os.path.dirname(HERE))


def main() -> int:
    """Runs all tests and returns the status."""
    tests = unittest.defaultTestLoader.discover(HERE, top_level_dir=os.path.dirname(HERE))
    result = unittest.TextTestRunner(stream=sys.stdout, verbosity=0).run(tests)
    failed = len({str(test) for test, _ in result.failures + result.errors})
    print(f"{result.testsRun - failed} passed, {failed} failed")
    return 1 if failed or result.testsRun == 0 else 0


if __name__ == "__main__":
    sys.exit(main())
