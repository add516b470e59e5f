#!/usr/bin/env python3
"""Tests the module for Python, python/amihunk, over a build of the shared library, and against a build of the program.

    tests/python_module.py [--program PATH] [--library PATH] [NAME..]

Where they are not told, the program is crates/amihunk/out/amihunk, and the library capi/out/libamihunk.so. With NAMEs only the
tests run whose names have one of them in it. The last line is 'N passed, M failed', and the status is 0 if M is 0.
"""
import argparse
import os
import sys
import unittest

sys.dont_write_bytecode = True
TOP = os.path.dirname(os.path.dirname(os.path.abspath(__file__)))
MODULES = ("python_loading", "python_buffers", "python_refusals", "python_linking", "python_reading", "python_comparing", "python_random",
           "python_library")


def main():
    parser = argparse.ArgumentParser()
    parser.add_argument("--program", default=os.path.join(TOP, "crates/amihunk/out/amihunk"))
    parser.add_argument("--library", default=os.path.join(TOP, "capi/out/libamihunk.so"))
    parser.add_argument("names", nargs="*")
    given = parser.parse_args()
    # The tests and the processes that they start read these.
    os.environ["AMIHUNK_PROGRAM"] = os.path.abspath(given.program)
    os.environ["AMIHUNK_LIBRARY"] = os.path.abspath(given.library)

    loader = unittest.TestLoader()
    loader.testNamePatterns = [f"*{name}*" for name in given.names] or None
    result = unittest.TextTestRunner(sys.stdout, verbosity=1).run(loader.loadTestsFromNames(MODULES))
    # A test with several failures of its parts is one that failed.
    failed = len({test.id().partition(" ")[0] for test, _ in result.failures + result.errors} | set(result.unexpectedSuccesses))
    passed = result.testsRun - failed - len(result.skipped)
    print(f"{passed} passed, {failed} failed")
    return 1 if failed or not passed else 0


if __name__ == "__main__":
    sys.exit(main())
