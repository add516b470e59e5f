#!/usr/bin/env python3
"""Runs the program as people do, over real files, and compares what it prints, what it writes and how it ends.

    tests/program.py PROGRAM..

Each PROGRAM is a build of the program. Expected values are written down in the tests, or come from model.py. The last line is
'N passed, M failed', and the status is 0 if M is 0. Each test is counted once for each PROGRAM.
"""
import os
import sys
import tempfile
import traceback

sys.dont_write_bytecode = True
import command_line  # (the tests of a module register themselves)
import completions
import comparisons
import copies
import explanations
import failing
import globals
import json_documents
import limits
import lints
import maps
import memory
import names
import outputs
import quotations
import readme
import runs
import streams
import surveys
import symbol_records
from harness import TESTS, Program


def main():
    os.umask(0o022)
    passed = failed = 0
    for path in sys.argv[1:]:
        for it in TESTS:
            with tempfile.TemporaryDirectory() as folder:
                try:
                    it(Program(path, folder))
                    passed += 1
                    print(f"test {it.__name__} ... ok", flush=True)
                except Exception:
                    failed += 1
                    print(f"FAILED: {it.__name__}, {path}\n{traceback.format_exc()}", flush=True)
    print(f"{passed} passed, {failed} failed")
    return 1 if failed or not passed else 0


if __name__ == "__main__":
    sys.exit(main())
