#!/usr/bin/env python3
"""Runs all tests of the second reading, and tells of those that fail. The last line is 'N passed, M failed'.

    second/run_tests.py
"""

import io
import pathlib
import sys
import unittest


def main() -> int:
    """Runs them; the exit status is 1 where one fails, or none is there."""
    tests = unittest.defaultTestLoader.discover(str(pathlib.Path(__file__).parent))
    told = io.StringIO()
    result = unittest.TextTestRunner(stream=told).run(tests)
    failed = len(result.failures) + len(result.errors) + len(result.unexpectedSuccesses)
    if failed or not result.testsRun:
        print(told.getvalue())
    failed = max(failed, int(result.testsRun == 0))
    print(f"{max(result.testsRun - failed, 0)} passed, {failed} failed")
    return int(failed > 0)


if __name__ == "__main__":
    sys.exit(main())
