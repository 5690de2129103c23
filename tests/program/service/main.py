"""Runs all tests of this folder over the program that is named on the command line."""

from __future__ import annotations

import os
import pathlib
import shlex
import sys
import time
import unittest

HERE = pathlib.Path(__file__).resolve().parent
sys.path[:0] = [str(HERE), str(HERE.parents[2] / "clients" / "python")]

import audits  # noqa: E402
import service  # noqa: E402


class Timed(unittest.TextTestResult):
    """Says how long each test took."""

    def startTest(self, test: unittest.TestCase) -> None:
        self.began = time.monotonic()
        super().startTest(test)

    def addSuccess(self, test: unittest.TestCase) -> None:
        super().addSuccess(test)
        print(f"{test.id()}: {time.monotonic() - self.began:.2f} s", flush=True)


def main() -> int:
    words = sys.argv[1:]
    if words[:1] == ["--fixed-tenants"]:
        service.FORM[:] = words[:1]
        del words[0]
    while words[:1] in (["--replay-by"], ["--seconds"]) and len(words) > 2:
        if words[0] == "--seconds":
            service.SECONDS = float(words[1])
        else:
            audits.REPLAY[:] = shlex.split(words[1])
        del words[:2]
    if not words or words[0].startswith("-"):
        print("usage: run [--fixed-tenants] [--replay-by COMMAND] [--seconds N] PROGRAM [WORD ..]", file=sys.stderr)
        return 2
    program = pathlib.Path(words[0])
    service.PROGRAM[:] = [str(program.resolve()) if program.exists() else str(program), *words[1:]]
    suite = unittest.defaultTestLoader.discover(str(HERE), pattern=os.environ.get("TESTS", "test_*.py"))
    result = unittest.TextTestRunner(stream=sys.stdout, verbosity=0, resultclass=Timed).run(suite)
    failed = len(result.failures) + len(result.errors) + len(result.skipped) + len(result.unexpectedSuccesses)
    print(f"{max(result.testsRun - failed, 0)} passed, {failed} failed")
    return 0 if failed == 0 and result.testsRun > 0 else 1


if __name__ == "__main__":
    sys.exit(main())
