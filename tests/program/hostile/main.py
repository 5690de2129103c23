"""Runs all tests of this folder over the program that is named on the command line."""

from __future__ import annotations

import os
import pathlib
import subprocess
import sys
import tempfile
import time
import unittest

HERE = pathlib.Path(__file__).resolve().parent
ROOT = HERE.parents[2]
sys.path[:0] = [str(it) for it in (HERE, ROOT / "tests" / "program" / "service", ROOT / "tests" / "program" / "differential", ROOT / "clients" / "python")]

import pair  # noqa: E402
import programs  # noqa: E402
import service  # noqa: E402


class Timed(unittest.TextTestResult):
    """Says how long each test took, and how many cases it held."""

    def startTest(self, test: unittest.TestCase) -> None:
        self.began, self.before = time.monotonic(), pair.held()
        super().startTest(test)

    def addSuccess(self, test: unittest.TestCase) -> None:
        super().addSuccess(test)
        cases = pair.held() - self.before
        print(f"{test.id()}: {cases} cases, {time.monotonic() - self.began:.2f} s", flush=True)


def main() -> int:
    words = sys.argv[1:]
    if not words or words[0].startswith("-"):
        print("usage: run PROGRAM [WORD ..]", file=sys.stderr)
        return 2
    program = pathlib.Path(words[0])
    # (its sockets would wait long for a service that never comes)
    if not os.access(program, os.X_OK):
        print(f"{program} is no program\n0 passed, 1 failed")
        return 1
    pair.PROGRAM[:] = service.PROGRAM[:] = [str(program.resolve()), *words[1:]]
    pair.PLAIN[:] = programs.build_plain(ROOT)
    names = os.environ.get("TESTS", "test_*.py")
    with tempfile.TemporaryDirectory(dir=programs.memory_folder()) as folder:
        pair.prepare(pathlib.Path(folder))
        compiler = os.environ.get("CC", "cc")
        subprocess.run([compiler, "-O2", "-shared", "-fPIC", "-o", f"{folder}/fail.so", f"{HERE}/fail.c", "-ldl"], check=True)
        suite = unittest.defaultTestLoader.discover(str(HERE), pattern=names)
        result = unittest.TextTestRunner(stream=sys.stdout, verbosity=0, resultclass=Timed).run(suite)
    used = os.times()
    print(f"{used.user + used.system + used.children_user + used.children_system:.1f} s of processor time")
    failed = len(result.failures) + len(result.errors) + len(result.skipped) + len(result.unexpectedSuccesses)
    print(f"{max(result.testsRun - failed, 0)} passed, {failed} failed")
    return 0 if failed == 0 and result.testsRun > 0 else 1


if __name__ == "__main__":
    sys.exit(main())
