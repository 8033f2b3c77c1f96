#!/usr/bin/env python3
"""Runs the tests of the libraries: calls on texts and tables by hand, each with what it must answer.

usage: python3 tests/run.py

Their sources stand in this folder as texts, since they are no crate of the repository: nothing of them is proved. They are
made a crate in a copy of the crates, and `rt try --test` compiles that, with tests at run time of some of what a proof would
show, and runs each test, in some four minutes. So the libraries are tried as they are, proved or not.

The last line is 'N passed, M failed'; the exit status is 0 where no test failed and one passed. A test that stands here and
wasn't run has failed.
"""
import re
import subprocess
import sys
import tempfile
from pathlib import Path

TESTS = Path(__file__).resolve().parent
sys.path.append(str(TESTS.parent / "tools"))
import beside
import toolchain

CRATE = "asl_tests"
SECONDS = 2400
# Each test is run as it is compiled, for so long at most; `rt try` would have an interpreter begin it, too.
TRY = ["try", "--test", "--steps", "1", "--seconds", "600"]


def rt_without_checks(folder):
    """Makes a toolchain of links to the machine's, whose `rt try` makes no check beside, and gives its rt."""
    machines = toolchain.of_machine()
    if not machines:
        raise ValueError("there is no command rt, which runs the tests")
    return toolchain.linked(machines, folder, {"bin/rattle": "exit 0"})


def run(folder):
    """Runs the tests, and gives what was said."""
    crate = beside.put(folder / "copy", CRATE, TESTS)
    done = subprocess.run(
        [rt_without_checks(folder / "toolchain"), *TRY], cwd=crate, stdin=subprocess.DEVNULL, stdout=subprocess.PIPE,
        stderr=subprocess.STDOUT, text=True, errors="replace", timeout=SECONDS, check=False)
    return done.stdout


def written():
    """How many tests stand in the texts."""
    return sum(len(re.findall(r"(?m)^#\[test\]$", it.read_text())) for it in TESTS.rglob("*.rt.txt"))


def main():
    print("== the tests of the libraries", flush=True)
    try:
        with tempfile.TemporaryDirectory(prefix="asl-tests-") as folder:
            said = run(Path(folder))
    except (OSError, ValueError, subprocess.SubprocessError) as why:
        said = f"FAILED: {why}\n"
    print(said, end="")
    counts = re.search(r"(?m)^test result: .*?(\d+) passed; (\d+) failed", said)
    passed, failed = map(int, counts.groups()) if counts else (0, 1)
    lost = written() - passed - failed
    if counts and lost:
        print(f"FAILED: of the tests that stand here so many weren't run: {lost}")
        failed += abs(lost)
    print(f"{passed} passed, {failed} failed")
    return 0 if passed and not failed else 1


if __name__ == "__main__":
    sys.exit(main())
