"""Counts of passed and failed tests, and the path of the program under test, for scripts of tests/, tools/ and bench/."""
import subprocess
import sys
from pathlib import Path

TOP = Path(__file__).resolve().parent.parent.parent


def scripts():
    """The paths of all scripts: those at the top, and those of tests/, tools/ and bench/."""
    tops = [TOP / name for name in ("build", "check", "install", "osm_hist", "osm-hist-mirror", "package", ".ci/run")]
    folders = [TOP / name for name in ("tests", "tests/lib", "tools", "bench")]
    return sorted(path for path in [*tops, *(path for folder in folders for path in folder.iterdir())] if path.is_file())


def program_of(words):
    """The path of the program under test: the first of `words`, or else an up-to-date program from tools/program."""
    if words:
        return str(Path(words[0]).resolve())
    return subprocess.run([TOP / "tools/program"], stdout=subprocess.PIPE, text=True, check=True).stdout.strip()


class Counts:
    """The numbers of passed and failed tests."""

    def __init__(self):
        self.passed = self.failed = 0

    def holds(self, what, good, why=""):
        """Counts a test as passed or failed by `good`. Prints `what` and `why` of a failed one."""
        self.passed += bool(good)
        self.failed += not good
        if not good:
            print(f"failed: {what}: {why}", flush=True)

    def end(self):
        """Prints the two numbers, and ends the script."""
        print(f"{self.passed} passed, {self.failed} failed")
        sys.exit(1 if self.failed else 0)
