"""What tests/run and tests/http share: the checks that they count, the program that they test, and the libraries that they preload."""
import functools
import os
import select
import subprocess
import sys
from pathlib import Path

TESTS = Path(__file__).resolve().parent
ROOT = TESTS.parent
NAMED = os.environ.get("INDEXD_PROGRAM")

passed = failed = 0


def check(name, why):
    """Counts a check. It failed where `why` isn't empty, and is then told in one line."""
    global passed, failed
    if why:
        failed += 1
        print(f"FAILED {name}: {why}", flush=True)
    else:
        passed += 1


@functools.cache
def program():
    """The path of the program, which is built first where it has to be, and where none is named."""
    if NAMED:
        return os.path.abspath(NAMED)
    return subprocess.run([ROOT / ".ci/program"], stdout=subprocess.PIPE, text=True).stdout.strip()


def main(usage, parts, chosen):
    """Runs the parts that are chosen, or all where none is, prints the verdict, and gives the exit status."""
    if not {*chosen} <= {*parts}:
        print(usage, file=sys.stderr)
        return 2
    if NAMED and not os.access(program(), os.X_OK):
        check("INDEXD_PROGRAM", f"{NAMED} is no executable")
    elif not NAMED and subprocess.run([str(ROOT / "indexd"), "replay", "-"], stdin=subprocess.DEVNULL).returncode:
        check("the program", "it wasn't built, or fails on an empty script; what it said stands above")
    else:
        for name, part in parts.items():
            if not chosen or name in chosen:
                part()
    print(f"{passed} passed, {failed} failed")
    return 1 if failed else 0


def shown(some):
    return repr(some if len(some) <= 300 else some[:150] + b" .. " + some[-150:])


def shim_of(name, folder):
    """Makes a library of NAME.c, to be preloaded, and gives its file; where it can't be made, that is a check that failed."""
    shim = f"{folder}/{name}.so"
    try:
        words = ["gcc", "-shared", "-fPIC", "-O2", "-o", shim, str(TESTS / f"{name}.c")]
        made = subprocess.run(words, stdin=subprocess.DEVNULL, capture_output=True)
        why = f"gcc: {shown(made.stderr)}" if made.returncode else ""
    except OSError as fault:
        why = f"gcc doesn't start: {fault.strerror}"
    check(f"{name}.c is compiled", why)
    return None if why else shim


class Told:
    """A pipe by which a preloaded library tells that it did something."""

    def __init__(self):
        self.reads, self.writes = os.pipe()

    def __enter__(self):
        return self

    def __exit__(self, *_):
        os.close(self.reads)
        os.close(self.writes)

    def settings(self, shim, **more):
        """The environment of a program that has the library, and tells by the pipe."""
        return {**os.environ, "LD_PRELOAD": shim, "TOLD_FD": str(self.writes), **{name: str(it) for name, it in more.items()}}

    def heard(self, seconds=0):
        """Whether something was told since, or is within so many seconds."""
        return bool(select.select([self.reads], [], [], seconds)[0] and os.read(self.reads, 65536))
