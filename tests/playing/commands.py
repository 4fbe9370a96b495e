"""Commands of this folder that judge by themselves."""
import os

from checking import TESTS, check, program
from playing.program import LONG_SECONDS, front_of, run


def models():
    ran = run([], program=TESTS / "random", env={**os.environ, "INDEXD_PROGRAM": str(program())}, timeout=LONG_SECONDS)
    said = ran.stdout.splitlines()
    check("random scripts", f"status {ran.returncode}: {front_of(b' '.join(said[:3]) + ran.stderr)}" if ran.returncode or said[-1:] != [b"400 passed, 0 failed"] else "")

