"""Runs of the program, how each ends, and the scripts that several parts play."""

import itertools
import subprocess

import checking
from checking import ROOT, check

FIRST_RUN, CATALOGUE = ROOT / "examples/first-run.script", ROOT / "examples/catalogue.script"
SECONDS = 60
LONG_SECONDS = 900
MOST_BAD_RUNS = 10


def run(words, program=None, **how):
    """Runs the program to its end; a run that takes too long is killed, and has the status of that signal."""
    if "input" not in how:
        how.setdefault("stdin", subprocess.DEVNULL)
    how = {"stdout": subprocess.PIPE, "stderr": subprocess.PIPE, "timeout": SECONDS, **how}
    try:
        return subprocess.run([program or checking.program(), *(it if isinstance(it, bytes) else str(it) for it in words)], **how)
    except subprocess.TimeoutExpired as late:
        return subprocess.CompletedProcess(late.cmd, -9, late.stdout or b"", late.stderr or b"")


def wanted_of(script):
    return script.with_suffix(".out").read_bytes()


def lines_of(lines):
    """The bytes of some lines."""
    return "".join(f"{line}\n" for line in lines).encode()


def front_of(some):
    """The first bytes of some, between quotes."""
    return repr(some if len(some) <= 100 else some[:100] + b"..")[1:]


def other_output(got, wanted):
    """Says where an output differs from the wanted one, or nothing."""
    if got == wanted:
        return ""
    got_lines, wanted_lines = got.split(b"\n"), wanted.split(b"\n")
    for at, (one, other) in enumerate(itertools.zip_longest(got_lines, wanted_lines), 1):
        if one is None or other is None or one != other:
            return f"line {at}: wanted {'no more' if other is None else front_of(other)}, got {'no more' if one is None else front_of(one)}"


def not_all_right(ran, wanted):
    """Says how a run isn't status 0, no complaint and the wanted output, or nothing."""
    if ran.returncode != 0:
        return f"status {ran.returncode}, standard error {front_of(ran.stderr)}"
    if ran.stderr:
        return f"standard error {front_of(ran.stderr)}"
    return other_output(ran.stdout, wanted)


def not_one_complaint(ran):
    """Says how a run isn't status 1 with one line `indexd: TEXT` on standard error, or nothing."""
    if ran.returncode != 1:
        return f"wanted status 1, got {ran.returncode}, standard error {front_of(ran.stderr)}"
    text = ran.stderr
    if not text.startswith(b"indexd: ") or len(text) <= len(b"indexd: \n") or text.find(b"\n") != len(text) - 1:
        return f"wanted one line `indexd: TEXT` on standard error, got {front_of(text)}"
    return ""


def not_a_beginning(got, wanted):
    return "" if wanted.startswith(got) else f"the output is no beginning of the right one: {other_output(got, wanted)}"


def check_rows(name, rows):
    """Each row is a line of a script, and what is printed for it."""
    script, wanted = lines_of(line for line, _ in rows), lines_of(it for _, lines in rows for it in lines)
    check(name, not_all_right(run(["replay", "-"], input=script), wanted))
