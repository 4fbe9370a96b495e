"""Allocations that are refused, and inputs and outputs that fail."""
import os
import resource
import tempfile
from pathlib import Path

from checking import ROOT, Told, check, program, shim_of
from playing.program import CATALOGUE, MOST_BAD_RUNS, not_a_beginning, not_all_right, not_one_complaint, other_output, run, wanted_of

# The scripts whose allocations are refused.
REFUSED = [ROOT / f"{it}.script" for it in (
    "examples/first-run", "examples/catalogue", "tests/scripts/types-and-coercion", "tests/scripts/exists-match-prefix-bool-pages",
    "tests/scripts/versions-and-conditions", "tests/scripts/create-delif-restart", "examples/failover", "examples/recovery",
    "tests/scripts/torn-steps-restart-and-promote-again", "tests/scripts/newer-operation-first-older-is-stale",
    "tests/scripts/unacknowledged-write-dropped", "tests/scripts/allocate-and-recover", "tests/scripts/shown-from-the-last-refresh",
    "tests/scripts/merge-beside-a-delete")]
MOST_REFUSALS = 100_000


def memory():
    with tempfile.TemporaryDirectory() as folder:
        if shim := shim_of("refuse_allocation", folder):
            for script in REFUSED:
                refuse_in_turn(script, shim)


def refuse_in_turn(script, shim):
    name, wanted, bad = script.relative_to(ROOT), wanted_of(script), []
    for number in range(1, MOST_REFUSALS):
        ran, was_refused = run_failing(["replay", script], shim, "FAIL_ALLOC", number)
        why = not_all_right(ran, wanted)
        if why and was_refused:
            why = not_one_complaint(ran) or not_a_beginning(ran.stdout, wanted)
        if why:
            bad.append(f"with allocation {number} {'' if was_refused else 'not reached, so none '}refused: {why}")
        if not was_refused or len(bad) == MOST_BAD_RUNS:
            break
    else:
        bad.append("there was no end of allocations")
    refused = number - (not was_refused)
    print(f"{name}: {refused} allocations refused, each in a run of its own", flush=True)
    if not refused and not bad:
        bad.append("no allocation could be refused")
    check(f"{name} with allocations refused", f"{len(bad)} of {number} runs, the first {bad[0]}" if bad else "")


def run_failing(words, shim, name, number, **how):
    """Runs the program with a call failing by a preloaded library, and says too whether the program came to that call."""
    with Told() as told:
        ran = run(words, env=told.settings(shim, **{name: number}), pass_fds=[told.writes], **how)
        return ran, told.heard()


def failing_streams(folder):
    """A script whose last line has no newline, with each of its reads failing in turn, and each write of its output. A call moves one byte."""
    lines = ["open 1 {}", 'put 1 a {"n":1}', "# a comment", "get 1 a", "search 1 {}", "refresh 1", "search 1 {}"]
    wanted = b'wrote 0 1 1 created\nack 0 1\nfound 0 1 1 {"n":1}\nhits 0\npoint 1\nhits 1 a\n'
    script = Path(f"{folder}/last-line-without-newline")
    script.write_text("\n".join(lines))
    if shim := shim_of("fail_stream", folder):
        for what in (script, "-"):
            # Two reads find the end: that of the last line, and that after it.
            fail_in_turn("FAIL_READ", what, script, shim, script.stat().st_size + 2, wanted)
            fail_in_turn("FAIL_WRITE", what, script, shim, len(wanted), wanted)


def fail_in_turn(name, what, script, shim, calls, wanted):
    text, bad = b"indexd: the script can't be read: Input/output error (os error 5)\n" if name == "FAIL_READ" else b"indexd: standard output: Input/output error (os error 5)\n", []
    for number in range(1, calls + 2):
        with open(script, "rb") as given:
            ran, was_reached = run_failing(["replay", what], shim, name, number, stdin=given)
        if was_reached != (number <= calls):
            bad.append(f"call {number} of {calls} is {'reached' if was_reached else 'not reached'}")
        why = not_all_right(ran, wanted)
        if was_reached:
            # (what stands in a buffer behind a write that failed may be written at the end)
            is_short = name == "FAIL_WRITE" and len(ran.stdout) < number - 1
            why = not_one_complaint(ran) or other_output(ran.stderr, text) or not_a_beginning(ran.stdout, wanted)
            why = why or (f"{len(ran.stdout)} bytes were written" if is_short else "")
        if why:
            bad.append(f"at call {number}: {why}")
    check(f"{name} at each call, replay {Path(what).name}", f"{len(bad)} faults, the first {bad[0]}" if bad else "")


def streams():
    script, wanted = CATALOGUE, wanted_of(CATALOGUE)

    def complains(name, ran, output=b""):
        """The output, where it could be seen, is a beginning of `output`."""
        check(name, not_one_complaint(ran) or not_a_beginning(ran.stdout or b"", output))

    with tempfile.TemporaryDirectory() as folder:
        failing_streams(folder)
        complains("a FILE that is missing", run(["replay", f"{folder}/missing.script"]))
        complains("a FILE in a folder that is missing", run(["replay", f"{folder}/missing/a.script"]))
        complains("a FILE that is a folder", run(["replay", folder]))
        complains("an empty name of a FILE", run(["replay", ""]))
        at = os.open(folder, os.O_RDONLY)
        ran = run(["replay", "-"], stdin=at)
        complains("standard input is a folder", ran)
        check("what is said of a folder", other_output(ran.stderr, b"indexd: the script can't be read: Is a directory (os error 21)\n"))
        os.close(at)
        closed_input = ["-c", 'exec "$0" replay - <&-', program()]
        check("a standard input that is closed is an empty script", not_all_right(run(closed_input, program="sh"), b""))
        for what in (script, "-"):
            with open(script, "rb") as given, open("/dev/full", "wb") as full:
                complains(f"standard output is full, replay {Path(what).name}", run(["replay", what], stdin=given, stdout=full))
            with open(script, "rb") as given:
                closed_output = ["-c", 'exec "$0" replay "$1" >&-', program(), what]
                ran = run(closed_output, program="sh", stdin=given)
                check(f"what is written to a standard output that is closed is gone, replay {Path(what).name}", not_all_right(ran, b""))
        reader, writer = os.pipe()
        os.close(reader)
        complains("standard output is a pipe that nobody reads", run(["replay", script], stdout=writer))
        os.close(writer)
        # A file that may hold so many bytes and no more: the signal for that stays ignored, as this process has it.
        for most in (0, 1, 40, 500):
            held = Path(f"{folder}/held-{most}")
            with open(held, "wb") as file:
                how = {"restore_signals": False, "preexec_fn": lambda: resource.setrlimit(resource.RLIMIT_FSIZE, (most, most))}
                ran = run(["replay", script], stdout=file, **how)
            why = not_one_complaint(ran) or other_output(ran.stderr, b"indexd: standard output: File too large (os error 27)\n")
            check(f"standard output takes {most} bytes", why or not_a_beginning(held.read_bytes(), wanted))
