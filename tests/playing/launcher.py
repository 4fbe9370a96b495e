"""./indexd: which program it runs, and what it says of a first build."""
import contextlib
import os
import re
import shutil
import signal
import socket
import subprocess
import tempfile
import time
from pathlib import Path

from checking import NAMED, ROOT, check, program
from playing.program import FIRST_RUN, front_of, not_all_right, not_one_complaint, other_output, run, wanted_of


def launcher():
    if NAMED:
        return
    how = {"program": str(ROOT / "indexd"), "cwd": FIRST_RUN.parent}
    with open(FIRST_RUN, "rb") as given:
        check("./indexd and standard input", not_all_right(run(["replay", "-"], stdin=given, **how), wanted_of(FIRST_RUN)))
    check("./indexd and a FILE of the folder it is called in", not_all_right(run(["replay", FIRST_RUN.name], **how), wanted_of(FIRST_RUN)))
    check("./indexd and a status of 1", not_one_complaint(run(["replay", "missing.script"], **how)))
    ran = run([], **how)
    check("./indexd and a status of 2", "" if ran.returncode == 2 else f"got {ran.returncode}")
    ends()
    with tempfile.TemporaryDirectory() as folder:
        tree = tree_without_sources(Path(folder))
        released(tree)
        first_build(tree)


def ends():
    """A server that ./indexd runs ends in order at a signal, though a connection is idle, and at once at a second one, though a page isn't read."""
    for name, one in (("SIGTERM", signal.SIGTERM), ("SIGINT", signal.SIGINT)):
        with launched() as (process, port), socket.create_connection(("127.0.0.1", port)) as idle:
            idle.sendall(b"GET /index/_count HTTP/1.1\r\n\r\n")
            idle.recv(65536)
            process.send_signal(one)
            check(f"./indexd serve at {name}", "" if process.wait(30) == 0 and idle.recv(1) == b"" else f"status {process.returncode}")
    with launched() as (process, port), socket.create_connection(("127.0.0.1", port)) as reader:
        source = b'{"t":"%s"}' % (b"x" * 60_000)
        for number in range(400):
            reader.sendall(b"PUT /index/_doc/%d HTTP/1.1\r\ncontent-length: %d\r\n\r\n%s" % (number, len(source), source))
            reader.recv(65536)
        reader.sendall(b"POST /index/_refresh HTTP/1.1\r\n\r\n")
        reader.recv(65536)
        reader.sendall(b'POST /index/_search HTTP/1.1\r\ncontent-length: 14\r\n\r\n{"size":10000}')
        reader.recv(1)
        process.send_signal(signal.SIGTERM)
        time.sleep(0.5)
        goes_on = process.poll() is None
        process.send_signal(signal.SIGTERM)
        check("./indexd serve at a second signal", "" if goes_on and process.wait(10) == 137 else f"status {process.poll()}, {goes_on}")


@contextlib.contextmanager
def launched():
    """A server by ./indexd, and its port."""
    with socket.socket() as taken:
        taken.bind(("127.0.0.1", 0))
        port = taken.getsockname()[1]
    words = [str(ROOT / "indexd"), "serve", "--port", str(port), "--refresh-ms", "0"]
    # (a background process of a shell ignores SIGINT, and so may this one)
    process = subprocess.Popen(words, stdin=subprocess.DEVNULL, stdout=subprocess.PIPE, stderr=subprocess.DEVNULL, preexec_fn=lambda: signal.signal(signal.SIGINT, signal.SIG_DFL))
    try:
        process.stdout.readline()
        yield process, port
    finally:
        process.kill()
        process.communicate()


# In place of the kit's command: its own crates.txt gives the tasks, each of which ends with status 3 where FAILS names its crate, and the last one's program is ours.
KIT = """#!/usr/bin/env python3
import os, shutil, sys, time
from pathlib import Path

PROGRAM = {program!r}


def free():
    return 64_000_000_000


class Crate:
    allowed = ()


class Kept:
    def __init__(self, crates):
        self.rlibs = {{}}


def handles_of(root):
    return ()


def crates_of(root):
    return []


def in_lanes(tasks):
    raise NotImplementedError("this order isn't the one that .ci/build asks for")


def where_disk_lasts(call, *given):
    return call(*given)


def proof(name):
    def call(given, jobs):
        print("what the prover says of " + name + " with " + str(jobs) + "\\n", end="")  # (one write: other threads print too)
        time.sleep(float(os.environ.get("SLEEPS", "0")))
        return 3 if name == os.environ.get("FAILS") else 0
    return call


def ci(anew, names=()):
    rows = [it.partition("#")[0].partition(":") for it in Path("crates.txt").read_text().splitlines()]
    below = {{head.split()[0]: rest.split() for head, colon, rest in rows if colon}}
    tasks = {{(it, "proof"): ([(other, "proof") for other in below[it] if other in (names or below)], 1, 1, proof(it)) for it in names or below}}
    status = max(in_lanes(tasks).values())
    if not names and not status:
        Path("crates/indexd/out").mkdir(parents=True)
        shutil.copy(PROGRAM, "crates/indexd/out/indexd")
    return status


if __name__ == "__main__":
    print(Path(__file__).resolve().parent.parent / "START-HERE.md")
"""


def tree_without_sources(folder):
    """A tree with the files of a first build and a crate's folder for each crate, and in place of the kit a folder of ours."""
    tree, rt = folder / "tree", folder / "kit/bin/rt"
    shutil.copytree(ROOT / ".ci", tree / ".ci")
    for name in ("indexd", "crates.txt", "HANDLES"):
        shutil.copy2(ROOT / name, tree / name)
    lines = [it.partition("#")[0].partition(":") for it in (tree / "crates.txt").read_text().splitlines()]
    for name in [head.split()[0] for head, colon, _ in lines if colon]:
        (tree / f"crates/{name}/src").mkdir(parents=True)
        (tree / f"crates/{name}/src/lib.rt").write_text(f"// {name}\n")
    rt.parent.mkdir(parents=True)
    (rt.parent.parent / "START-HERE.md").write_text("a kit for tests\n")
    rt.write_text(KIT.format(program=program()))
    rt.chmod(0o755)
    return tree


def started(tree, *words, fails="", command="indexd", **how):
    for it in tree.glob("crates/*/out"):
        shutil.rmtree(it)
    env = {**os.environ, "PATH": f"{tree.parent}/kit/bin:{os.environ['PATH']}", "TMPDIR": str(tree.parent), "FAILS": fails}
    return run([*words] or ["replay", FIRST_RUN], program=str(tree / command), env=env, **how)


def released(tree):
    """A released program of these sources is run at once, and one of others isn't."""
    folder = tree / "release"
    folder.mkdir()
    (folder / "indexd").write_text("#!/bin/sh\necho released $*\n")
    (folder / "indexd").chmod(0o755)
    sources = subprocess.run([tree / ".ci/sources"], capture_output=True, text=True).stdout.strip()
    (folder / "MADE").write_text(f"sources {sources}\nkit none\n")
    ran = started(tree, "replay", "-")
    check("a released program of these sources is run at once", "" if (ran.stdout, ran.stderr) == (b"released replay -\n", b"") else f"got {ran.stdout}, {ran.stderr}")
    (tree / "crates/doc/src/lib.rt").write_text("// changed\n")
    ran = started(tree)
    check("a released program of other sources isn't run", other_output(ran.stdout, wanted_of(FIRST_RUN)))
    ran = started(tree, "--build")
    check("./indexd --build builds, and runs nothing", "" if ran.returncode == 0 and not ran.stdout and (tree / "crates/indexd/out/indexd").exists() else f"got {ran.returncode}, {ran.stdout}")
    shutil.rmtree(folder)


def first_build(tree):
    """What ./indexd says of a first build."""
    ran = started(tree)
    said = ran.stderr.decode().splitlines()
    why = other_output(ran.stdout, wanted_of(FIRST_RUN)) or (f"status {ran.returncode}, it said {said}" if ran.returncode else "")
    wanted = [r"indexd: no program of these sources is there, .*", r"indexd: with \d crates at one time that takes about \d+ minutes", r"indexd: built after \d+\.\d minutes"]
    is_told = len(said) == len(wanted) and all(map(re.fullmatch, wanted, said))
    check("a first build says how long it will take, and when it is done", why or ("" if is_told else f"it said {said}"))

    text = (tree / ".ci/build").read_text()
    (tree / ".ci/build").write_text(text.replace("MINUTE = 60", "MINUTE = 0.3"))
    os.environ["SLEEPS"] = "0.2"
    said = started(tree).stderr.decode().splitlines()[2:-1]
    del os.environ["SLEEPS"]
    (tree / ".ci/build").write_text(text)
    told = [re.fullmatch(r"indexd: (\d+) of (\d+) crates proved, after \d+\.\d minutes; about \d+ are left", it) for it in said]
    counts = [int(it[1]) for it in told if it]
    check("a first build says each minute how far it is", "" if len(told) > 3 and all(told) and counts == sorted(counts) else f"it said {said}")

    ran = started(tree, fails="doc")
    log = re.search(rb"indexd: not built; what was said stands in (\S+)\n$", ran.stderr)
    is_told = ran.returncode == 3 and not ran.stdout and log and "what the prover says of doc" in Path(log[1].decode()).read_text()
    check("a first build that fails names a file", "" if is_told else f"status {ran.returncode}, {front_of(ran.stderr)}")

    ran = started(tree, "doc", command=".ci/build")
    is_told = ran.returncode == 0 and not ran.stdout and b"indexd: built after" in ran.stderr
    check(".ci/build NAME proves that crate, and builds no program", "" if is_told and not (tree / "crates/indexd/out").exists() else f"status {ran.returncode}, {front_of(ran.stderr)}")
