"""The folders that a loss of power could leave of what a server does: they open, and have what was confirmed."""
import hashlib
import os
import random
import time
import typing
from concurrent.futures import ThreadPoolExecutor
from pathlib import Path

from checking import check, shown
from disk import logs
from serving.pages import page_names, put_of, puts, write_by
from serving.recorded import Recorded, shims_of, unkept
from serving.server import SECONDS, Server, dump, scratch

TORN = logs.written(0, logs.index(9, 1, 1, b"torn", b'{"s":"%s"}' % (b"x" * 1000)))[:900]
# Each has runs of a server over one folder: what was torn before the run, how many copies are asked for, and what is done.
STORIES = {
    "one copy begins": [({}, 1, puts(0, 2) + puts(2, 4, 1300) + [("delete", b"0"), ("put", b"1", b'{"n":9}')])],
    "three copies begin": [({}, 3, puts(0, 2) + puts(2, 3, 700) + [("delete", b"0"), ("put", b"1", b'{"n":9}')])],
    "one copy with a torn end": [({}, 1, puts(0, 3)), ({"copy-1.rsx": TORN, "master.log": b"\5\0"}, 1, puts(3, 5)), ({}, 1, puts(5, 6))],
    "three copies with torn ends": [({}, 3, puts(0, 2)), ({"copy-1.rsx": TORN, "copy-3.rsx": TORN[:3], "master.log": b"\5\0\0\0\2"}, 3, puts(2, 4))],
    "a promotion": [({}, 3, puts(0, 2) + [("promote", b"2")] + puts(2, 4) + [("promote", b"3")] + puts(4, 5))],
    "two copies join": [({}, 1, puts(0, 2)), ({}, 3, puts(2, 4))],
}


def some_story(seed):
    """Runs of some copies with documents of all sizes, torn ends of some files, and promotions."""
    chance = random.Random(seed)
    most, runs = chance.choice((1, 1, 2, 3, 5)), []
    for at in range(3):
        copies, deeds = chance.randint(1, most) if at == 0 else most, []
        for number in range(chance.randint(2, 6)):
            name = b"%d" % chance.randrange(6)
            deeds += [("delete", name)] if chance.random() < 0.2 else [("put", name, b'{"n":%d,"s":"%s"}' % (number, b"x" * chance.choice((0, 300, 1_000, 5_000))))]
        torn = {file: TORN[:chance.randint(1, 900)] for file in ("copy-1.rsx",) if at and chance.random() < 0.7}
        torn |= {"master.log": b"\5\0\0\0\2\3"[:chance.randint(1, 6)]} if at and chance.random() < 0.5 else {}
        if at == 2 and most > 1:
            deeds.insert(chance.randrange(len(deeds)), ("promote", b"2"))
        runs.append((torn, copies, deeds))
    return runs


class Crash(typing.NamedTuple):
    """A folder that a crash could leave: its files, how many copies are asked for, what was written, and how much of that is there at least and at most."""
    place: str
    files: dict
    copies: str
    writes: list
    least: int
    most: int


def power():
    """A server in a folder is recorded; the folders that a crash could leave at each place of the record are opened, or some of them."""
    more = {f"story {seed}": some_story(seed) for seed in range(int(os.environ.get("STORIES") or 0))}
    with scratch() as top:
        if shim := shims_of(top, "record_files"):
            for name, runs in {**STORIES, **more}.items():
                power_in(name, runs, shim)
        if shim := shims_of(top, "fail_file", "record_files"):
            for copies in (1, 3):
                lying_disk(shim, copies)


def power_in(name, runs, shim):
    begun, most = time.monotonic(), int(os.environ.get("POWER") or 30)
    found = crashes_in(name, runs, shim)
    chosen = random.Random(name).sample(found, min(len(found), most))
    with ThreadPoolExecutor(int(os.environ.get("JOBS") or os.cpu_count())) as pool:
        whys = [*pool.map(opened_after, chosen)]
    bad = [f"{it.place}: {why}" for it, why in zip(chosen, whys) if why]
    print(f"{name}: {len(chosen)} of {len(found)} folders that a crash could leave, in {time.monotonic() - begun:.0f} seconds", flush=True)
    check(f"{name}, after a crash", f"{len(bad)} folders are wrong, and of the first: {bad[0]}" if bad else "" if found else "no folder")


def crashes_in(name, runs, shim):
    """Has a server do the runs, one after the other, and gives each folder once that a crash could leave."""
    found = {}
    with scratch() as top:
        run = Recorded(top, shim)
        why = "; ".join(filter(None, [done_in(run, copies, torn, deeds) for torn, copies, deeds in runs]))
        check(f"{name}: each deed is done", why)
        writes = [*map(write_by, run.deeds)]
        for place, (words, disk, answered) in enumerate(run.places()):
            least, most = (len([*filter(None, writes[:end])]) for end in (answered, answered + 1))
            if words[0] == "run":
                copies = words[1]
            for files in disk.folders():
                key = hashlib.sha256(repr((copies, sorted(files.items()))).encode()).digest()
                old = found.get(key)
                bounds = (max(least, old.least), min(most, old.most)) if old else (least, most)
                found[key] = Crash(f"place {place} ({' '.join(words)})", files, copies, [*filter(None, writes)], *bounds)
    return [*found.values()]


def done_in(run, copies, torn, deeds):
    """One run: first some document is written until each copy has joined. Says what isn't done of it."""
    for file, bytes_ in torn.items():
        run.tear(file, bytes_)
    run.mark(copies)
    with run.server("--copies", copies) as server:
        if not server.listens:
            return f"no start: {shown(server.process.stderr.read())}"
        pages, end = [], time.monotonic() + SECONDS
        while not (pages and pages[-1].get("_shards", {}).get("total") == copies) and time.monotonic() < end:
            pages += [it for it, _ in run.do(server, [("put", b"join", b'{"n":%d}' % len(run.deeds))])]
        pages += [it for it, _ in run.do(server, deeds)]
    return next((repr(it) for it in pages if "error" in it), "")


def opened_after(crash, tries=3):
    """Opens a folder that a crash left, puts one more document, and says what is wrong there. A port may be taken meanwhile, where several servers start."""
    with scratch() as top:
        folder = Path(top, "books")
        folder.mkdir()
        for name, bytes_ in crash.files.items():
            (folder / name).write_bytes(bytes_)
        with Server("--data", folder, "--copies", crash.copies) as server:
            if not server.listens:
                said = server.process.stderr.read()
                return opened_after(crash, tries - 1) if b"--port" in said and tries else f"no start over {sorted(crash.files)}: {shown(said)}"
            if (got := page_names(server.ask(put_of(b"after", b"{}")))) != [(201, "")]:
                return f"no more is written: {got}"
        dumped = dump("--data", folder)
        wanted = [dump_of([*crash.writes[:count], (b"after", b"{}")]) for count in range(crash.least, crash.most + 1)]
        if dumped.stdout not in wanted:
            return f"{shown(dumped.stdout + dumped.stderr)}, and wanted is {' or '.join(map(shown, wanted))}"
        in_sync = logs.ruled((folder / "master.log").read_bytes())[2]
        held = [dump_of(logs.documents((folder / f"copy-{it}.rsx").read_bytes()).items()) for it in in_sync]
        return "" if all(it == dumped.stdout for it in held) else f"copies {in_sync} hold {held}"


def dump_of(writes):
    """What a dump gives after some writes."""
    found = {}
    for name, source in writes:
        found.pop(name, None)
        if source is not None:
            found[name] = source
    return b"".join(b'{"index":{"_id":"%s"}}\n%s\n' % it for it in found.items())


def lying_disk(shim, copies):
    """Where syncs do nothing a confirmed write isn't on the disk, and so `unkept` says."""
    with scratch() as top:
        run = Recorded(top, shim, FAIL_CALL="lie", FAIL_GATE=top)
        with run.server("--copies", copies) as server:
            run.do(server, puts(0, 3))
        check(f"syncs that do nothing are noticed, {copies} copies", "" if unkept(run)[0] else "they aren't")
