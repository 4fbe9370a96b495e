"""Kept folders whose logs differ, each of them missing, damaged or torn: which copy leads then, and what is found."""
import time
from pathlib import Path

from checking import check, shown
from disk import logs
from serving.pages import bodies, page_names, put_of, sources
from serving.server import SECONDS, Server, complains, free_port, is_kept, ran, scratch


def leaders():
    """Kept folders whose logs differ, each of them whole, missing, damaged or torn: which copy leads then, which are in sync, and what is found."""
    leaders_of_the_first_term()
    leaders_of_a_later_term()
    leaders_with_gaps()
    lost_by_the_last_primary()


def op_of(number, term=1, n=None, version=1):
    return logs.index(number, term, version, b"%d" % number, b'{"n":%d}' % (number if n is None else n))


def first_term(copies, known=(-1, 0, 1, 1)):
    """The logs of copies in term 1 that have so many operations, and the checkpoints that were known before each."""
    return {f"copy-{at}.rsx": logs.copy(*(logs.written(known[it], op_of(it)) for it in range(count))) for at, count in enumerate(copies, 1)}


def changed_in(files, **how):
    """Files with those of some copies missing, damaged or torn."""
    files = dict(files)
    for what, copies in how.items():
        for name in [f"copy-{it}.rsx" for it in copies]:
            held = files.pop(name)
            if what != "missing":
                files[name] = held[:-1] if what == "torn" else held[:8] + b"\x09" + held[9:]
    return files


def led(name, master, files, leader, in_sync, documents, said=()):
    """Starts over a folder with these logs, and looks who leads, who is in sync once one more is written, what is found, what is said of which copies, and
    that files that didn't open, or weren't to be, are as they were."""
    with scratch() as top:
        folder = Path(top, "books")
        folder.mkdir()
        for file, bytes_ in {"mapping.json": b"{}\n", "master.log": master, **files}.items():
            (folder / file).write_bytes(bytes_)
        with Server("--data", folder) as server:
            if not server.listens:
                return check(f"{name}: it starts", shown(server.process.stderr.read()))
            found = [it and it["n"] for it in sources(server, [b"%d" % it for it in range(6)])]
            is_kept(f"{name}: documents", found, [documents.get(it) for it in range(6)])
            end, total = time.monotonic() + SECONDS, None
            while total != len(in_sync) and time.monotonic() < end:
                total = bodies(server.ask(put_of(b"more", b'{"n":0}')))[0].get("_shards", {}).get("total")
            server.process.kill()
            told = server.process.communicate()[1].decode().splitlines()
        after = {it.name: it.read_bytes() for it in folder.iterdir()}
        is_kept(f"{name}: the copy that leads, and those in sync", logs.ruled(after["master.log"])[1:3], (leader, [*in_sync]))
        is_kept(f"{name}: the copies that are told of", sorted(it[:len("indexd: copy 1: ")] for it in told if " torn bytes " not in it), [f"indexd: copy {it}: " for it in said])
        held = [logs.documents(after[f"copy-{it}.rsx"]) for it in in_sync]
        check(f"{name}: copies in sync hold the same", "" if all(it == held[0] for it in held) else repr(held))
        unopened = [f"copy-{it}.rsx" for it in range(1, 4) if it in said or it not in logs.ruled(master)[2]]
        is_kept(f"{name}: the files of the others", {it: after[it] for it in unopened if it in after}, {it: files[it] for it in unopened if it in files})


def leaders_of_the_first_term():
    master, files = logs.master(3), first_term((4, 3, 2))
    three, four = {it: it for it in range(3)}, {it: it for it in range(4)}
    led("three logs", master, files, 1, [1, 2, 3], four)
    led("three logs, 1 torn", master, changed_in(files, torn=[1]), 1, [1, 2, 3], three)
    led("three logs, 2 torn", master, changed_in(files, torn=[2]), 1, [1, 2, 3], four)
    # What the primary knew as confirmed isn't in its resync, so a copy that has lost it can't take that.
    led("three logs, 3 torn", master, changed_in(files, torn=[3]), 1, [1, 2], four)
    for how in ("missing", "damaged"):
        led(f"three logs, 1 {how}", master, changed_in(files, **{how: [1]}), 2, [2, 3], three, [1])
        led(f"three logs, 2 {how}", master, changed_in(files, **{how: [2]}), 1, [1, 3], four, [2])
        led(f"three logs, 3 {how}", master, changed_in(files, **{how: [3]}), 1, [1, 2], four, [3])
        led(f"three logs, 1 and 2 {how}", master, changed_in(files, **{how: [1, 2]}), 3, [3], {0: 0, 1: 1}, [1, 2])
        led(f"three logs, 1 {how}, 2 torn", master, changed_in(files, torn=[2], **{how: [1]}), 2, [2, 3], {0: 0, 1: 1}, [1])
    led("a torn log of the master", logs.master(3, (2, 2))[:-1], files, 1, [1, 2, 3], four)


def leaders_of_a_later_term():
    """Copy 2 was promoted: copy 1, which has more, is gone, whatever becomes of the others."""
    master, resync = logs.master(3, (2, 2)), logs.resync(2, 1, op_of(2))
    first = first_term((4, 3, 2))
    files = {"copy-1.rsx": first["copy-1.rsx"], "copy-2.rsx": first["copy-2.rsx"] + resync + logs.written(1, op_of(3, 2, 33)), "copy-3.rsx": first["copy-3.rsx"] + resync}
    three, four = {it: it for it in range(3)}, {0: 0, 1: 1, 2: 2, 3: 33}
    led("a later term", master, files, 2, [2, 3], four)
    led("a later term, 1 missing", master, changed_in(files, missing=[1]), 2, [2, 3], four)
    led("a later term, 2 torn", master, changed_in(files, torn=[2]), 2, [2, 3], three)
    led("a later term, 3 torn", master, changed_in(files, torn=[3]), 2, [2, 3], four)
    for how in ("missing", "damaged"):
        led(f"a later term, 2 {how}", master, changed_in(files, **{how: [2]}), 3, [3], three, [2])
        led(f"a later term, 3 {how}", master, changed_in(files, **{how: [3]}), 2, [2], four, [3])
    with scratch() as top:
        for file, bytes_ in {"mapping.json": b"{}\n", "master.log": master, **changed_in(files, missing=[2, 3])}.items():
            Path(top, file).write_bytes(bytes_)
        complains("a later term, 2 and 3 missing", ran("--port", free_port(), "--data", top), 1, "no copy could be opened", "copy 2: ", "copy 3: ")
        is_kept("and the first copy's file is as it was", Path(top, "copy-1.rsx").read_bytes(), files["copy-1.rsx"])


def leaders_with_gaps():
    """A copy that leads without an operation in between does nothing at its number."""
    files = {"copy-1.rsx": first_term((3,), (-1, -1, -1))["copy-1.rsx"], "copy-2.rsx": logs.copy(logs.written(-1, op_of(0)), logs.written(-1, op_of(2))),
             "copy-3.rsx": logs.copy(logs.written(-1, op_of(1)))}
    led("a gap at another copy", logs.master(3), files, 1, [1, 2, 3], {0: 0, 1: 1, 2: 2})
    led("a gap at the copy that leads", logs.master(3), changed_in(files, missing=[1]), 2, [2, 3], {0: 0, 2: 2}, [1])
    led("a gap at the first number", logs.master(3), changed_in(files, missing=[1, 2]), 3, [3], {1: 1}, [1, 2])


def lost_by_the_last_primary():
    """A primary keeps an operation before it sends it: where another copy in sync has one that the last primary's log lacks, that log has lost it, and the
    copy that has it leads."""
    master, files = logs.master(3), first_term((3, 3, 3))
    lost_in("its last operation is torn", master, changed_in(files, torn=[1]), 1, 2)
    lost_in("two operations are gone", master, first_term((1, 3, 2)), 1, 2)
    lost_in("the least other has lost it too", master, changed_in(files, torn=[1, 2]), 1, 3)
    lost_in("all are gone", master, {**files, "copy-1.rsx": b"RSX1"}, 1, 2)
    later = {it: held + logs.resync(2, 1, op_of(2)) for it, held in first_term((3, 2, 2)).items()}
    lost_in("of a later term", logs.master(3, (2, 2)), changed_in(later, torn=[2]), 2, 3)


def lost_in(name, master, files, last, leader):
    with scratch() as top:
        for file, bytes_ in {"mapping.json": b"{}\n", "master.log": master, **files}.items():
            Path(top, file).write_bytes(bytes_)
        with Server("--data", top) as server:
            is_kept(f"the last primary's log has lost something, {name}: all is found", sources(server, [b"0", b"1", b"2"]), [{"n": 0}, {"n": 1}, {"n": 2}])
            is_kept(f"{name}: one more is written", page_names(server.ask(put_of(b"more", b"{}"))), [(201, "")])
            server.process.kill()
            said = server.process.communicate()[1]
        term, primary, in_sync, _ = logs.ruled(Path(top, "master.log").read_bytes())
        is_kept(f"{name}: the copy that leads", primary, leader)
        held = [logs.documents(Path(top, f"copy-{it}.rsx").read_bytes()) for it in in_sync]
        check(f"{name}: copies in sync hold the same", "" if all(it == held[0] for it in held) and len(held[0]) == 4 else repr(held))
        check(f"{name}: a line says so", "" if any(it.startswith(b"indexd: copy %d " % last) for it in said.splitlines()) else shown(said))
