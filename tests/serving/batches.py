"""Many clients whose writes share a sync (`--sync together`): what is confirmed is on the disk, whatever fails, ends or is refused beside it."""
import random
import select
import socket
import tempfile
import time
from concurrent.futures import ThreadPoolExecutor
from pathlib import Path

from checking import Told, check, shim_of, shown
from disk import crashes, logs
from serving.pages import Client, page_names, put_of, puts, request_of, sources, write_by
from serving.recorded import Recorded, found_again, shims_of, unkept
from serving.server import SECONDS, Server, at_once, dump, is_kept, rest_of, scratch

TOGETHER = ("--sync", "together")
CREATE = b"PUT /books/_doc/first?op_type=create HTTP/1.1\r\ncontent-length: 2\r\n\r\n{}"

FIRST = ("put", b"first", b"{}")
REFRESH = b"POST /books/_refresh HTTP/1.1\r\n\r\n"
SEARCH = b'POST /books/_search HTTP/1.1\r\ncontent-length: 38\r\n\r\n{"query":{"match_all":{}},"size":1000}'


def batches():
    with scratch() as top:
        if shim := shims_of(top, "record_files"):
            for copies in (1, 3):
                shared(shim, copies)
        if shim := shims_of(top, "fail_file", "record_files"):
            for call, copies, copy in (("sync", 1, 1), ("write", 1, 1), ("half", 1, 1), ("sync", 3, 1), ("half", 3, 2)):
                failing(shim, call, copies, copy)
        if shim := shim_of("slow_sync", top):
            for copies in (1, 3):
                waiting(shim, copies)
                killed_before(shim, copies)


def write_at_once(run, server, clients, each):
    """So many clients write so many documents each, all of different names; one more creates a document that is there again and again, and one refreshes and
    searches. The pages of the writes."""
    deeds, pages = [puts(at * each, at * each + each, 300) for at in range(clients)], []

    def write(client):
        with Client(server) as connection:
            for deed in deeds[client] if client < clients else [None] * each:
                if client > clients:
                    connection.ask(REFRESH)
                    connection.ask(SEARCH)
                else:
                    pages.append((deed, connection.ask(request_of(deed) if deed else CREATE)))

    at_once(clients + 2, write)
    run.deeds += [deed for them in deeds for deed in them]
    return pages


def in_order(run):
    """Puts the deeds into the order in which their pages were sent; one that is refused counts as none, and so do refreshes and searches."""
    named = {write_by(it)[0].decode(): it for it in run.deeds}
    pages = [page for _, page in crashes.pages_in(run.record.read_bytes())]
    run.deeds = [named[it["_id"]] if "_id" in it else ("get", b"") for it in pages]
    return pages


def shared(shim, copies):
    """Writes that wait for a sync share the next one; each that is confirmed was synced by then in every copy in sync, and one that is refused hinders none."""
    name = f"{copies} copies, syncs together"
    with scratch() as top:
        run = Recorded(top, shim)
        with run.server("--copies", copies, *TOGETHER) as server:
            run.do(server, [FIRST])
            pages = write_at_once(run, server, 16, 20)
        statuses = [it.get("status", 201 if it.get("result") == "created" else 200) for _, it in pages]
        is_kept(f"{name}: each write is confirmed but those of a document that is there", (statuses.count(409), statuses.count(201) + statuses.count(200)), (20, 320))
        record = [words for words, _ in crashes.entries(run.record.read_bytes())]
        inodes = {it[1] for it in record if it[0] == "name" and it[2].startswith("copy-")}
        syncs = sum(it[0] == "sync" and it[1] in inodes for it in record) / copies
        check(f"{name}: few syncs for many writes", "" if syncs < 160 else f"{syncs} syncs a copy for 320 writes")
        in_order(run)
        check(f"{name}: what is confirmed is on the disk of each copy in sync", unkept(run)[0])
        check(f"{name}: what a search finds is on the disk of the copy that leads", shown_early(run))
        check(f"{name}: after a crash", crashed(run, copies))


def shown_early(run):
    """Which documents a search found that weren't on the disk of copy 1 when its page was sent."""
    pages, seen, found = [it for _, it in crashes.pages_in(run.record.read_bytes())], 0, 0
    for _, disk, answered in run.places():
        for page in pages[seen:answered]:
            if hits := page.get("hits", {}).get("hits"):
                held = {it[0] for it in logs.held(disk.kept().get("copy-1.rsx", b"")).values()}
                if early := [it["_id"] for it in hits if it["_id"].encode() not in held]:
                    return f"{early}"
                found += len(hits)
        seen = answered
    return "" if found else "no search found anything"


def crashed(run, copies, most=24):
    """Opens folders that a crash could leave at some places of the record: each has what was confirmed by then, and nothing that was never written."""
    chance, writes, chosen = random.Random(copies), [*map(write_by, run.deeds)], []
    count = sum(1 for _ in crashes.entries(run.record.read_bytes()))
    places = {*chance.sample(range(count), min(count, most))}
    for place, (_, disk, answered) in enumerate(run.places()):
        if place in places:
            chosen.append((chance.choice([*disk.folders()]), answered))
    with ThreadPoolExecutor(4) as pool:
        whys = [*filter(None, pool.map(lambda it: opened_after(it[0], copies, writes, it[1]), chosen))]
    print(f"{copies} copies, syncs together: {len(chosen)} folders that a crash could leave", flush=True)
    return f"{len(whys)} of {len(chosen)}: {whys[0]}" if whys else ""


def opened_after(files, copies, writes, answered, tries=3):
    with scratch() as top:
        folder = Path(top, "books")
        folder.mkdir()
        for name, bytes_ in files.items():
            (folder / name).write_bytes(bytes_)
        with Server("--data", folder, "--copies", copies, *TOGETHER) as server:
            if not server.listens:
                said = server.process.stderr.read()
                return opened_after(files, copies, writes, answered, tries - 1) if b"--port" in said and tries else f"no start: {shown(said)}"
            if (got := page_names(server.ask(put_of(b"after", b"{}")))) != [(201, "")]:
                return f"no more is written: {got}"
        lines = dump("--data", folder).stdout.splitlines()
        found = {line.split(b'"')[5]: source for line, source in zip(lines[::2], lines[1::2])}
        lost = [it for it in writes[:answered] if it and found.get(it[0]) != it[1]]
        never = [it for it in found.items() if it not in writes and it[0] != b"after"]
        return f"confirmed, and lost: {lost[0]}" if lost else f"never written: {never[0]}" if never else ""


def failing(shim, call, copies, copy):
    """Each such call on a copy's file fails in turn: nothing that waits for it is confirmed, all that was confirmed is found, and writes go on."""
    name, bad, refused, number = f"{copies} copies, syncs together, each {call} of copy {copy} failing", [], 0, 0
    while not bad and number < 14:
        number += 1
        with scratch() as top, Told() as told:
            run = Recorded(top, shim, FAIL_CALL=call, FAIL_AT=str(number), FAIL_NAME=f"copy-{copy}.rsx", TOLD_FD=str(told.writes))
            with run.server("--copies", copies, *TOGETHER, pass_fds=[told.writes]) as server:
                if not server.listens:
                    continue
                run.do(server, [FIRST])
                write_at_once(run, server, 6, 4)
                more, end = {"error": None}, time.monotonic() + SECONDS
                while "error" in more and time.monotonic() < end:
                    more = run.do(server, [("put", b"later", b"{}")])[0][0]
                was_told = told.heard()
            pages = in_order(run)
            refused += sum(it.get("status") == 503 for it in pages)
            why = "no more is written" if "error" in more else unkept(run)[0] or found_again(run, pages, "--copies", copies, *TOGETHER)
            if why:
                bad.append(f"at call {number}: {why}")
            if not was_told:
                break
    print(f"{name}: {number - 1} calls failed, each in a run of its own, {refused} writes refused", flush=True)
    check(name, bad[0] if bad else "" if number > 3 and (refused or copy > 1) else f"{number} runs, {refused} writes refused")


def waiting(shim, copies):
    """While a sync waits nothing is answered that waits for it; then all is, also a write that is refused."""
    name = f"{copies} copies, a sync that waits"
    with tempfile.TemporaryDirectory() as top, Told() as told:
        gate = Path(top, "gate")
        with Server("--data", f"{top}/books", "--copies", copies, *TOGETHER, env=told.settings(shim, SYNC_GATE=gate), pass_fds=[told.writes]) as server:
            server.ask(put_of(b"first", b"{}"))
            told.heard()
            gate.touch()
            writers = [server.connect() for _ in range(10)]
            for at, it in enumerate(writers):
                it.sendall(CREATE if at == 5 else put_of(b"w%d" % at, b"{}"))
            was_told = told.heard(SECONDS)
            time.sleep(0.3)
            early = select.select(writers, [], [], 0)[0]
            gate.unlink()
            for it in writers:
                it.shutdown(socket.SHUT_WR)
            got = [page_names(rest_of(it))[0][0] for it in writers]
        check(f"{name}: nothing is answered", "" if was_told and not early else f"{len(early)} answers" if early else "no sync")
        is_kept(f"{name}: then all is", got, [409 if at == 5 else 201 for at in range(10)])


def killed_before(shim, copies):
    """A kill between appends and their sync: what was confirmed is found, and of the others each is there or not."""
    name = f"{copies} copies, a kill before a sync"
    with tempfile.TemporaryDirectory() as top, Told() as told:
        gate, folder = Path(top, "gate"), Path(top, "books")
        with Server("--data", folder, "--copies", copies, *TOGETHER, env=told.settings(shim, SYNC_GATE=gate), pass_fds=[told.writes]) as server:
            confirmed = page_names(server.ask(*(put_of(b"%d" % it, b'{"n":%d}' % it) for it in range(5))))
            told.heard()
            gate.touch()
            writers = [server.connect() for _ in range(8)]
            for at, it in enumerate(writers):
                it.sendall(put_of(b"w%d" % at, b'{"n":%d}' % at))
            was_told = told.heard(SECONDS)
            time.sleep(0.3)
            early = select.select(writers, [], [], 0)[0]
            server.process.kill()
            server.process.wait()
        gate.unlink()
        check(f"{name}: nothing is answered", "" if was_told and not early else f"{len(early)} answers" if early else "no sync")
        with Server("--data", folder, "--copies", copies, *TOGETHER) as server:
            found = sources(server, [b"%d" % it for it in range(5)] + [b"w%d" % it for it in range(8)]) if server.listens else []
            more = page_names(server.ask(put_of(b"more", b"{}"))) if server.listens else []
        good = confirmed == [(201, "")] * 5 and found[:5] == [{"n": it} for it in range(5)] and all(it in (None, {"n": at}) for at, it in enumerate(found[5:]))
        check(f"{name}: what was confirmed is found", "" if good else f"{confirmed}, {found}")
        check(f"{name}: and writes go on", "" if more == [(201, "")] else repr(more))
