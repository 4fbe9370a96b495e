"""Disks that fail to write or to sync, and disks without room."""
import json
import tempfile
import time
from pathlib import Path

from checking import Told, check, shown
from serving.answered import bulk_of
from serving.pages import bodies, page_names, promote_of, put_of, puts, sources
from serving.recorded import Recorded, found_again, shims_of, unkept
from serving.server import MOST_BAD_RUNS, SECONDS, Server, is_kept, scratch


def broken():
    """Disks that write nothing, or half, or a part, or don't sync: what is confirmed was on the disk of each copy that counts, and is found again."""
    with scratch() as top:
        if shim := shims_of(top, "fail_file", "record_files"):
            for call in ("write", "half", "sync"):
                for copies in (1, 3):
                    broken_in_turn(shim, call, copies)
                    broken_for_all(shim, call, copies)
                for number in (2, 3):
                    broken_copy(shim, call, number)
                broken_primary(shim, call)
                broken_master(shim, call)
            for copies in (1, 3):
                short_writes(shim, copies)
            unrefreshed(shim)


def broken_in_turn(shim, call, copies):
    """One call of a run fails, each in turn. Over one copy the write that comes to it is refused."""
    name, bad, number, most = f"{copies} copies, each {call} failing", [], 0, 200
    while len(bad) < MOST_BAD_RUNS and number < most:
        number += 1
        with scratch() as top, Told() as told:
            run = Recorded(top, shim, FAIL_CALL=call, FAIL_AT=str(number), TOLD_FD=str(told.writes))
            with run.server("--copies", copies, pass_fds=[told.writes]) as server:
                was_told, answered = told.heard(), []
                if server.listens:
                    answered = run.do(server, puts(0, 4) + [("put", b"1", b'{"n":9}'), ("delete", b"2")], told.heard)
                else:
                    server.process.wait(SECONDS)
                    said = server.process.stderr.read()
                    why = "" if was_told and said.startswith(b"indexd: ") and said.count(b"\n") == 1 else f"no start: {shown(said)}"
                was_told = was_told or any(it for _, it in answered)
            if server.listens:
                taken = [deed for deed, (page, failed) in zip(run.deeds, answered) if failed and "error" not in page]
                why = f"{taken[0]} is confirmed" if taken and copies == 1 else unkept(run)[0]
                why = why or ("" if was_told or all("error" not in page for page, _ in answered) else "a write is refused, and nothing failed")
            why = why or found_again(run, [page for page, _ in answered], "--copies", copies)
            if why:
                bad.append(f"at call {number}: {why}")
            if not was_told:
                break
    print(f"{name}: {number - 1} calls failed, each in a run of its own", flush=True)
    check(name, bad[0] if bad else "" if 5 < number < most else f"{number} runs")


def broken_for_all(shim, call, copies):
    """From a moment on each such call fails, of each file: each write is refused until that is over, and gets go on."""
    name = f"{copies} copies, from a moment on no {call}"
    with scratch() as top:
        gate = Path(top, "gate")
        run = Recorded(top, shim, FAIL_CALL=call, FAIL_GATE=str(gate))
        with run.server("--copies", copies) as server:
            answered = run.do(server, puts(0, 3))
            gate.touch()
            refused = run.do(server, puts(3, 8) + [("put", b"1", b'{"n":9}'), ("delete", b"2"), ("get", b"0")])
            check(f"{name}: each write is refused", "" if all(it.get("status") == 503 for it, _ in refused[:-1]) else repr(refused))
            # A copy whose file can't be cut and synced stays closed.
            got = refused[-1][0]
            check(f"{name}: gets go on", "" if got.get("_source") == {"n": 0} or call == "sync" and got.get("status") == 503 else repr(got))
            gate.unlink()
            more = []
            while len(more) < 100 and not (more and "error" not in more[-1][0]):
                more += run.do(server, [("put", b"later", b"{}")])
            check(f"{name}: a write once that is over", "" if "error" not in more[-1][0] else repr(more[-1]))
        check(f"{name}: what is confirmed is on the disk", unkept(run)[0])
        check(f"{name}: and found again", found_again(run, [it for it, _ in answered + refused + more], "--copies", copies))


def broken_copy(shim, call, number):
    """The file of one copy fails from a moment on: a write is confirmed by the others alone, and says so."""
    name = f"copy {number} of three with no {call}"
    with scratch() as top:
        gate = Path(top, "gate")
        run = Recorded(top, shim, FAIL_CALL=call, FAIL_GATE=str(gate), FAIL_NAME=f"copy-{number}.rsx")
        with run.server("--copies", 3) as server:
            before = [it for it, _ in run.do(server, puts(0, 3))]
            gate.touch()
            after = [it for it, _ in run.do(server, puts(3, 8))]
            refreshed = bodies(server.ask(b"POST /books/_refresh HTTP/1.1\r\n\r\n"))[0]
            found = sources(server, [b"%d" % it for it in range(8)])
        why, counts = unkept(run)
        check(f"{name}: what is confirmed is on the disk of each copy in sync", why)
        told = [it["_shards"] for it in before + after if "error" not in it]
        wrong = [f"{it}, and {count} copies have it" for it, count in zip(told, counts) if it != {"failed": 0, "successful": count, "total": count}]
        check(f"{name}: a write tells how many copies have it", wrong[0] if wrong else "" if len(told) == len(counts) > 5 else f"{len(told)} are confirmed")
        check(f"{name}: a refresh is of the copies in sync", "" if refreshed.get("_shards") == {"failed": 0, "successful": 2, "total": 2} else repr(refreshed))
        check(f"{name}: documents are found", "" if all(found[at] == {"n": at} for at, it in enumerate(before + after) if "error" not in it) else repr(found))
        check(f"{name}: and found again", found_again(run, before + after))


def unrefreshed(shim):
    """No copy is open: a refresh is refused, and the page of a bulk tells so too."""
    lines = b'{"index":{"_id":"2"}}\n{}\n'
    with scratch() as top:
        gate = Path(top, "gate")
        run = Recorded(top, shim, FAIL_CALL="sync", FAIL_GATE=str(gate), FAIL_NAME=".rsx")
        with run.server("--copies", 2) as server:
            run.do(server, puts(0, 1))
            gate.touch()
            run.do(server, puts(1, 2))
            # The copy that leads leaves, and the other can't keep the entry that makes it lead.
            server.ask(promote_of(b"2"))
            got = bodies(server.ask(b"POST /books/_refresh HTTP/1.1\r\n\r\n" + bulk_of(lines, b"true") + bulk_of(lines, b"false")))
        closed = {"reason": "Closed", "type": "unavailable"}
        check("a refresh of no copy is refused", "" if got[0] == {"error": closed, "status": 503} else repr(got[0]))
        check("and told behind a bulk", "" if [it.get("refresh") for it in got[1:]] == [closed, None] else repr(got[1:]))


def broken_primary(shim, call):
    """The file of the primary fails from a moment on, and those of the others and of the master don't: it confirms nothing, and another copy that is promoted does."""
    name = f"the primary of three with no {call}"
    with scratch() as top:
        gate = Path(top, "gate")
        run = Recorded(top, shim, FAIL_CALL=call, FAIL_GATE=str(gate), FAIL_NAME="copy-1.rsx")
        with run.server("--copies", 3) as server:
            pages = [it for it, _ in run.do(server, puts(0, 6))]
            gate.touch()
            pages += [it for it, _ in run.do(server, puts(6, 9))]
            if "error" in pages[-1]:
                # One that opens and can't be appended to leads on.
                pages += [it for it, _ in run.do(server, [("promote", b"2")])]
            end = time.monotonic() + 5
            more = [it for it, _ in run.do(server, puts(9, 10))]
            while "error" in more[-1] and time.monotonic() < end:
                time.sleep(0.02)
                more += [it for it, _ in run.do(server, puts(9, 10))]
        check(f"{name}: another copy that leads confirms", repr(more[-1]) if "error" in more[-1] else "")
        check(f"{name}: what is confirmed is on the disk of each copy in sync", unkept(run)[0])
        check(f"{name}: and found again", found_again(run, pages + more))


def broken_master(shim, call):
    """The master's log fails from a moment on: it promotes nobody, writes go on, and it promotes again once that is over."""
    name = f"the master's log with no {call}"
    with scratch() as top:
        gate = Path(top, "gate")
        run = Recorded(top, shim, FAIL_CALL=call, FAIL_GATE=str(gate), FAIL_NAME="master.log")
        with run.server("--copies", 3) as server:
            answered = run.do(server, puts(0, 2))
            gate.touch()
            answered += run.do(server, [("promote", b"2"), *puts(2, 4), ("promote", b"3")])
            gate.unlink()
            answered += run.do(server, [("promote", b"2"), *puts(4, 6)])
        pages = [it for it, _ in answered]
        refused = [it.get("status") for it in pages]
        check(f"{name}: promotions are refused, and writes go on", "" if refused == [None, None, 503, None, None, 503, None, None, None] else repr(pages))
        check(f"{name}: what is confirmed is on the disk", unkept(run)[0])
        check(f"{name}: and found again", found_again(run, pages))


def short_writes(shim, copies):
    """Each write to a file moves one half of what is left: everything goes on as ever."""
    name = f"{copies} copies, each write short"
    with scratch() as top:
        gate = Path(top, "gate")
        gate.touch()
        run = Recorded(top, shim, FAIL_CALL="short", FAIL_GATE=str(gate))
        with run.server("--copies", copies) as server:
            check(f"{name}: it starts", "" if server.listens else shown(server.process.stderr.read()))
            pages = [it for it, _ in run.do(server, puts(0, 4) + puts(4, 6, 3000))]
        check(f"{name}: writes are taken", "" if all("error" not in it for it in pages) else repr(pages))
        check(f"{name}: what is confirmed is on the disk", unkept(run)[0])
        check(f"{name}: and found again", found_again(run, pages))


def full():
    full_for_all()
    for copies in (1, 3):
        full_at_the_start(copies)
    with tempfile.TemporaryDirectory() as top:
        folder, text = Path(top, "books"), b'{"t":"%s"}' % (b"x" * 1000)
        with Server("--data", folder, greatest_file=8000) as server:
            got = page_names(server.ask(*(put_of(b"%d" % n, text) for n in range(20))))
            taken = [n for n, page in enumerate(got) if page == (201, "")]
            check("writes until the file is full", "" if taken == [*range(len(taken))] and 3 < len(taken) < 9 else f"{got}")
            is_kept("the write that didn't fit", got[len(taken)], (503, "Log"))
            check("and those after it", "" if {it for it in got[len(taken) + 1:]} <= {(503, "Log"), (503, "Closed"), (503, "NotPrimary")} else f"{got}")
            names, wanted = [b"%d" % n for n in range(20)], [json.loads(text) if n in taken else None for n in range(20)]
            is_kept("gets go on", sources(server, names), wanted)
            is_kept("searches go on", bodies(server.ask(b"GET /books/_count HTTP/1.1\r\n\r\n"))[0].get("count"), len(taken))
            server.limit_files(1_000_000)
            is_kept("a write once there is room", page_names(server.ask(put_of(b"again", b"{}"))), [(201, "")])
            server.limit_files(1000)
            is_kept("a write where there is none again", page_names(server.ask(put_of(b"lost", b"{}"))), [(503, "Log")])
        with Server("--data", folder) as server:
            is_kept("what was confirmed, after a restart", sources(server, [*names, b"again", b"lost"]), [*wanted, {}, None])
            is_kept("a write after a restart", page_names(server.ask(put_of(b"more", b"{}"))), [(201, "")])


def full_for_all():
    """No log has room, the master's neither: it decides nothing then, and decides again once there is room."""
    with tempfile.TemporaryDirectory() as top:
        with Server("--data", Path(top, "books"), "--copies", 3, greatest_file=1_000_000) as server:
            is_kept("a write of several copies", page_names(server.ask(put_of(b"first", b"{}"))), [(201, "")])
            server.limit_files(10)
            got = page_names(server.ask(*(put_of(b"%d" % n, b"{}") for n in range(10))))
            check("writes of several copies without room", "" if len(got) == 10 and {status for status, _ in got} == {503} else f"{got}")
            is_kept("gets go on there", sources(server, [b"first"]), [{}])
            server.limit_files(1_000_000)
            check("writes once there is room", "" if any(page_names(server.ask(put_of(b"again", b"{}"))) == [(201, "")] for _ in range(100)) else "all are refused")
            is_kept("what was confirmed", sources(server, [b"first", b"again"]), [{}, {}])


def full_at_the_start(copies):
    """An index that is opened where no log has room answers gets and searches, refuses writes, and takes them once there is room."""
    name, count = f"{copies} copies opened without room", b"GET /books/_count HTTP/1.1\r\n\r\n"
    with tempfile.TemporaryDirectory() as top:
        words = ("--data", Path(top, "books"), "--copies", copies)
        with Server(*words) as server:
            is_kept(f"{name}: a write before", page_names(server.ask(put_of(b"first", b"{}"))), [(201, "")])
        with Server(*words, greatest_file=10) as server:
            check(f"{name}: the server listens", "" if server.listens else shown(server.process.stderr.read()))
            if not server.listens:
                return
            is_kept(f"{name}: gets", sources(server, [b"first"]), [{}])
            is_kept(f"{name}: searches", bodies(server.ask(count))[0].get("count"), 1)
            got = page_names(server.ask(*(put_of(b"%d" % n, b"{}") for n in range(4))))
            check(f"{name}: writes are refused", "" if len(got) == 4 and {status for status, _ in got} == {503} else f"{got}")
            is_kept(f"{name}: gets after that", sources(server, [b"first"]), [{}])
            server.limit_files(1_000_000)
            check(f"{name}: writes once there is room", "" if any(page_names(server.ask(put_of(b"again", b"{}"))) == [(201, "")] for _ in range(100)) else "all are refused")
            is_kept(f"{name}: gets once there is room", sources(server, [b"first", b"again"]), [{}, {}])
        with Server(*words) as server:
            is_kept(f"{name}: what was confirmed, after a restart", sources(server, [b"first", b"again"]), [{}, {}])
