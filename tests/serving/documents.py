"""Clients that write and search: at the same time, after a refresh by time, beside a write that waits, in bulks, and of each length."""
import contextlib
import json
import select
import socket
import tempfile
import time
from pathlib import Path

from checking import Told, check, shim_of, shown
from serving.pages import PUT, asked, bodies, get_of, put_of
from serving.server import SECONDS, Server, at_once, rest_of


def together():
    together_over("clients at the same time", 8, 50)


def together_over(name, clients, writes, *words):
    """Clients that write and read at the same time; each finds what it was told is there, and the numbers of all writes are those of one order."""
    with Server(*words) as server:
        told, faults = [], []

        def run_client(client):
            try:
                with server.connect() as connection:
                    for number in range(writes):
                        source = b'{"n":%d}' % number
                        path = b"/books/_doc/%d-%d HTTP/1.1\r\n" % (client, number)
                        connection.sendall(b"PUT " + path + b"content-length: %d\r\n\r\n" % len(source) + source + b"GET " + path + b"\r\n")
                        got = b""
                        while got.count(b"HTTP/1.1 ") < 2 or not got.endswith(b"}"):
                            some = connection.recv(65536)
                            assert some, "the connection ended"
                            got += some
                        put, get = (json.loads(it.partition(b"\r\n\r\n")[2]) for it in got[9:].split(b"HTTP/1.1 "))
                        assert get["found"] and get["_source"] == {"n": number} and get["_seq_no"] == put["_seq_no"], got
                        told.append(put["_seq_no"])
            except (AssertionError, OSError, ValueError, KeyError) as fault:
                faults.append(repr(fault)[:200])

        at_once(clients, run_client)
        check(name, faults[0] if faults else "" if sorted(told) == [*range(clients * writes)] else f"{len(told)} numbers: {sorted(told)[:20]}")
        count = server.ask(b"POST /books/_refresh HTTP/1.1\r\n\r\nGET /books/_count HTTP/1.1\r\n\r\n")
        check(f"{name}: their documents are counted", "" if b'"count":%d' % (clients * writes) in count else shown(count))


def refreshed():
    for words in (["--copies", 1], ["--copies", 3]):
        for every, seconds, found in ((100, 0.5, 1), (0, 0.5, 0)):
            with Server(*words, "--refresh-ms", every) as server:
                server.ask(PUT)
                time.sleep(seconds)
                got = bodies(server.ask(b"GET /books/_count HTTP/1.1\r\n\r\n"))
                check(f"a refresh every {every} ms, {words[1]} copies", "" if got[0].get("count") == found else repr(got))
    for words in (["--copies", 1], ["--copies", 3]):
        with Server(*words, "--connections", 1, "--refresh-ms", 100) as server:
            got = bodies(server.ask(PUT, b"GET /books/_count HTTP/1.1\r\n\r\n", pause=1))
            check(f"a refresh by time goes on until the last connection ends, {words[1]} copies", "" if got[1].get("count") == 1 else repr(got))
    for copies in (1, 3):
        # (what comes while the refresh is under way waits for the next one)
        for writes, found in ((2_000, [0]), (2_100, range(2_048, 2_101))):
            with Server("--copies", copies, "--refresh-ms", 60_000) as server:
                lines = b"".join(b'{"index":{"_id":"%d"}}\n{}\n' % it for it in range(writes))
                server.ask(b"POST /books/_bulk HTTP/1.1\r\ncontent-length: %d\r\n\r\n%s" % (len(lines), lines))
                time.sleep(0.5)
                got = bodies(server.ask(b"GET /books/_count HTTP/1.1\r\n\r\n"))
                check(f"what is shown before its time behind {writes} writes, {copies} copies", "" if got[0].get("count") in found else repr(got))
    with Server("--connections", 1, "--refresh-ms", 1000) as server:
        server.ask(PUT)
        server.process.communicate(timeout=SECONDS)
        check("a server that refreshes ends", "" if server.process.returncode == 0 else str(server.process.returncode))


def beside():
    """A write waits for its sync, and what is shown is searched meanwhile: a count and a search are answered before the write."""
    with tempfile.TemporaryDirectory() as folder:
        if shim := shim_of("slow_sync", folder):
            for copies in (1, 3):
                beside_over(copies, shim, folder)


def beside_over(copies, shim, folder):
    gate, search = Path(folder, f"gate-{copies}"), b'POST /books/_search HTTP/1.1\r\ncontent-length: 26\r\n\r\n{"query":{"match_all":{}}}'
    with Told() as told, Server(
            "--copies", copies, "--data", f"{folder}/{copies}", env=told.settings(shim, SYNC_GATE=gate), pass_fds=[told.writes]) as server:
        server.ask(PUT.replace(b"_doc/1 ", b"_doc/1?refresh=true "))
        with contextlib.ExitStack() as open_ones:
            readers = [open_ones.enter_context(server.connect()) for _ in range(4)]
            for it in readers:
                it.sendall(search)
            seen = [bool(it.recv(65536)) for it in readers]
        check(f"{copies} copies: four searches at once", "" if all(seen) else repr(seen))
        # The writer's is the one connection that is open, until the search comes.
        time.sleep(0.2)
        gate.touch()
        with server.connect() as writer:
            writer.sendall(PUT.replace(b"_doc/1 ", b"_doc/2 "))
            was_told = told.heard(SECONDS)
            got = bodies(server.ask(search, b"GET /books/_count HTTP/1.1\r\n\r\n"))
            early = select.select([writer], [], [], 0)[0]
            gate.unlink()
            writer.shutdown(socket.SHUT_WR)
            wrote = bodies(rest_of(writer))
        found = [it.get("hits", {}).get("total", {}).get("value", it.get("count")) for it in got]
        check(f"{copies} copies: a write waits for its sync", "" if was_told and not early else "it is answered" if early else "no sync")
        check(f"{copies} copies: a search and a count beside it", "" if found == [1, 1] else repr(got))
        check(f"{copies} copies: the write, once it is synced", "" if [it.get("result") for it in wrote] == ["created"] else repr(wrote))


def bulk():
    lines = b"".join(b'{"index":{"_id":"%d"}}\n{"n":%d}\n' % (n, n) for n in range(5000))
    with Server() as server:
        head = b"POST /books/_bulk?refresh=false HTTP/1.1\r\ncontent-length: %d\r\n\r\n" % len(lines)
        got = server.ask(head + lines)
        body = json.loads(got.partition(b"\r\n\r\n")[2])
        good = not body["errors"] and [it["index"]["_seq_no"] for it in body["items"]] == [*range(5000)]
        check("a bulk of 10,000 lines", "" if good else shown(got))
        got = server.ask(b"POST /books/_refresh HTTP/1.1\r\n\r\nGET /books/_count HTTP/1.1\r\n\r\n")
        check("its documents are counted", "" if got.endswith(b'"count":5000}') else shown(got))
    bulk_of(3_001, b'{"create":{"_id":"%d"}}\n{}\n', "create", 201)
    bulk_of(8_000, b'{"delete":{"_id":"%d"}}\n', "delete", 404)


def bulk_of(count, line, action, status):
    """Each item of a bulk is done and answered, one after the other."""
    lines = b"".join(line % it for it in range(count))
    with Server() as server:
        got = server.ask(b"POST /books/_bulk HTTP/1.1\r\ncontent-length: %d\r\n\r\n" % len(lines) + lines, b"GET /books/_doc/1 HTTP/1.1\r\n\r\n")
        pages = bodies(got)
        items = [[*it.items()] for it in pages[0].get("items", [])]
        told = [(name, it["_id"], it.get("_seq_no"), it["status"]) for [(name, it)] in items]
        wanted = [(action, str(it), it, status) for it in range(count)]
        check(f"a bulk of {count} items", "" if told == wanted and not pages[0]["errors"] else f"{len(told)} items, {told[:2]} .. {told[-1:]}")
        check(f"and the request after its page of {len(got)} bytes", "" if pages[1:] and pages[1]["found"] == (status == 201) else repr(pages[1:]))


def lengths():
    """A body and a page of every length around 4,096 and 65,536, of a document and of a search."""
    with Server() as server, server.connect() as connection:
        connection.setsockopt(socket.IPPROTO_TCP, socket.TCP_NODELAY, 1)
        pages = connection.makefile("rb")
        for middle in (4_096, 65_536):
            bad = []
            for size in range(middle - 250, min(middle + 50, 65_536) + 1):
                source = b'{"s":"%s"}' % (b"x" * (size - 8))
                put, got = asked(connection, pages, put_of(b"1", source)), asked(connection, pages, get_of(b"1"))
                if put.get("result") not in ("created", "updated") or got.get("_source") != {"s": "x" * (size - 8)}:
                    bad.append(f"a source of {size} bytes: {put}, {repr(got)[:100]}")
            check(f"sources and pages of lengths around {middle}", bad[0] if bad else "")
            bad = []
            for size in range(middle - 50, middle + 51):
                body = b'{"size":0}'.ljust(size)
                got = asked(connection, pages, b"POST /books/_search HTTP/1.1\r\ncontent-length: %d\r\n\r\n" % size + body)
                if got.get("hits", {}).get("hits") != []:
                    bad.append(f"a body of {size} bytes: {got}")
            check(f"bodies of lengths around {middle}", bad[0] if bad else "")
