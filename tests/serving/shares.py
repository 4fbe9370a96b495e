"""What long requests leave to others: searches that cost much, writes that wait, pages that nobody reads, large requests that don't come, and an end in order."""
import contextlib
import json
import select
import socket
import subprocess
import tempfile
import time
from pathlib import Path

from checking import Told, check, program, shim_of
from serving.pages import PUT, bodies, get_of
from serving.server import SECONDS, Server, free_port, rest_of

ALL = b'{"query":{"match_all":{}}}'


def shares():
    dear()
    alone()
    pages()
    page_room()
    stuck()
    in_order()
    with tempfile.TemporaryDirectory() as folder:
        if shim := shim_of("slow_sync", folder):
            for copies in (1, 3):
                beside_waits(copies, shim, folder)


def search_of(body):
    return b"POST /books/_search HTTP/1.1\r\ncontent-length: %d\r\n\r\n%s" % (len(body), body)


def filled(server, sources, at_once=2_000):
    """Writes documents by bulks of at most a megabyte, and shows them."""
    with server.connect() as connection:
        for first in range(0, len(sources), at_once):
            lines = b"".join(b'{"index":{"_id":"%d"}}\n%s\n' % (n, it) for n, it in enumerate(sources[first:first + at_once], first))
            connection.sendall(b"POST /books/_bulk HTTP/1.1\r\ncontent-length: %d\r\n\r\n%s" % (len(lines), lines))
            page_of(connection)
        connection.sendall(b"POST /books/_refresh HTTP/1.1\r\n\r\n")
        page_of(connection)


def page_of(connection, got=b""):
    """The next page of a connection that stays, of which this much was read."""
    while b"\r\n\r\n" not in got:
        got += some_of(connection)
    head, _, body = got.partition(b"\r\n\r\n")
    left = int(head.partition(b"content-length: ")[2].partition(b"\r\n")[0]) - len(body)
    pieces = [body]
    while left > 0:
        pieces.append(some_of(connection))
        left -= len(pieces[-1])
    return head, b"".join(pieces)


def some_of(connection):
    some = connection.recv(1 << 20)
    if not some:
        raise ConnectionError("the connection ended")
    return some


def mapped(folder, fields):
    mapping = Path(folder, "mapping.json")
    mapping.write_text(json.dumps({"properties": {name: {"type": kind} for name, kind in fields.items()}}))
    return mapping


def timed(server, request):
    """The pages of a request, and after how many seconds they came."""
    begun = time.monotonic()
    return bodies(server.ask(request)), time.monotonic() - begun


def dear():
    """Words and values that stand many times in a query are looked up once."""
    with tempfile.TemporaryDirectory() as folder:
        with Server("--mapping", mapped(folder, {"t": "text", "k": "keyword"})) as server:
            filled(server, [b'{"t":"a b","k":"%s"}' % (b"even" if n % 2 == 0 else b"odd") for n in range(20_000)])
            words, values = b"a " * 500_000, b'"even",' * 60_000 + b'"even"'
            for name, query, total in (
                    ("one word, or", b'{"match":{"t":"%s"}}' % words, 20_000), ("one word, and", b'{"match":{"t":{"query":"%s b","operator":"and"}}}' % words[:-20], 20_000),
                    ("one value", b'{"terms":{"k":[%s]}}' % values, 10_000),
                    ("two values in turn", b'{"terms":{"k":[%s]}}' % (b'"even","none",' * 30_000 + b'"even"'), 10_000)):
                got, seconds = timed(server, search_of(b'{"size":0,"query":%s}' % query))
                found = got[0].get("hits", {}).get("total", {}).get("value") if got else None
                check(f"a search for {name}, many times", "" if found == total and seconds < 4 else f"{found} in {seconds:.1f} s")


def alone():
    """A search by the only connection that is open doesn't hold up one that comes."""
    with tempfile.TemporaryDirectory() as folder:
        with Server("--mapping", mapped(folder, {"t": "text"})) as server:
            words = b" ".join(b"w%02d" % n for n in range(50))
            filled(server, [b'{"t":"%s"}' % words] * 20_000)
            # (a search in few bytes, which the thread may do that waits for all connections)
            clauses = b",".join([b'{"prefix":{"t":"w"}}'] * 180)
            with server.connect() as first:
                time.sleep(0.2)
                first.sendall(search_of(b'{"size":0,"query":{"bool":{"must":[%s]}}}' % clauses))
                time.sleep(0.05)
                got, seconds = timed(server, get_of(b"7"))
                was_early = not select.select([first], [], [], 0)[0]
                page_of(first)
            check("a get beside the only connection's search", "" if got and got[0].get("found") and was_early else f"{got} after {seconds:.2f} s, and the search {'goes on' if was_early else 'has ended'}")


def memory_of(server):
    lines = Path(f"/proc/{server.process.pid}/status").read_text().splitlines()
    return sum(int(it.split()[1]) for it in lines if it.startswith("VmRSS:")) / 1024


def pages():
    """Pages of large documents that nobody reads share their texts."""
    with Server() as server:
        filled(server, [b'{"t":"%s"}' % (b"%04d" % n * 15_000) for n in range(400)], 15)
        before = memory_of(server)
        with contextlib.ExitStack() as open_ones:
            readers = [open_ones.enter_context(server.connect()) for _ in range(8)]
            for it in readers:
                it.sendall(search_of(b'{"size":10000,"query":{"match_all":{}}}'))
            for it in readers:
                it.recv(1)
            more = memory_of(server) - before
            check("memory of eight pages of 24 MB that nobody reads", "" if more < 50 else f"{more:.0f} MB")
            hits = json.loads(page_of(readers[0], b"H")[1])["hits"]
            is_whole = hits["total"]["value"] == 400 and sorted(it["_source"]["t"] for it in hits["hits"]) == sorted(("%04d" % n) * 15_000 for n in range(400))
            check("such a page, once it is read", "" if is_whole else "it has other hits")


def page_room():
    """While pages that nobody reads take the room there is, searches wait, and others don't."""
    with Server("--page-mb", 1) as server:
        filled(server, [b'{"t":"%s"}' % (b"x" * 900) for n in range(9_000)], 1_000)
        with server.connect() as first, server.connect() as second:
            first.sendall(search_of(b'{"size":10000,"query":{"match_all":{}}}'))
            first.recv(1)
            time.sleep(0.5)
            second.sendall(search_of(b'{"size":1,"query":{"match_all":{}}}'))
            got, seconds = timed(server, get_of(b"7"))
            check("a get beside a page that fills the room", "" if got and got[0].get("found") and seconds < 2 else f"{got} after {seconds:.1f} s")
            waits = not select.select([second], [], [], 0.3)[0]
            check("a search beside a page that fills the room", "" if waits else "it is answered")
            first.shutdown(socket.SHUT_WR)
            rest_of(first)
            second.settimeout(SECONDS)
            total = json.loads(page_of(second)[1])["hits"]["total"]["value"]
            check("that search, once the page is read", "" if total == 9_000 else str(total))


def stuck():
    """A large request that doesn't come leaves its room to others after two seconds."""
    with Server("--request-mb", 4) as server, contextlib.ExitStack() as open_ones:
        head = b"PUT /books/_doc/large HTTP/1.1\r\ncontent-length: 60000\r\n\r\n"
        for _ in range(4):
            open_ones.enter_context(server.connect()).sendall(head + b'{"t":"' + b"x" * 5_000)
        time.sleep(0.3)
        source = b'{"t":"%s"}' % (b"x" * 10_000)
        got, seconds = timed(server, b"PUT /books/_doc/1 HTTP/1.1\r\ncontent-length: %d\r\n\r\n%s" % (len(source), source))
        check("a request of 10 KB beside four that don't come", "" if got and got[0].get("result") == "created" and seconds < 15 else f"{got} after {seconds:.1f} s")


def in_order():
    """When its input ends, a server answers what came whole, and ends with status 0."""
    for copies in (1, 3):
        port = free_port()
        with tempfile.TemporaryDirectory() as folder:
            process = ended_by_input(port, "--copies", copies, "--data", Path(folder, "books"))
            with socket.create_connection(("127.0.0.1", port), SECONDS) as idle, socket.create_connection(("127.0.0.1", port), SECONDS) as half:
                half.sendall(PUT + b"PUT /books/_doc/2 HTTP/1.1\r\ncontent-le")
                page_of(half)
                process.stdin.close()
                status = process.wait(SECONDS)
                check(f"the end of the input, {copies} copies", "" if status == 0 else f"status {status}")
                check("the idle connection then", "" if rest_of(idle) == b"" else "it got something")
            with Server("--data", Path(folder, "books")) as server:
                got = bodies(server.ask(get_of(b"1"), get_of(b"2")))
                check("what was confirmed before", "" if [it.get("found") for it in got] == [True, False] else f"{got}")
    with tempfile.TemporaryDirectory() as folder:
        if shim := shim_of("slow_sync", folder):
            waits_for_whole(shim, folder)


def ended_by_input(port, *words, env=None, pass_fds=()):
    words = [program(), "serve", "--port", port, "--index", "books", "--until-input-ends", *words]
    process = subprocess.Popen([*map(str, words)], stdin=subprocess.PIPE, stdout=subprocess.PIPE, stderr=subprocess.DEVNULL, env=env, pass_fds=pass_fds)
    process.stdout.readline()
    return process


def waits_for_whole(shim, folder):
    """A write that waits for its sync is answered before the end."""
    gate, port = Path(folder, "gate"), free_port()
    with Told() as told:
        process = ended_by_input(port, "--data", Path(folder, "books"), env=told.settings(shim, SYNC_GATE=gate), pass_fds=[told.writes])
        with socket.create_connection(("127.0.0.1", port), SECONDS) as writer:
            gate.touch()
            writer.sendall(PUT)
            told.heard(SECONDS)
            process.stdin.close()
            time.sleep(0.3)
            was_running = process.poll() is None
            gate.unlink()
            got = bodies(rest_of(writer))
        status = process.wait(SECONDS)
        check("a write that waits for its sync at the end", "" if was_running and status == 0 and [it.get("result") for it in got] == ["created"] else f"{got}, status {status}")


def beside_waits(copies, shim, folder):
    """Writes that wait for a sync, more of them than there are threads, leave searches and other gets alone; a get that waits for them does so too."""
    gate = Path(folder, f"gate-{copies}")
    with Told() as told, Server("--copies", copies, "--data", f"{folder}/{copies}", env=told.settings(shim, SYNC_GATE=gate), pass_fds=[told.writes]) as server:
        server.ask(PUT.replace(b"_doc/1 ", b"_doc/1?refresh=true "))
        server.ask(search_of(ALL))
        gate.touch()
        with contextlib.ExitStack() as open_ones:
            getter = open_ones.enter_context(server.connect())
            searcher = open_ones.enter_context(server.connect())
            writers = [open_ones.enter_context(server.connect()) for _ in range(16)]
            writers[0].sendall(PUT.replace(b"_doc/1 ", b"_doc/w0 "))
            was_told = told.heard(SECONDS)
            # (this get may have to wait for the write)
            getter.sendall(get_of(b"1"))
            time.sleep(0.2)
            for number, it in enumerate(writers[1:], 1):
                it.sendall(PUT.replace(b"_doc/1 ", b"_doc/w%d " % number))
            time.sleep(0.3)
            begun = time.monotonic()
            searcher.sendall(search_of(ALL))
            is_early = bool(select.select([searcher], [], [], 3)[0])
            seconds = time.monotonic() - begun
            gate.unlink()
            found = json.loads(page_of(searcher)[1])["hits"]["total"]["value"] if is_early else None
            written = [json.loads(page_of(it)[1]).get("result") for it in writers]
        check(f"{copies} copies: a search beside sixteen writes and a get that wait", "" if was_told and is_early and found == 1 else f"{found} after {seconds:.1f} s")
        check(f"{copies} copies: these writes", "" if written == ["created"] * 16 else f"{written}")
