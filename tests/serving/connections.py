"""Connections that are long, cut, slow, reset or silent, and those whose calls or allocations fail."""
import contextlib
import socket
import subprocess
import tempfile
import threading
import time

from checking import TESTS, Told, check, shim_of, shown
from serving.pages import PUT, bodies, get_of, page_names, put_of
from serving.server import MOST_BAD_RUNS, SECONDS, Server, other, rest_of

MOST_RUNS = 20_000


def streams():
    with Server("--connections", 15) as server:
        got = server.ask(PUT, b"GET /books/_doc/1 HTTP/1.1\r\n\r\n" * 2000)
        check("a pipelined connection", "" if len(page_names(got)) == 2001 else f"{len(page_names(got))} pages")
        many_requests(server)
        half = b"PUT /books/_doc/2 HTTP/1.1\r\ncontent-length: 1000\r\n\r\n{"
        check("a connection that is cut in a body", other(server.ask(half), b""))
        check("and wrote nothing", "" if page_names(server.ask(b"GET /books/_doc/2 HTTP/1.1\r\n\r\n")) == [(404, "")] else "it did")
        with server.connect() as connection:
            connection.sendall(b"GET /books/_doc/1 HTTP/1.1\r\n\r\n")
            first = connection.recv(65536)
            check("a page is there before the next request", "" if page_names(first) == [(200, "")] else shown(first))
        with server.connect() as connection:
            connection.setsockopt(socket.SOL_SOCKET, socket.SO_LINGER, b"\1\0\0\0\0\0\0\0")
            connection.sendall(PUT[:-1])
        with server.connect() as connection:
            connection.setsockopt(socket.SOL_SOCKET, socket.SO_LINGER, b"\1\0\0\0\0\0\0\0")
            connection.sendall(b"GET /books/_doc/1 HTTP/1.1\r\n\r\n" * 100)
        slow = server.ask(*(PUT[at:at + 8] for at in range(0, len(PUT), 8)), pause=0.02)
        check("a slow connection, after two that were reset", "" if page_names(slow) == [(200, "")] else shown(slow))
        silent, started = [server.connect() for _ in range(3)], time.monotonic()
        beside = server.ask(b"GET /books/_doc/1 HTTP/1.1\r\n\r\n")
        check("a client beside three silent ones", "" if page_names(beside) == [(200, "")] and time.monotonic() - started < 3 else shown(beside))
        silent.append(server.connect())
        behind = server.ask(b"GET /books/_doc/1 HTTP/1.1\r\n\r\n")
        check("a client behind four silent ones", "" if page_names(behind) == [(200, "")] else shown(behind))
        for connection in silent:
            connection.close()
        check("the last connection", "" if page_names(server.ask(b"GET /books/_count HTTP/1.1\r\n\r\n")) == [(200, "")] else "no page")
        try:
            status = server.process.wait(SECONDS)
            check("the server ends after --connections", "" if status == 0 else f"status {status}")
        except subprocess.TimeoutExpired:
            check("the server ends after --connections", "it goes on")


def many_requests(server):
    """10,000 requests on one connection, sent while their pages are read: each finds what the one before it wrote."""
    asked_for = b"".join(put_of(b"many", b'{"n":%d}' % it) + get_of(b"many") for it in range(5_000))
    with server.connect() as connection:
        def send():
            with contextlib.suppress(OSError):
                connection.sendall(asked_for)
                connection.shutdown(socket.SHUT_WR)

        sender = threading.Thread(target=send)
        sender.start()
        pages = bodies(rest_of(connection))
        sender.join()
    found = [it.get("_source", {}).get("n") for it in pages[1::2]]
    check("10,000 requests on one connection", "" if len(pages) == 10_000 and found == [*range(5_000)] else f"{len(pages)} pages")


def run_failing(shim, given, name, number):
    """What a server whose call fails gives for some bytes, whether it came to that call, and what it gives over a connection after that."""
    with Told() as told:
        with Server(env=told.settings(shim, **{name: number}), pass_fds=[told.writes]) as server:
            got = after = None
            if server.listens:
                # A server that has no memory for its threads ends, where it listens already.
                with contextlib.suppress(ConnectionRefusedError, ConnectionResetError):
                    got = server.ask(given)
                    after = server.ask(b"GET /books/_count HTTP/1.1\r\n\r\n")
            if after is None:
                server.process.wait(SECONDS)
                got, after = None, server.process.stderr.read()
        return got, told.heard(), after


def fail_in_turn(what, shim, given, wanted, name):
    bad = []
    for number in range(1, MOST_RUNS):
        got, was_reached, after = run_failing(shim, given, name, number)
        if got is None:
            why = "" if was_reached and after.startswith(b"indexd: ") and after.count(b"\n") == 1 else f"no start: {shown(after)}"
        elif not was_reached:
            why = other(got, wanted)
        elif name == "FAIL_ALLOC":
            why = no_memory_page(got, wanted)
        else:
            why = "" if wanted.startswith(got) else f"{shown(got)} is no beginning"
        if not why and got is not None and not is_counted(after, was_reached):
            why = f"the connection after it: {shown(after)}"
        if why:
            bad.append(f"at call {number}: {why}")
        if not was_reached or len(bad) == MOST_BAD_RUNS:
            break
    print(f"{what}: {number - 1} calls failed, each in a run of its own", flush=True)
    check(what, bad[0] if bad else "" if number > 1 else "no call failed")


def is_counted(got, is_short):
    """The page of a count, or where a call failed a beginning of it or a want of memory."""
    head = b'HTTP/1.1 200 OK\r\ncontent-type: application/json\r\ncontent-length: 71\r\n\r\n'
    pages = [head + b'{"_shards":{"failed":0,"skipped":0,"successful":1,"total":1},"count":%d}' % count for count in (0, 1)]
    return got in pages or is_short and (b"NoMemory" in got or any(it.startswith(got) for it in pages))


def no_memory_page(got, wanted):
    """Where memory is wanting the pages end, or one of them, or an item of a bulk, says so."""
    if wanted.startswith(got) or b'"reason":"NoMemory"' in got:
        return ""
    return f"{shown(got)} is no beginning and names no want of memory"


def failing():
    wanted = (TESTS / "requests/get-found.out").read_bytes()
    with tempfile.TemporaryDirectory() as folder:
        if shim := shim_of("fail_socket", folder):
            given = (TESTS / "requests/get-found.in").read_bytes()
            fail_in_turn("each read of a connection failing", shim, given, wanted, "FAIL_READ")
            fail_in_turn("each write of a connection failing", shim, given, wanted, "FAIL_WRITE")


def memory():
    with tempfile.TemporaryDirectory() as folder:
        if shim := shim_of("refuse_allocation", folder):
            for name in ("put", "bulk"):
                given, wanted = ((TESTS / f"requests/{name}{end}").read_bytes() for end in (".in", ".out"))
                fail_in_turn(f"{name} with each allocation refused", shim, given, wanted, "FAIL_ALLOC")
