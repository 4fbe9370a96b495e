"""Starts: command lines and their faults, and what a terminal is told while logs open."""
import os
import pty
import re
import socket
import tempfile
import time
from pathlib import Path

from checking import check, shown
from serving.pages import bodies, page_names, put_of
from serving.server import SECONDS, Server, complains, other, ran


def starts():
    for words in ([], ["--port", "0"], ["--port", "65536"], ["--port", "x"], ["--port", "1", "--connections", "0"], ["--port", "1", "--copies", "0"],
                  ["--port", "1", "--copies", "6"], ["--port", "1", "--refresh-ms", "x"], ["--port", "1", "--sync", "never"], ["--port", "1", "again"]):
        complains(f"serve {' '.join(words)}", ran(*words), 2)
    bounds_of_options()
    with socket.socket() as taken, tempfile.TemporaryDirectory() as folder:
        taken.bind(("127.0.0.1", 0))
        taken.listen()
        port, bad = taken.getsockname()[1], Path(f"{folder}/mapping.json")
        for name in ("", "Books", "a b", "_a", "-a", "+a", ".", "..", "a/b", "a" * 256):
            complains(f"index name {name[:9]!r}", ran("--port", port, f"--index={name}", "--mapping", bad), 1, "name of an index")
        complains("a mapping file that isn't there", ran("--port", port, "--mapping", bad), 1, "can't be read")
        bad.write_text('{"properties":\n {"a":}}')
        complains("a mapping file that isn't JSON", ran("--port", port, "--mapping", bad), 1, "isn't JSON", "line 2")
        bad.write_text('{"properties":{"a":{"type":"date"}}}')
        complains("a mapping of an unknown type", ran("--port", port, "--mapping", bad), 1, "mapping")
        complains("a port that is taken", ran("--port", port), 1, str(port), "--port")
        complains("syncs of an index in memory", ran("--port", port, "--sync", "together"), 1, "--sync", "--data")
    for name in ("a", "a" * 255, "bücher", "a.b-c_d+e"):
        with Server(index=name) as server:
            check(f"index name {name[:9]!r} is taken", "" if server.listens else shown(server.said))


def bounds_of_options():
    """Numbers of options outside of their bounds are refused with both; those at them are taken."""
    for name, least, most in (("--refresh-ms", 0, 3_600_000), ("--threads", 1, 64), ("--idle-s", 1, 3_600), ("--request-mb", 4, 4_096)):
        for number in (least - 1, most + 1, "", "x"):
            got = ran("--port", "1", f"{name}={number}")
            complains(f"serve {name}={number}", got, 2, name)
            if number == most + 1:
                complains(f"the bounds of {name}", got, 2, f"{least}..={most}")
        for number in (least, most):
            with Server(name, number) as server:
                check(f"serve {name} {number}", "" if server.listens else shown(server.process.stderr.read()))


def opening():
    """Some documents of 65,000 bytes, opened as one copy, as one of two, and as two; with a terminal and without."""
    with tempfile.TemporaryDirectory() as top:
        folder, documents = Path(top, "books"), 262
        body = b'{"s":"%s"}' % (b"x" * 64_992)
        with Server("--data", folder) as server:
            got = page_names(server.ask(*[put_of(b"%d" % it, body) for it in range(documents)]))
            check("large documents are put", "" if got == [(201, "")] * documents else repr(got[:3]))
        with Server("--data", folder) as server:
            server.process.kill()
            said = server.process.communicate()[1]
            check("what is no terminal is told nothing of an opening", other(said, b""))
        copies_done = rb"|, 0 MB done, copy 1 of 2|, 17 MB done, copy 2 of 2"
        for copies, wanted, done in (1, b"17", b""), (2, b"17", rb"|, 0 MB done, copy 1 of 1"), (2, b"34", copies_done):
            terminal, errors = pty.openpty()
            with Server("--data", folder, "--copies", copies, errors=errors) as server:
                check(f"it starts over {wanted} MB", "" if server.listens else shown(server.said))
                end, whole = time.monotonic() + SECONDS, {"failed": 0, "successful": copies, "total": copies}
                while bodies(server.ask(put_of(b"0", b"{}")))[0].get("_shards") != whole and time.monotonic() < end:
                    time.sleep(0.05)
            os.close(errors)
            said = rest_of_terminal(terminal)
            line = rb"\r\x1b\[Kindexd: opening " + wanted + rb" MB of logs(%s), \d+ s"
            lines = b"(" + line % done + b")*" + line % done.rpartition(b"|")[2] + rb"\r\x1b\[K"
            check(f"a terminal is told of {wanted} MB, and how much of it is done", "" if re.fullmatch(lines, said) else shown(said))


def rest_of_terminal(terminal):
    got = b""
    try:
        while some := os.read(terminal, 65536):
            got += some
    except OSError:
        pass
    os.close(terminal)
    return got
