"""Bulks that an index keeps together: how they stand in its log, logs of older programs, and many at once over several copies."""
import json
from pathlib import Path

from checking import check, shown
from disk import logs
from serving.pages import bodies, put_of
from serving.server import Server, at_once, dump, scratch

COUNT = b"POST /books/_refresh HTTP/1.1\r\n\r\nGET /books/_count HTTP/1.1\r\n\r\n"


def bulks():
    with scratch() as top:
        for copies in (1, 3):
            together(Path(top) / f"together-{copies}", copies)
        upgraded(Path(top) / "upgraded")
        windowed()
        windowed("--data", Path(top) / "windowed", "--sync", "together")


def bulk_of(first, many):
    lines = b"".join(b'{"index":{"_id":"%d"}}\n{"n":%d}\n' % (it, it) for it in range(first, first + many))
    return b"POST /books/_bulk HTTP/1.1\r\ncontent-length: %d\r\n\r\n" % len(lines) + lines


def shape(log):
    """The header of a log, and of each frame how many operations it has, 0 for an upgrade; of a group as a text."""
    return [log[:4].decode()] + [f"{len([*logs.kept_by(it)])} together" if it[0] == 4 else len([*logs.kept_by(it)]) for it in logs.frames(log) if it[0] not in (2, 3)]


def together(folder, copies):
    """What stands in the log of the copy that leads, once a bulk of 1,500, one of 2, one of 1 and a document of its own are answered."""
    with Server("--data", folder, "--copies", copies) as server:
        for first, many in ((0, 1_500), (1_500, 2), (1_502, 1)):
            got = bodies(server.ask(bulk_of(first, many)))
            check(f"{copies} copies: a bulk of {many}", "" if [it.get("errors") for it in got] == [False] else repr(got)[:300])
        server.ask(put_of(b"last", b"{}"))
        log = (folder / "copy-1.rsx").read_bytes()
        wanted = ["RSX2", "1024 together", "476 together", "2 together", 1, 1]
        check(f"{copies} copies: what is kept together in the log", "" if shape(log) == wanted else repr(shape(log)))
    with Server("--data", folder, "--copies", copies) as server:
        got = bodies(server.ask(COUNT))
        check(f"{copies} copies: all is found after a kill", "" if got[1:] and got[1].get("count") == 1_504 else repr(got))


def upgraded(folder):
    """A log as programs wrote it that knew no groups opens, takes bulks behind one upgrade, and opens again."""
    with Server("--data", folder) as server:
        server.ask(put_of(b"first", b"{}") + put_of(b"second", b"{}"))
    log = folder / "copy-1.rsx"
    old = b"RSX1" + log.read_bytes()[4:]
    log.write_bytes(old)
    with Server("--data", folder) as server:
        for first in (0, 3):
            server.ask(bulk_of(first, 3))
    new = log.read_bytes()
    check("a log of the first form is gone on with", "" if new.startswith(old) else shown(new[:100]))
    check("an upgrade stands before its first group alone", "" if shape(new) == ["RSX1", 1, 1, 0, "3 together", "3 together"] else repr(shape(new)))
    with Server("--data", folder) as server:
        got = bodies(server.ask(COUNT))
        check("all is found in it", "" if got[1:] and got[1].get("count") == 8 else repr(got))
    ran_dump = dump("--data", folder)
    check("and dumped", "" if ran_dump.stdout.count(b'"_id"') == 8 else shown(ran_dump.stdout[:300]))


def windowed(*words):
    """Four clients that post bulks of 1,024 to three copies at the same time: none is refused for the window of 1,024."""
    pages = []
    with Server("--copies", 3, *words) as server:
        def post(client):
            with server.connect() as connection:
                for bulk in range(6):
                    connection.sendall(bulk_of((client * 6 + bulk) * 1_024, 1_024))
                    pages.append(page_from(connection))

        at_once(4, post)
        refused = [it for it in pages if it.get("errors") is not False]
        check(f"bulks of four clients over three copies {' '.join(map(str, words))}", "" if len(pages) == 24 and not refused else f"{len(pages)} pages, of which {len(refused)} tell of errors: {repr(refused)[:300]}")
        got = bodies(server.ask(COUNT))
        check("all of them are found", "" if got[1:] and got[1].get("count") == 24 * 1_024 else repr(got))


def page_from(connection):
    """The next page of a connection that is kept."""
    got = b""
    while b"\r\n\r\n" not in got:
        if not (some := connection.recv(65536)):
            return {"errors": f"the stream ended after {got[:100]}"}
        got += some
    head, _, body = got.partition(b"\r\n\r\n")
    length = int(next(it.split(b":")[1] for it in head.split(b"\r\n") if it.lower().startswith(b"content-length:")))
    while len(body) < length and (some := connection.recv(65536)):
        body += some
    return json.loads(body)
