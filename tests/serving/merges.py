"""Segments that are merged beside writes and searches: what is found stays exact, and nothing of it is lost by a restart."""
import random
import time
from pathlib import Path

from checking import check
from serving.pages import Client, bodies, put_of, sources
from serving.server import Server, at_once, scratch

DOCUMENTS, ROUNDS, WRITERS = 60, 30, 3
COUNT = b"GET /books/_count HTTP/1.1\r\n\r\n"


def merges():
    """Each write refreshes the index, so each adds a segment, and merges go on beside writes and searches all the time."""
    with scratch() as top:
        for copies in (1, 3):
            beside_searches(f"{copies} copies", copies)
            beside_searches(f"{copies} copies in a folder", copies, Path(top) / f"each-{copies}")
            beside_searches(f"{copies} copies whose writes share a sync", copies, Path(top) / f"together-{copies}", "--sync", "together")
    in_a_row()
    stay_few()
    at_rest()
    lone_writes()


def shown_put(name, number):
    text = b'{"n":%d}' % number
    return b"PUT /books/_doc/%s?refresh=true HTTP/1.1\r\ncontent-length: %d\r\n\r\n%s" % (name, len(text), text)


def shown_delete(name):
    return b"DELETE /books/_doc/%s?refresh=true HTTP/1.1\r\n\r\n" % name


def search_of(size):
    text = b'{"size":%d}' % size
    return b"POST /books/_search HTTP/1.1\r\ncontent-length: %d\r\n\r\n%s" % (len(text), text)


def found(client):
    """The documents that a search of all finds, and whether its total is their number."""
    hits = client.ask(search_of(1_000))["hits"]
    return {it["_id"]: it["_source"]["n"] for it in hits["hits"]}, hits["total"]["value"] == len(hits["hits"])


def beside_searches(name, copies, folder=None, *words):
    """Writers that each have documents of their own, overwrite and delete them, and find at once what they have; and one that searches meanwhile."""
    faults, left = [], [{} for _ in range(WRITERS)]
    words = (*words, "--copies", copies, *(("--data", folder) if folder else ()))
    with Server(*words) as server:
        def run(writer):
            try:
                if writer == WRITERS:
                    search_on(server)
                else:
                    write_on(server, writer, left[writer])
            except (AssertionError, OSError, ValueError, KeyError, IndexError) as fault:
                faults.append(f"client {writer}: {fault!r}"[:300])

        at_once(WRITERS + 1, run)
        check(f"{name}: what searches find while segments are merged", faults[0] if faults else "")
        wanted = {name.decode(): number for own in left for name, number in own.items()}
        with Client(server) as client:
            got = found(client)
        check(f"{name}: what is found at the end", "" if got == (wanted, True) else f"{len(got[0])} documents, and {len(wanted)} are wanted")
    if folder:
        with Server(*words) as server, Client(server) as client:
            got = found(client)
            check(f"{name}: what is found after a kill", "" if got == (wanted, True) else f"{len(got[0])} documents, and {len(wanted)} are wanted")


def write_on(server, writer, left):
    chance = random.Random(writer)
    with Client(server) as client:
        for number in range(ROUNDS):
            name = b"%d-%d" % (writer, chance.randrange(DOCUMENTS // WRITERS))
            if name in left and chance.random() < 0.2:
                assert client.ask(shown_delete(name))["result"] == "deleted"
                del left[name]
            else:
                assert client.ask(shown_put(name, number))["result"] in ("created", "updated")
                left[name] = number
            got, is_whole = found(client)
            own = {it: number for it, number in got.items() if it.startswith(f"{writer}-")}
            assert is_whole and own == {it.decode(): number for it, number in left.items()}, (number, own, left)


def search_on(server):
    with Client(server) as client:
        for _ in range(10 * ROUNDS):
            got, is_whole = found(client)
            assert is_whole and len(got) <= DOCUMENTS, len(got)


def in_a_row():
    """Many segments of one document each, and larger ones between: all is found in the end, and each get has the last write."""
    with Server() as server, Client(server) as client:
        for number in range(400):
            client.ask(shown_put(b"%d" % (number % 150), number))
            if number % 100 == 50:
                lines = b"".join(b'{"index":{"_id":"b%d-%d"}}\n{"n":%d}\n' % (number, it, it) for it in range(2_000))
                client.ask(b"POST /books/_bulk?refresh=true HTTP/1.1\r\ncontent-length: %d\r\n\r\n%s" % (len(lines), lines))
        got = client.ask(COUNT)
        check("segments of all sizes: how many documents are counted", "" if got.get("count") == 150 + 4 * 2_000 else repr(got))
        got = [it and it["n"] for it in sources(server, [b"%d" % it for it in range(150)])]
        check("segments of all sizes: each has its last write", "" if got == [*range(300, 400), *range(250, 300)] else repr(got)[:300])


def took(server, documents, request=COUNT, times=400):
    """The median of what a request takes that counts these documents or finds them."""
    with Client(server) as client:
        clock = []
        for _ in range(times):
            begun = time.monotonic()
            got = client.ask(request)
            clock.append(time.monotonic() - begun)
            assert got.get("count", got.get("hits", {}).get("total", {}).get("value")) == documents, got
    return sorted(clock)[len(clock) // 2]


def stay_few():
    """Behind thousands of refreshes a search takes about as long as where all documents stand in one segment: each segment that it looks through takes some time."""
    times = []
    for copies in (1, 2):
        for many in (1, 4_000):
            with Server("--copies", copies) as server, Client(server) as client:
                for first in range(0, 4_000, 4_000 // many):
                    lines = b"".join(b'{"index":{"_id":"%d"}}\n{}\n' % it for it in range(first, first + 4_000 // many))
                    client.ask(b"POST /books/_bulk?refresh=true HTTP/1.1\r\ncontent-length: %d\r\n\r\n%s" % (len(lines), lines))
                times.append(took(server, 4_000))
        alone, merged = times[-2:]
        check(f"{copies} copies: how long a search takes behind 4,000 refreshes", "" if merged < 8 * alone else f"{merged * 1_000:.2f} ms, and {alone * 1_000:.2f} ms behind one")


def filled(client, many, size):
    """Fills an index with so many bulks of this size, each of which makes a segment, and returns how many documents it has."""
    for first in range(0, many * size, size):
        lines = b"".join(b'{"index":{"_id":"%d"}}\n{}\n' % it for it in range(first, first + size))
        client.ask(b"POST /books/_bulk?refresh=true HTTP/1.1\r\ncontent-length: %d\r\n\r\n%s" % (len(lines), lines))
    return many * size


def at_rest():
    """An index that many bulks filled is merged once no write comes: a deep page then takes about as long as where all documents stand in one segment."""
    deep = b'POST /books/_search HTTP/1.1\r\ncontent-length: 13\r\n\r\n{"from":9000}'
    for copies in (1, 2):
        times = []
        for many, refresh in ((1, 0), (16, 200)):
            with Server("--copies", copies, "--refresh-ms", refresh) as server, Client(server) as client:
                documents = filled(client, many, 16_000 // many)
                until = time.monotonic() + 10
                times.append(took(server, documents, deep, 50))
                while many > 1 and times[-1] > 2 * times[0] and time.monotonic() < until:
                    times[-1] = took(server, documents, deep, 50)
        alone, merged = times
        check(f"{copies} copies: how long a deep page takes at rest after 16 bulks", "" if merged <= 2 * alone else f"{merged * 1_000:.2f} ms, and {alone * 1_000:.2f} ms in one segment")


def lone_writes():
    """Writes that come one by one while bulks of 1,024 are under way over three copies: none is refused."""
    refused = []
    with Server("--copies", 3) as server:
        def run(client):
            with Client(server) as connection:
                for number in range(6 if client < 2 else 200):
                    if client < 2:
                        lines = b"".join(b'{"index":{"_id":"%d-%d-%d"}}\n{}\n' % (client, number, it) for it in range(1_024))
                        got = connection.ask(b"POST /books/_bulk HTTP/1.1\r\ncontent-length: %d\r\n\r\n%s" % (len(lines), lines))
                        is_refused = got.get("errors") is not False
                    else:
                        got = connection.ask(put_of(b"lone-%d-%d" % (client, number), b"{}"))
                        is_refused = "error" in got
                    if is_refused:
                        refused.append(repr(got)[:200])

        at_once(4, run)
        check("writes beside bulks over three copies", refused[0] if refused else "")
        got = bodies(server.ask(b"POST /books/_refresh HTTP/1.1\r\n\r\n" + COUNT))
        check("all of them are found", "" if got[1:] and got[1].get("count") == 12 * 1_024 + 400 else repr(got))
