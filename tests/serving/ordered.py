"""What one connection is told, while others write, is never older than what it was told before."""
import time

from checking import check
from serving.pages import Client
from serving.server import Server, at_once

WRITERS, READERS, SECONDS = 3, 3, 1.5


def put_refreshed(name, n):
    text = b'{"n":%d}' % n
    return b"PUT /books/_doc/%s?refresh=true HTTP/1.1\r\ncontent-length: %d\r\n\r\n%s" % (name, len(text), text)


def search():
    text = b'{"query":{"match_all":{}},"size":10}'
    return b"POST /books/_search HTTP/1.1\r\ncontent-length: %d\r\n\r\n%s" % (len(text), text)


def numbers_of(page):
    """The number in each document that a search has found, by id."""
    return {it["_id"]: it["_source"]["n"] for it in page["hits"]["hits"]}


class Watch:
    """Clients that write and search, each over a connection of its own, and what went wrong."""

    def __init__(self, server):
        self.server, self.faults, self.done = server, [], [0] * (WRITERS + READERS)

    def run(self, client):
        try:
            with Client(self.server) as connection:
                (self.write if client < WRITERS else self.read)(connection, client)
        except (AssertionError, OSError, ValueError, KeyError) as fault:
            self.faults.append(f"client {client}: {fault!r}"[:200])

    def write(self, connection, client):
        end = time.monotonic() + SECONDS
        while time.monotonic() < end:
            n = self.done[client] = self.done[client] + 1
            assert "result" in connection.ask(put_refreshed(b"%d" % client, n)), "a write was refused"
            found = numbers_of(connection.ask(search())).get(str(client))
            assert found == n, f"{found} is found behind the write of {n}"

    def read(self, connection, client):
        end, last = time.monotonic() + SECONDS, {}
        while time.monotonic() < end:
            found = numbers_of(connection.ask(search()))
            self.done[client] += 1
            assert all(found.get(it, 0) >= n for it, n in last.items()), f"{found} behind {last}"
            last = found


def ordered():
    for copies in (1, 3):
        with Server("--copies", copies, "--threads", 6) as server:
            watch = Watch(server)
            at_once(WRITERS + READERS, watch.run)
            check(f"connections to {copies} copies go on from what they were told", "; ".join(watch.faults[:3]))
            check(f"connections to {copies} copies write and search", "" if min(watch.done) > 10 else f"only {watch.done} times")
