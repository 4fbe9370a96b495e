"""Clients over three copies for some seconds, while other copies are made the primary."""
import os
import random
import socket
import threading
import time

from checking import check
from serving.pages import asked, get_of, promote_of, put_of, sources
from serving.server import SECONDS, Server, at_once

CLIENTS = 8


class Soak:
    """What the clients know: what each wrote last into each of its documents, which faults they met, and which promotions are due and were told."""

    def __init__(self, seconds):
        self.seconds, self.guard = seconds, threading.Lock()
        self.last, self.faults, self.told = [{} for _ in range(CLIENTS)], [], []
        self.done, self.refused, self.terms = [0] * CLIENTS, [0] * CLIENTS, [1] * CLIENTS
        start = time.monotonic()
        self.due = [(start + seconds * part, copy) for part, copy in ((0.7, b"3"), (0.4, b"3"), (0.2, b"2"))]

    def next_due(self):
        """The copy to promote, where the time has come."""
        with self.guard:
            return self.due.pop()[1] if self.due and self.due[-1][0] <= time.monotonic() else None

    def run_client(self, server, client):
        chance = random.Random(client)
        try:
            with server.connect() as connection:
                connection.setsockopt(socket.IPPROTO_TCP, socket.TCP_NODELAY, 1)
                connection.settimeout(SECONDS + self.seconds)
                pages = connection.makefile("rb")
                asked(connection, pages, get_of(b"0"))
                end = time.monotonic() + self.seconds
                while time.monotonic() < end:
                    self.done[client] += 1
                    if copy := self.next_due():
                        got = asked(connection, pages, promote_of(copy))
                        self.told.append((got.get("primary"), got.get("primary_term")))
                    self.do_something(connection, pages, client, chance, end)
        except (AssertionError, OSError, ValueError, KeyError, IndexError) as fault:
            self.faults.append(f"client {client}: {fault!r}"[:200])

    def do_something(self, connection, pages, client, chance, end):
        name = b"%d-%d" % (client, chance.randrange(20))
        deed = chance.random()
        if deed < 0.6:
            while "error" in (got := asked(connection, pages, put_of(name, b'{"n":%d}' % self.done[client]))):
                assert got["error"]["reason"] in ("NotPrimary", "Closed") and time.monotonic() < end + SECONDS, got
                self.refused[client] += 1
            assert got["_shards"]["successful"] in (1, 2, 3) and got["_primary_term"] >= self.terms[client], got
            self.last[client][name], self.terms[client] = self.done[client], got["_primary_term"]
        elif deed < 0.9:
            got = asked(connection, pages, get_of(name))
            assert (got.get("_source") or {"n": None})["n"] == self.last[client].get(name), name
        elif deed < 0.98:
            assert asked(connection, pages, b"GET /books/_search HTTP/1.1\r\n\r\n")["hits"]["total"]["value"] <= 20 * CLIENTS
        else:
            assert asked(connection, pages, b"POST /books/_refresh HTTP/1.1\r\n\r\n")["_shards"]["successful"] in (1, 2, 3)


def soak():
    """Clients that each have some documents of their own, and count up in each; at the end each document has the last number. Meanwhile the clients
    have copy 2 made the primary, then copy 3, and that one again; a write that is refused then is sent again."""
    seconds, connections = float(os.environ.get("SOAK") or 2), 9
    soaked = Soak(seconds)
    with Server("--copies", 3, "--connections", connections, "--audit") as server:
        at_once(CLIENTS, lambda client: soaked.run_client(server, client))
        faults, told, terms = soaked.faults, soaked.told, soaked.terms
        check("clients over three copies", faults[0] if faults else "")
        check("promotions meanwhile", "" if told == [(2, 2), (3, 3), (3, 4)] and max(terms) == 4 else f"{told} {terms}")
        wanted = {name: number for it in soaked.last for name, number in it.items()}
        found = [it and it["n"] for it in sources(server, wanted)]
        check("each has its last write", "" if found == [*wanted.values()] else "another number is found")
        begun = time.monotonic()
        out, err = server.process.communicate(timeout=60 + 20 * seconds)
        check("what they had the copies do is audited", "" if (out, err) == (b"audit ok\n", b"") else f"{out} {err}")
        print(f"{sum(soaked.done)} requests in {seconds:.0f} seconds, {sum(soaked.refused)} writes sent again; audited in {time.monotonic() - begun:.1f}", flush=True)
