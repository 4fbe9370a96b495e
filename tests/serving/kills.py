"""Servers that are killed while a client writes: each acknowledged write is found again."""
import contextlib
import os
import random
import socket
import subprocess
import tempfile
import threading
import time
from pathlib import Path

from checking import check, program, shown
from serving.pages import put_of, sources
from serving.server import Server, free_port

KILLS_OF_A_FOLDER = 50


def killed():
    for copies in (1, 3):
        for which in ("each", "together"):
            killed_over(copies, which, int(os.environ.get("KILLS") or 50))


def killed_over(copies, which, rounds):
    """Begins a new folder now and then, since each start reads all that was written."""
    chance, lost, written, begun = random.Random(copies), [], 0, time.monotonic()
    for first in range(0, rounds, KILLS_OF_A_FOLDER):
        written += killed_in_a_folder(copies, which, min(KILLS_OF_A_FOLDER, rounds - first), chance, lost)
        if lost:
            break
    print(f"{rounds} kills of a server of {copies}, syncs {which}, while {written} writes were sent, in {time.monotonic() - begun:.0f} seconds", flush=True)
    check(f"each acknowledged write is found after a kill, {copies} copies, syncs {which}", lost[0] if lost else "" if written > rounds else "hardly a write was sent")


def killed_in_a_folder(copies, which, rounds, chance, lost):
    """A client counts up, and writes each number to some document; of each it then finds the last that was acknowledged, or one that was sent after it."""
    number, sent, acknowledged = 0, {}, {}
    with tempfile.TemporaryDirectory() as top:
        folder = Path(top, "books")
        for at in range(rounds + 1):
            if at % 5 == 4:
                words = [program(), "serve", "--port", str(free_port()), "--data", str(folder), "--copies", str(copies), "--sync", which]
                with subprocess.Popen(words, stdin=subprocess.DEVNULL, stdout=subprocess.DEVNULL, stderr=subprocess.DEVNULL) as early:
                    time.sleep(chance.random() * 0.02)
                    early.kill()
            with Server("--data", folder, "--copies", copies, "--sync", which) as server:
                if not server.listens:
                    lost.append(f"no start after kill {at}: {shown(server.process.stderr.read())}")
                    break
                names = sorted(acknowledged)
                for name, found in zip(names, sources(server, names)):
                    if found is None or not acknowledged[name] <= found["n"] <= sent[name]:
                        lost.append(f"after kill {at} document {name} is {found}, and {acknowledged[name]} was acknowledged")
                if at == rounds or lost:
                    break
                killer = threading.Timer(0.005 + chance.random() * 0.1, server.process.kill)
                killer.start()
                number = write_until_killed(server, chance, number, sent, acknowledged)
                killer.join()
    return number


def write_until_killed(server, chance, number, sent, acknowledged):
    """Notes of each document the last number that was sent, and the last that was acknowledged, and gives the last of all."""
    with contextlib.suppress(OSError), server.connect() as connection:
        connection.setsockopt(socket.IPPROTO_TCP, socket.TCP_NODELAY, 1)
        while True:
            number, name = number + 1, b"%d" % chance.randrange(30)
            sent[name] = number
            connection.sendall(put_of(name, b'{"n":%d}' % number))
            if not (got := connection.recv(65536)):
                break
            if got.split()[1] in (b"200", b"201"):
                acknowledged[name] = number
    return number
