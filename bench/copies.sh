#!/bin/bash
# bench/copies.sh [SECONDS [DIR]]: requests a second over one copy and over three, in memory and in a folder (3 seconds each by default).
#
# Clients write documents over a connection each, each once the page of the one before it is there: 1, 4, and 16 of them, of which four are served at once and
# the others one after another. Then one client searches, alone and beside a client that writes as fast as it can: the median of what a search takes, and the
# 99th of a hundred. The folder is a new one in DIR, or in /var/tmp. In front of all stands what the disk gives: appends of 100 bytes, each synced.
# INDEXD_PROGRAM=FILE measures the executable FILE in place of the one that ./indexd runs, which is built first where it has to be. Needs Linux and python3.
set -euo pipefail

. "$(dirname -- "$(readlink -f -- "${BASH_SOURCE[0]}")")/program.sh"
seconds=${1:-3}
folder=${2:-/var/tmp}
if ! [[ $seconds =~ ^[1-9][0-9]{0,3}$ ]] || [ ! -d "$folder" ]; then
    echo "bench/copies.sh: a number of seconds and a folder that is there are wanted, and not $seconds and $folder" >&2
    exit 2
fi

exec python3 - "$program" "$seconds" "$folder" <<'PROGRAM'
import multiprocessing
import os
import socket
import subprocess
import sys
import tempfile
import time

program, seconds, top = sys.argv[1], int(sys.argv[2]), sys.argv[3]
SEARCH = b'GET /books/_search HTTP/1.1\r\ncontent-length: 42\r\n\r\n{"query":{"match":{"title":"faust"}}     }'


def serve(copies, folder):
    with socket.socket() as free:
        free.bind(("127.0.0.1", 0))
        port = free.getsockname()[1]
    mapping = f"{folder}/mapping"
    with open(mapping, "w") as file:
        file.write('{"properties":{"title":{"type":"text"},"pages":{"type":"long"}}}')
    words = [program, "serve", "--port", str(port), "--index", "books", "--copies", str(copies), "--mapping", mapping]
    return words, port


def put(connection, client, number):
    body = b'{"title":"Faust","pages":%d}' % number
    connection.sendall(b"PUT /books/_doc/%d-%d HTTP/1.1\r\ncontent-length: %d\r\n\r\n%s" % (client, number % 1000, len(body), body))
    status = connection.recv(65536).split()[1]
    if status not in (b"200", b"201"):
        sys.exit(f"bench/copies.sh: a write answers {status}")


def connected(port):
    connection = socket.create_connection(("127.0.0.1", port))
    connection.setsockopt(socket.IPPROTO_TCP, socket.TCP_NODELAY, 1)
    return connection


def write(port, client, span, counts):
    """Writes for so long, and puts how often into the counts."""
    connection, number, end = connected(port), 0, time.monotonic() + span
    while time.monotonic() < end:
        put(connection, client, number)
        number += 1
    counts.put(number)


def writers(port, clients):
    """Writes a second of so many clients, four of which are served at once."""
    counts, rounds = multiprocessing.Queue(), -(-clients // 4)
    ran = [multiprocessing.Process(target=write, args=(port, it, seconds / rounds, counts)) for it in range(clients)]
    begun = time.monotonic()
    for it in ran:
        it.start()
    for it in ran:
        it.join()
    return sum(counts.get() for _ in ran) / (time.monotonic() - begun)


def searches(port):
    connection, took, end = connected(port), [], time.monotonic() + seconds
    while time.monotonic() < end:
        begun = time.monotonic()
        connection.sendall(SEARCH)
        got = connection.recv(1 << 20)
        left = int(got.split(b"content-length: ")[1].split(b"\r\n")[0]) - len(got.partition(b"\r\n\r\n")[2])
        while left > 0:
            left -= len(connection.recv(1 << 20))
        took.append((time.monotonic() - begun) * 1e6)
    took.sort()
    return took[len(took) // 2], took[len(took) * 99 // 100]


def measure(copies, data):
    name = f"{copies} {'copy' if copies == 1 else 'copies'}, {'in a folder' if data else 'in memory'}"
    with tempfile.TemporaryDirectory(dir=top) as folder:
        words, port = serve(copies, folder)
        with subprocess.Popen(words + (["--data", f"{folder}/data"] if data else []), stdout=subprocess.PIPE) as server:
            try:
                if not server.stdout.readline():
                    sys.exit("bench/copies.sh: the server doesn't start")
                for clients in (1, 4, 16):
                    print(f"{name}: {writers(port, clients):.0f} writes a second of {clients}", flush=True)
                print(f"{name}: a search takes %.0f microseconds, the 99th of a hundred %.0f" % searches(port), flush=True)
                counts = multiprocessing.Queue()
                beside = multiprocessing.Process(target=write, args=(port, 0, seconds + 1, counts))
                beside.start()
                time.sleep(0.5)
                print(f"{name}: beside a writer %.0f, and %.0f" % searches(port), flush=True)
                beside.join()
            finally:
                server.kill()


def disk():
    with tempfile.TemporaryDirectory(dir=top) as folder, open(f"{folder}/plain", "ab", buffering=0) as plain:
        count, begun = 0, time.monotonic()
        while (took := time.monotonic() - begun) < seconds:
            plain.write(b"x" * 100)
            os.fdatasync(plain.fileno())
            count += 1
        print(f"the disk: {count / took:.0f} synced appends a second", flush=True)


disk()
for data in (False, True):
    for copies in (1, 3):
        measure(copies, data)
PROGRAM
