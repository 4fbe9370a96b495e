#!/bin/bash
# bench/hostile.sh [DOCUMENTS]: what searches that are made to cost much take of the server's processor, and how long a get waits beside them (100,000 documents by default).
#
# The documents have some 60 or 260 bytes and come in bulks; then the index is refreshed and at rest. Each search is one request of at most 1,048,576 bytes over a
# connection of its own, while another client gets a document every 5 milliseconds. Last come eight of the dearest at once. Printed are the bytes of the request, the
# seconds of the processor, the longest wait of 99 of 100 gets and of all, in milliseconds. INDEXD_PROGRAM=FILE measures the executable FILE in place of the one that
# ./indexd runs. Needs Linux and python3.
set -euo pipefail

. "$(dirname -- "$(readlink -f -- "${BASH_SOURCE[0]}")")/program.sh"
documents=${1:-100000}
if ! [[ $documents =~ ^[1-9][0-9]{0,7}$ ]]; then
    echo "bench/hostile.sh: a number of documents is wanted, and not $documents" >&2
    exit 2
fi

exec python3 - "$program" "$documents" <<'PROGRAM'
import json
import os
import socket
import subprocess
import sys
import tempfile
import threading
import time

program, documents = sys.argv[1], int(sys.argv[2])
MAPPING = {"properties": {"t": {"type": "text"}, "k": {"type": "keyword"}, "n": {"type": "long"}}}
TICKS = os.sysconf("SC_CLK_TCK")


def clauses(kind, several):
    return b'{"bool":{"%s":[%s]}}' % (kind, b",".join(several))


def match(words):
    return b'{"match":{"t":"%s"}}' % words


FREQUENT = b" ".join(b"f%02d" % it for it in range(50))

QUERIES = [
    ("one word 524,000 times, and", b'{"match":{"t":{"query":"%s","operator":"and"}}}' % (b"a " * 523_900)),
    ("the same, or", match(b"a " * 523_900)),
    ("1,023 matches of one word 480 times", clauses(b"should", [match(b"a " * 480)] * 1_023)),
    ("7 terms of one value 37,000 times", clauses(b"should", [b'{"terms":{"k":[%s]}}' % b",".join([b'"x"'] * 37_000)] * 7)),
    ("1,023 matches of 50 frequent words", clauses(b"should", [match(FREQUENT)] * 1_023)),
    ("1,023 ranges of keywords", clauses(b"must", [b'{"range":{"k":{"gte":"%d"}}}' % (it % 10) for it in range(1_023)])),
    ("1,023 prefixes of one letter", clauses(b"must", [b'{"prefix":{"k":"%d"}}' % (it % 10) for it in range(1_023)])),
    ("1,023 matches of one word", clauses(b"should", [match(b"a")] * 1_023)),
    ("1,023 ranges of longs", clauses(b"must", [b'{"range":{"n":{"gte":%d}}}' % it for it in range(1_023)])),
    ("65,536 values of one terms", b'{"terms":{"n":[%s]}}' % b",".join(b"%d" % it for it in range(65_536))),
    ("16,000 words", match(b" ".join(b"w%d" % it for it in range(16_000)))),
]


def connected():
    connection = socket.create_connection(("127.0.0.1", port))
    connection.setsockopt(socket.IPPROTO_TCP, socket.TCP_NODELAY, 1)
    return connection


def asked(connection, target, body=b"", method=b"POST"):
    """Sends a request, and takes its whole page."""
    connection.sendall(b"%s /index/%s HTTP/1.1\r\ncontent-length: %d\r\n\r\n%s" % (method, target, len(body), body))
    got = b""
    while b"\r\n\r\n" not in got:
        got += some_of(connection)
    head, _, body = got.partition(b"\r\n\r\n")
    left = int(head.split(b"content-length: ")[1].split(b"\r\n")[0]) - len(body)
    while left > 0:
        left -= len(some_of(connection))
    return int(head.split()[1])


def some_of(connection):
    some = connection.recv(1 << 20)
    if not some:
        sys.exit("bench/hostile.sh: a connection ended")
    return some


def spent():
    fields = open(f"/proc/{server.pid}/stat").read().rpartition(")")[2].split()
    return (int(fields[11]) + int(fields[12])) / TICKS


def fill():
    connection = connected()
    for first in range(0, documents, 5_000):
        lines = (b'{"index":{"_id":"%d"}}\n{"t":"a b w%d%s","k":["%06d","x"],"n":%d}\n' % (it, it % 20_000, b" " + FREQUENT if it % 2 else b"", it, it) for it in range(first, min(documents, first + 5_000)))
        asked(connection, b"_bulk", b"".join(lines))
    asked(connection, b"_refresh")
    time.sleep(3)


class Probe:
    """A client that gets a document every 5 milliseconds, and how long each get takes."""

    def __enter__(self):
        self.waits, self.over = [], False
        self.thread = threading.Thread(target=self.run)
        self.thread.start()
        time.sleep(0.2)
        return self

    def run(self):
        connection = connected()
        while not self.over:
            begun = time.monotonic()
            asked(connection, b"_doc/7", method=b"GET")
            self.waits.append((time.monotonic() - begun) * 1_000)
            time.sleep(0.005)

    def __exit__(self, *_):
        self.over = True
        self.thread.join()
        self.waits.sort()


def searched(query):
    status = asked(connected(), b"_search", b'{"size":0,"query":%s}' % query)
    if status != 200:
        print(f"bench/hostile.sh: a search is answered {status}", file=sys.stderr)


def row(name, size, seconds, waits):
    print(f"| {name} | {size:,} | {seconds:.2f} | {waits[len(waits) * 99 // 100]:.1f} | {waits[-1]:.1f} |", flush=True)


with tempfile.TemporaryDirectory() as folder:
    mapping = f"{folder}/mapping.json"
    open(mapping, "w").write(json.dumps(MAPPING))
    with socket.socket() as taken:
        taken.bind(("127.0.0.1", 0))
        port = taken.getsockname()[1]
    server = subprocess.Popen([program, "serve", "--port", str(port), "--mapping", mapping, "--refresh-ms", "0"], stdout=subprocess.PIPE)
    try:
        server.stdout.readline()
        fill()
        print("| Search | Bytes | Seconds of the processor | 99 of 100 gets | Longest get |\n|---|---|---|---|---|")
        dearest = (0, "", b"")
        for name, query in QUERIES:
            before = spent()
            with Probe() as probe:
                searched(query)
            seconds = spent() - before
            dearest = max(dearest, (seconds, name, query))
            row(name, len(query), seconds, probe.waits)
        before = spent()
        with Probe() as probe:
            threads = [threading.Thread(target=searched, args=(dearest[2],)) for _ in range(8)]
            for it in threads:
                it.start()
            for it in threads:
                it.join()
        row(f"eight at once: {dearest[1]}", 8 * len(dearest[2]), spent() - before, probe.waits)
    finally:
        server.kill()
PROGRAM
