#!/bin/bash
# bench/memory.sh [DOCUMENTS]: what a write and an overwrite take of memory for good, over one copy in memory and over three, with and without --audit (50,000 documents by default).
#
# That many documents of 140 bytes are written, one by one over one connection, and then each is overwritten once; the index is refreshed behind each of the two. Printed is by how
# much the server's resident memory grew, in bytes a write and a copy, and beside it a write of all copies. INDEXD_PROGRAM=FILE measures the executable FILE in place of the one that
# ./indexd runs. Needs Linux and python3.
set -euo pipefail

. "$(dirname -- "$(readlink -f -- "${BASH_SOURCE[0]}")")/program.sh"
documents=${1:-50000}
if ! [[ $documents =~ ^[1-9][0-9]{0,6}$ ]]; then
    echo "bench/memory.sh: a number of documents is wanted, and not $documents" >&2
    exit 2
fi

exec python3 - "$program" "$documents" <<'PROGRAM'
import random
import socket
import subprocess
import sys
import tempfile

program, documents = sys.argv[1], int(sys.argv[2])
WORDS = ["faust", "emma", "ulysses", "walden", "dracula", "kim", "middlemarch", "heidi", "moby", "alice"]
# How many requests are sent before their pages are read.
TOGETHER = 100


def text_of(number):
    chance = random.Random(number)
    return b'{"title":"%s %s","pages":%d,"note":"%s"}' % (chance.choice(WORDS).encode(), b"%d" % number, chance.randrange(1_000), b"x" * 80)


class Connection:
    def __init__(self, port):
        self.socket, self.got = socket.create_connection(("127.0.0.1", port)), b""
        self.socket.setsockopt(socket.IPPROTO_TCP, socket.TCP_NODELAY, 1)

    def more(self):
        self.got += self.socket.recv(1 << 16)

    def page(self):
        while b"\r\n\r\n" not in self.got:
            self.more()
        head, _, self.got = self.got.partition(b"\r\n\r\n")
        length = int(head.split(b"content-length: ")[1].split(b"\r\n")[0])
        while len(self.got) < length:
            self.more()
        if head.split()[1] not in (b"200", b"201"):
            sys.exit(f"bench/memory.sh: a request answers {head[:100]} {self.got[:200]}")
        self.got = self.got[length:]

    def ask(self, requests):
        self.socket.sendall(b"".join(requests))
        for _ in requests:
            self.page()


def put(number, salt):
    text = text_of(number + salt)
    return b"PUT /books/_doc/%d HTTP/1.1\r\ncontent-length: %d\r\n\r\n%s" % (number, len(text), text)


def write(connection, salt):
    for first in range(0, documents, TOGETHER):
        connection.ask([put(it, salt) for it in range(first, min(first + TOGETHER, documents))])
    connection.ask([b"POST /books/_refresh HTTP/1.1\r\n\r\n"])


def memory(process):
    return next(int(it.split()[1]) * 1024 for it in open(f"/proc/{process.pid}/status") if it.startswith("VmRSS"))


def measure(copies, audit):
    with socket.socket() as free:
        free.bind(("127.0.0.1", 0))
        port = free.getsockname()[1]
    with tempfile.NamedTemporaryFile() as mapping:
        mapping.write(b'{"properties":{"title":{"type":"text"},"pages":{"type":"long"}}}')
        mapping.flush()
        words = [program, "serve", "--port", str(port), "--index", "books", "--copies", str(copies), "--mapping", mapping.name]
        process = subprocess.Popen([*words, *(["--audit", "--connections", "1"] if audit else [])], stdout=subprocess.PIPE)
        process.stdout.readline()
    try:
        connection = Connection(port)
        connection.ask([b"POST /books/_refresh HTTP/1.1\r\n\r\n"])
        sizes = [memory(process)]
        for salt in (0, documents):
            write(connection, salt)
            sizes.append(memory(process))
        grown = [(after - before) / documents for before, after in zip(sizes, sizes[1:])]
        cells = " ".join(f"{it / copies:10.0f} {it:10.0f}" for it in grown)
        print(f"{copies:6} {'yes' if audit else 'no':>8} {cells} {sizes[-1] >> 20:8}", flush=True)
    finally:
        process.kill()
        process.wait()


print("copies  --audit      write  of copies  overwrite  of copies      MiB")
for copies, audit in ((1, False), (3, False), (1, True), (3, True)):
    measure(copies, audit)
PROGRAM
