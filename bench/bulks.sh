#!/bin/bash
# bench/bulks.sh [BULKS]: bulks of 1,000 documents of 450 bytes, in documents a second (40 bulks a line by default).
#
# First a file is appended to and synced (fdatasync) by as many bytes as such a bulk has, as often as there are bulks: what the disk itself gives. Then one
# connection posts one bulk after another to a server of an index in memory, of one in a folder, and of three copies in a folder. SQLite (Python's sqlite3, a write-ahead log that is synced
# in each transaction) inserts the same documents, 1,000 in a transaction. Each durable line stands beside the disk's own rate, measured again before it, since disks are shared.
# Everything stands in a folder of /var/tmp (DIR=FOLDER: in that). INDEXD_PROGRAM=FILE measures the executable FILE in place of the one that ./indexd runs, which
# is built first where it has to be. Needs Linux and python3.
set -euo pipefail

. "$(dirname -- "$(readlink -f -- "${BASH_SOURCE[0]}")")/program.sh"
bulks=${1:-40}
if ! [[ $bulks =~ ^[1-9][0-9]{0,4}$ ]]; then
    echo "bench/bulks.sh: a number of bulks of 1 to 99999 is wanted, and not $bulks" >&2
    exit 2
fi

exec python3 - "$program" "$bulks" <<'PROGRAM'
import os
import socket
import sqlite3
import subprocess
import sys
import tempfile
import time

program, bulks = sys.argv[1], int(sys.argv[2])
MANY, SIZE = 1000, 450
LINE = "{:52} {:>12} {:>12}"


def document(number):
    return b'{"number":%d,"text":"%s"}' % (number, (b"a word and another " * 30)[:SIZE - 21 - len(str(number))])


def body(bulk):
    lines = (b'{"index":{"_id":"%d"}}\n%s\n' % (at, document(at)) for at in range(bulk * MANY, bulk * MANY + MANY))
    return b"".join(lines)


def disk_of(folder):
    """How many documents a second the disk takes by appends of a bulk's bytes, each synced."""
    begun = time.monotonic()
    with open(f"{folder}/plain", "wb", buffering=0) as plain:
        for _ in range(bulks):
            plain.write(b"x" * (MANY * (SIZE + 50)))
            os.fdatasync(plain.fileno())
    return bulks * MANY / (time.monotonic() - begun)


def posted(*words):
    """Documents a second over one connection."""
    with socket.socket() as free:
        free.bind(("127.0.0.1", 0))
        port = free.getsockname()[1]
    server = subprocess.Popen([program, "serve", "--port", str(port), "--index", "books", *words], stdout=subprocess.PIPE)
    try:
        server.stdout.readline()
        connection = socket.create_connection(("127.0.0.1", port))
        connection.setsockopt(socket.IPPROTO_TCP, socket.TCP_NODELAY, 1)
        pages = connection.makefile("rb")
        bodies, begun = [body(it) for it in range(bulks)], time.monotonic()
        for one in bodies:
            connection.sendall(b"POST /books/_bulk HTTP/1.1\r\nhost: localhost\r\ncontent-length: %d\r\n\r\n" % len(one) + one)
            length = 0
            status = pages.readline()
            while (line := pages.readline().rstrip()):
                if line.lower().startswith(b"content-length:"):
                    length = int(line.split(b":")[1])
            page = pages.read(length)
            if b" 200 " not in status or b'"errors":false' not in page:
                sys.exit(f"bench/bulks.sh: a bulk is answered {status} {page[:200]}")
        return bulks * MANY / (time.monotonic() - begun)
    finally:
        server.kill()
        server.wait()


def sqlite(folder):
    base = sqlite3.connect(f"{folder}/base", isolation_level=None)
    base.execute("PRAGMA journal_mode=WAL")
    base.execute("PRAGMA synchronous=FULL")
    base.execute("CREATE TABLE books (id TEXT PRIMARY KEY, source TEXT NOT NULL) WITHOUT ROWID")
    rows, begun = [[(str(at), document(at).decode()) for at in range(it * MANY, it * MANY + MANY)] for it in range(bulks)], time.monotonic()
    for one in rows:
        base.execute("BEGIN")
        base.executemany("INSERT OR REPLACE INTO books VALUES (?, ?)", one)
        base.execute("COMMIT")
    return bulks * MANY / (time.monotonic() - begun)


with tempfile.TemporaryDirectory(dir=os.environ.get("DIR", "/var/tmp")) as folder:
    print(LINE.format("documents of 450 bytes, 1,000 a bulk", "a second", "of the disk"))
    print(LINE.format("in memory, one copy", f"{posted():.0f}", ""), flush=True)
    for name, made in (
        ("in a folder, one copy", lambda: posted("--data", f"{folder}/one")),
        ("in a folder, one copy, --sync together", lambda: posted("--data", f"{folder}/together", "--sync", "together")),
        ("in a folder, three copies, --sync together", lambda: posted("--data", f"{folder}/three", "--copies", "3", "--sync", "together")),
        ("SQLite, a transaction of 1,000", lambda: sqlite(folder)),
    ):
        disk = disk_of(folder)
        rate = made()
        print(LINE.format(name, f"{rate:.0f}", f"{rate / disk:.2f}"), flush=True)
    print(f"appends of a bulk's bytes that the disk syncs: {disk_of(folder):.0f} documents a second")
PROGRAM
