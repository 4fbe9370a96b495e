#!/bin/bash
# bench/open.sh [RECORDS [DIR]]: how long a start over a large log takes, in seconds and MB a second (1,000,000 records by default).
#
# The log is written by the format in docs/FORMATS.md into a new folder in DIR, or in /var/tmp: an index of one copy, each record a document of its own. Then a
# server is started over it three times, and the time is taken until it says where it listens; the best is printed, and beside it what reading the file alone
# takes. After each start one document is looked for.
# INDEXD_PROGRAM=FILE measures the executable FILE in place of the one that ./indexd runs, which is built first where it has to be. Needs Linux and python3.
set -euo pipefail

. "$(dirname -- "$(readlink -f -- "${BASH_SOURCE[0]}")")/program.sh"
records=${1:-1000000}
folder=${2:-/var/tmp}
if ! [[ $records =~ ^[1-9][0-9]{0,7}$ ]] || [ ! -d "$folder" ]; then
    echo "bench/open.sh: a number of records and a folder that is there are wanted, and not $records and $folder" >&2
    exit 2
fi

exec python3 - "$program" "$records" "$folder" <<'PROGRAM'
import os
import resource
import socket
import struct
import subprocess
import sys
import tempfile
import time

program, records, top = sys.argv[1], int(sys.argv[2]), sys.argv[3]


def frame(content):
    return struct.pack("<I", len(content)) + content


def record(seq):
    """The write of a document, whose primary knew all writes before it."""
    name, source = b"%d" % seq, b'{"title":"Faust","pages":%d}' % seq
    numbers = struct.pack("<BqQQQB", 1, seq - 1, seq, 1, 1, 1)
    return frame(numbers + struct.pack("<H", len(name)) + name + struct.pack("<I", len(source)) + source)


def write(folder):
    os.mkdir(folder)
    with open(f"{folder}/mapping.json", "w") as mapping:
        mapping.write('{"properties":{"title":{"type":"text"},"pages":{"type":"long"}}}\n')
    with open(f"{folder}/copy-1.rsx", "wb") as log:
        log.write(b"RSX1")
        for seq in range(records):
            log.write(record(seq))
    with open(f"{folder}/master.log", "wb") as log:
        log.write(b"RSM1" + frame(b"\1\1"))


def start(folder):
    """How long a start takes, in which the document that was written last is found."""
    with socket.socket() as free:
        free.bind(("127.0.0.1", 0))
        port = free.getsockname()[1]
    begun = time.monotonic()
    server = subprocess.Popen([program, "serve", "--port", str(port), "--index", "books", "--data", folder], stdout=subprocess.PIPE)
    try:
        if not server.stdout.readline():
            sys.exit("bench/open.sh: the server doesn't start")
        took = time.monotonic() - begun
        with socket.create_connection(("127.0.0.1", port)) as connection:
            connection.sendall(b"GET /books/_doc/%d HTTP/1.1\r\n\r\n" % (records - 1))
            if connection.recv(65536).split()[1] != b"200":
                sys.exit("bench/open.sh: the last document isn't found")
        return took
    finally:
        server.kill()
        server.wait()


def read(file):
    begun = time.monotonic()
    with open(file, "rb", buffering=0) as log:
        while log.read(1 << 20):
            pass
    return time.monotonic() - begun


with tempfile.TemporaryDirectory(dir=top) as made:
    write(f"{made}/data")
    size = os.path.getsize(f"{made}/data/copy-1.rsx")
    alone = min(read(f"{made}/data/copy-1.rsx") for _ in range(3))
    took = min(start(f"{made}/data") for _ in range(3))
    peak = resource.getrusage(resource.RUSAGE_CHILDREN).ru_maxrss
    print(f"a start over {records:,} records, {size / 1e6:.0f} MB: {took:.2f} seconds, {size / took / 1e6:.0f} MB and {records / took:,.0f} records a second, {peak // 1024} MiB of memory")
    print(f"reading the file alone, from the system's cache: {alone:.2f} seconds, {size / alone / 1e6:.0f} MB a second")
PROGRAM
