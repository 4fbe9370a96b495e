#!/bin/bash
# bench/audit.sh [ENTRIES [COPIES]]: how many entries of journals are audited a second (100,000 entries of three copies by default).
#
# A client writes documents to a server with --audit and --journals, each once the page of the one before it is there, until the copies' journals have
# about ENTRIES entries; then it is measured how long the server takes to write the journals and to audit them, and how long `indexd audit` takes, which
# also reads them. A write is an entry of each copy, and the primary has one more for each acknowledgement.
# INDEXD_PROGRAM=FILE measures the executable FILE in place of the one that ./indexd runs, which is built first where it has to be. Needs Linux and python3.
set -euo pipefail

. "$(dirname -- "$(readlink -f -- "${BASH_SOURCE[0]}")")/program.sh"
entries=${1:-100000}
copies=${2:-3}
if ! [[ $entries =~ ^[1-9][0-9]{0,7}$ && $copies =~ ^[1-5]$ ]]; then
    echo "bench/audit.sh: a number of entries and one of copies from 1 to 5 are wanted, and not $entries and $copies" >&2
    exit 2
fi

exec python3 - "$program" "$entries" "$copies" <<'PROGRAM'
import os
import resource
import socket
import subprocess
import sys
import tempfile
import time

program, entries, copies = sys.argv[1], int(sys.argv[2]), int(sys.argv[3])
writes = max(1, entries // (2 * copies - 1))


def put(number):
    body = b'{"title":"Faust","pages":%d}' % number
    return b"PUT /books/_doc/%d HTTP/1.1\r\ncontent-length: %d\r\n\r\n%s" % (number, len(body), body)


def spent():
    used = resource.getrusage(resource.RUSAGE_CHILDREN)
    return used.ru_utime + used.ru_stime


with tempfile.TemporaryDirectory() as folder:
    with socket.socket() as free:
        free.bind(("127.0.0.1", 0))
        port = free.getsockname()[1]
    words = ["serve", "--port", str(port), "--index", "books", "--copies", str(copies), "--connections", "1", "--refresh-ms", "0", "--audit", "--journals", folder]
    server = subprocess.Popen([program, *words], stdout=subprocess.PIPE)
    if not server.stdout.readline():
        sys.exit("bench/audit.sh: the server doesn't start")
    with socket.create_connection(("127.0.0.1", port)) as connection:
        connection.setsockopt(socket.IPPROTO_TCP, socket.TCP_NODELAY, 1)
        begun = time.monotonic()
        for number in range(writes):
            connection.sendall(put(number))
            status = connection.recv(65536).split()[1]
            if status != b"201":
                sys.exit(f"bench/audit.sh: a write answers {status}")
        took = time.monotonic() - begun
    print(f"{writes:,} writes to {copies} copies: {writes / took:,.0f} a second", flush=True)
    begun = time.monotonic()
    said = server.communicate()[0]
    took = time.monotonic() - begun
    if said != b"audit ok\n":
        sys.exit(f"bench/audit.sh: the audit says {said}")
    sizes = [os.path.getsize(f"{folder}/{name}") for name in os.listdir(folder)]
    lines = sum(open(f"{folder}/{name}", "rb").read().count(b"\n") - 1 for name in os.listdir(folder))
    print(f"{lines:,} entries written as {sum(sizes):,} bytes, and audited: {lines / took:,.0f} a second", flush=True)
    begun, before = time.monotonic(), spent()
    subprocess.run([program, "audit", folder], check=True, stdout=subprocess.DEVNULL)
    took, used = time.monotonic() - begun, spent() - before
    print(f"read again and audited: {lines / took:,.0f} a second, {used / lines * 1e6:.1f} microseconds of the processor an entry", flush=True)
PROGRAM
