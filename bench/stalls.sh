#!/bin/bash
# bench/stalls.sh [SECONDS [DOCUMENTS ..]]: how long a write and a search wait at most while an index is overwritten (60 seconds, 50,000 and 200,000 documents by default).
#
# For each number of documents, over one copy in memory and over three: that many documents of 140 bytes are written as bulks; then one client overwrites them one by
# one for so many seconds while another searches for a word. Printed are the writes and searches a second, the median of each, the longest 1 of 1,000 and the longest of
# all, in milliseconds, and the memory of the server at the end. INDEXD_PROGRAM=FILE measures the executable FILE in place of the one that ./indexd runs. Needs Linux and python3.
set -euo pipefail

. "$(dirname -- "$(readlink -f -- "${BASH_SOURCE[0]}")")/program.sh"
seconds=${1:-60}
shift || true
if [ $# -eq 0 ]; then
    set -- 50000 200000
fi
for number in "$seconds" "$@"; do
    if ! [[ $number =~ ^[1-9][0-9]{0,7}$ ]]; then
        echo "bench/stalls.sh: numbers of seconds and of documents are wanted, and not $number" >&2
        exit 2
    fi
done

exec python3 - "$program" "$seconds" "$@" <<'PROGRAM'
import multiprocessing
import random
import socket
import subprocess
import sys
import tempfile
import time

program, seconds, sizes = sys.argv[1], int(sys.argv[2]), [int(it) for it in sys.argv[3:]]
WORDS = ["faust", "emma", "ulysses", "walden", "dracula", "kim", "middlemarch", "heidi", "moby", "alice"]
SEARCH = b'{"query":{"match":{"title":"faust"}}}'


def text_of(number):
    chance = random.Random(number)
    return b'{"title":"%s %s","pages":%d,"note":"%s"}' % (chance.choice(WORDS).encode(), b"%d" % number, chance.randrange(1_000), b"x" * 80)


def connected(port):
    connection = socket.create_connection(("127.0.0.1", port))
    connection.setsockopt(socket.IPPROTO_TCP, socket.TCP_NODELAY, 1)
    return connection


def asked(connection, request):
    """Sends a request, and takes its whole page."""
    connection.sendall(request)
    got = b""
    while b"\r\n\r\n" not in got:
        got += connection.recv(65536)
    head, _, body = got.partition(b"\r\n\r\n")
    length = int(head.split(b"content-length: ")[1].split(b"\r\n")[0])
    while len(body) < length:
        body += connection.recv(65536)
    if head.split()[1] not in (b"200", b"201"):
        sys.exit(f"bench/stalls.sh: a request answers {head[:100]} {body[:200]}")


def fill(port, documents):
    connection = connected(port)
    for first in range(0, documents, 1_000):
        lines = b"".join(b'{"index":{"_id":"%d"}}\n%s\n' % (it, text_of(it)) for it in range(first, min(first + 1_000, documents)))
        asked(connection, b"POST /books/_bulk HTTP/1.1\r\ncontent-length: %d\r\n\r\n%s" % (len(lines), lines))
    asked(connection, b"POST /books/_refresh HTTP/1.1\r\n\r\n")


def timed(port, queue, request_of):
    """Sends requests one after another, and hands out how long each took."""
    connection, took, number, end = connected(port), [], 0, time.monotonic() + seconds
    while time.monotonic() < end:
        request = request_of(number)
        begun = time.monotonic()
        asked(connection, request)
        took.append(time.monotonic() - begun)
        number += 1
    queue.put(took)


def overwrites(documents):
    def request(number):
        text = text_of(number * 7_919)
        return b"PUT /books/_doc/%d HTTP/1.1\r\ncontent-length: %d\r\n\r\n%s" % (number * 7_919 % documents, len(text), text)

    return request


def search(_):
    return b"POST /books/_search HTTP/1.1\r\ncontent-length: %d\r\n\r\n%s" % (len(SEARCH), SEARCH)


def told(took):
    took.sort()
    at = [took[len(took) // 2], took[-max(1, len(took) // 1_000)], took[-1]]
    return f"{len(took) / seconds:8.0f} {' '.join(f'{it * 1_000:8.1f}' for it in at)}"


def memory(process):
    return next(int(it.split()[1]) // 1024 for it in open(f"/proc/{process.pid}/status") if it.startswith("VmRSS"))


def measure(copies, documents):
    with socket.socket() as free:
        free.bind(("127.0.0.1", 0))
        port = free.getsockname()[1]
    with tempfile.NamedTemporaryFile() as mapping:
        mapping.write(b'{"properties":{"title":{"type":"text"},"pages":{"type":"long"}}}')
        mapping.flush()
        words = [program, "serve", "--port", str(port), "--index", "books", "--copies", str(copies), "--mapping", mapping.name]
        process = subprocess.Popen(words, stdout=subprocess.PIPE)
        process.stdout.readline()
    try:
        fill(port, documents)
        queues = [multiprocessing.Queue(), multiprocessing.Queue()]
        runs = [multiprocessing.Process(target=timed, args=(port, queue, it)) for queue, it in zip(queues, (overwrites(documents), search))]
        for it in runs:
            it.start()
        writes, searches = (it.get() for it in queues)
        for it in runs:
            it.join()
        print(f"{copies:6} {documents:9}   {told(writes)}   {told(searches)} {memory(process):8}", flush=True)
    finally:
        process.kill()
        process.wait()


print("copies documents   writes/s   median   99.9 %  longest   searches/s   median 99.9 %  longest      MiB")
for copies in (1, 3):
    for documents in sizes:
        measure(copies, documents)
PROGRAM
