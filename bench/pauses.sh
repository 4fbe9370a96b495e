#!/bin/bash
# bench/pauses.sh [DOCUMENTS [COPIES [CONNECTIONS [EVERY]]]]: how long a single write and a search wait at most while many documents come by bulks (by default
# 1,000,000 documents, one copy, one connection, and 0).
#
# So many connections post the documents, of 450 bytes, 1,000 a bulk, to an index in memory; their bytes are made before. One more connection writes a document of its
# own again and again, and one more searches for a word: each as soon as the one before was answered, or every so many milliseconds. Printed are the documents a second;
# of the writes and the searches how many there were a second, the median, the longest 1 of 1,000 and the longest of all, in milliseconds; and the memory of the
# server at the end. INDEXD_PROGRAM=FILE measures the executable FILE in place of the one that ./indexd runs. Needs Linux and python3.
set -euo pipefail

. "$(dirname -- "$(readlink -f -- "${BASH_SOURCE[0]}")")/program.sh"
documents=${1:-1000000}
copies=${2:-1}
connections=${3:-1}
every=${4:-0}
if ! [[ $documents =~ ^[1-9][0-9]{3,7}$ && $copies =~ ^[1-5]$ && $connections =~ ^[1-9]$ && $every =~ ^[0-9]{1,4}$ ]]; then
    echo "bench/pauses.sh: 1,000 documents or more, one copy to five, one connection to nine and up to 9,999 ms are wanted, and not $documents, $copies, $connections and $every" >&2
    exit 2
fi

exec python3 - "$program" "$documents" "$copies" "$connections" "$every" <<'PROGRAM'
import multiprocessing
import socket
import subprocess
import sys
import tempfile
import time

program, documents, copies, connections, every = sys.argv[1], int(sys.argv[2]), sys.argv[3], int(sys.argv[4]), int(sys.argv[5])
MANY, SIZE = 1000, 450
WORDS = [b"faust", b"emma", b"ulysses", b"walden", b"dracula", b"kim", b"middlemarch", b"heidi", b"moby", b"alice"]
SEARCH = b'{"query":{"match":{"text":"faust"}}}'


def document(number):
    front = b'{"number":%d,"text":"%s %d ' % (number, WORDS[number % 10], number)
    return front + (b"a word and another " * 30)[:SIZE - 2 - len(front)] + b'"}'


def connected(port):
    connection = socket.create_connection(("127.0.0.1", port))
    connection.setsockopt(socket.IPPROTO_TCP, socket.TCP_NODELAY, 1)
    return connection


def asked(connection, request):
    """Sends a request, and takes its whole page."""
    connection.sendall(request)
    got = b""
    while b"\r\n\r\n" not in got:
        got += connection.recv(65536)
    head, _, body = got.partition(b"\r\n\r\n")
    left = int(head.split(b"content-length: ")[1].split(b"\r\n")[0]) - len(body)
    while left:
        left -= len(connection.recv(min(left, 1 << 20)))
    if head.split()[1] not in (b"200", b"201"):
        sys.exit(f"bench/pauses.sh: a request answers {head[:100]}")


def timed(port, queue, ended, request_of):
    """Sends requests one after another until the bulks are done, and hands out how long each took."""
    connection, took, number = connected(port), [], 0
    next_at = time.monotonic()
    while not ended.is_set():
        request = request_of(number)
        begun = time.monotonic()
        asked(connection, request)
        took.append(time.monotonic() - begun)
        number += 1
        next_at += every / 1_000
        time.sleep(max(0, next_at - time.monotonic()))
    queue.put(took)


def write(number):
    text = document(number)
    return b"PUT /books/_doc/own-%d HTTP/1.1\r\ncontent-length: %d\r\n\r\n%s" % (number, len(text), text)


def search(_):
    return b"POST /books/_search HTTP/1.1\r\ncontent-length: %d\r\n\r\n%s" % (len(SEARCH), SEARCH)


def fill(port, lane, queue, begins):
    """Makes the bulks of a connection, posts them once all are made, and hands out when it began and ended."""
    connection, requests = connected(port), []
    for first in range(lane * MANY, documents, connections * MANY):
        lines = b"".join(b'{"index":{"_id":"%d"}}\n%s\n' % (it, document(it)) for it in range(first, min(first + MANY, documents)))
        requests.append(b"POST /books/_bulk HTTP/1.1\r\ncontent-length: %d\r\n\r\n%s" % (len(lines), lines))
    begins.wait()
    begun = time.monotonic()
    for request in requests:
        asked(connection, request)
    queue.put((begun, time.monotonic()))


def told(took, seconds):
    took.sort()
    at = [took[len(took) // 2], took[-max(1, len(took) // 1_000)], took[-1]]
    return f"{len(took) / seconds:8.0f} {' '.join(f'{it * 1_000:8.1f}' for it in at)}"


def memory(process):
    return next(int(it.split()[1]) // 1024 for it in open(f"/proc/{process.pid}/status") if it.startswith("VmRSS"))


with socket.socket() as free:
    free.bind(("127.0.0.1", 0))
    port = free.getsockname()[1]
with tempfile.NamedTemporaryFile() as mapping:
    mapping.write(b'{"properties":{"text":{"type":"text"},"number":{"type":"long"}}}')
    mapping.flush()
    words = [program, "serve", "--port", str(port), "--index", "books", "--copies", copies, "--mapping", mapping.name]
    process = subprocess.Popen(words, stdout=subprocess.PIPE)
    process.stdout.readline()
try:
    ended, begins = multiprocessing.Event(), multiprocessing.Barrier(connections + 1)
    times = multiprocessing.Queue()
    fills = [multiprocessing.Process(target=fill, args=(port, lane, times, begins)) for lane in range(connections)]
    for it in fills:
        it.start()
    begins.wait()
    queues = [multiprocessing.Queue(), multiprocessing.Queue()]
    runs = [multiprocessing.Process(target=timed, args=(port, queue, ended, it)) for queue, it in zip(queues, (write, search))]
    for it in runs:
        it.start()
    spans = [times.get() for _ in fills]
    ended.set()
    writes, searches = (it.get() for it in queues)
    for it in (*fills, *runs):
        it.join()
    seconds = max(it for _, it in spans) - min(it for it, _ in spans)
    print(f"{documents} documents by bulks: {documents / seconds:.0f} a second, {memory(process)} MiB")
    print("          a second   median   99.9 %  longest")
    print(f"writes    {told(writes, seconds)}")
    print(f"searches  {told(searches, seconds)}")
finally:
    process.kill()
    process.wait()
PROGRAM
