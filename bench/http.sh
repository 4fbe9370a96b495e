#!/bin/bash
# bench/http.sh [REQUESTS]: what requests cost the built server, in microseconds of processor time each (20000 requests of each kind by default).
#
# One connection asks one request after another, each once the page of the one before it is there. The floor is the same loop over a path that there isn't, whose
# page is always the same. Then a search of everything in an empty index, in bodies of 1 KB, 100 KB and 1 MB that are filled up with spaces, as time a KB.
# INDEXD_PROGRAM=FILE measures the executable FILE in place of the one that ./indexd runs, which is built first where it has to be. Needs Linux and python3.
set -euo pipefail

. "$(dirname -- "$(readlink -f -- "${BASH_SOURCE[0]}")")/program.sh"
requests=${1:-20000}
if ! [[ $requests =~ ^[1-9][0-9]{2,7}$ ]]; then
    echo "bench/http.sh: 100 requests or more are wanted, and not $requests" >&2
    exit 2
fi

exec python3 - "$program" "$requests" <<'PROGRAM'
import os
import socket
import subprocess
import sys

program, requests = sys.argv[1], int(sys.argv[2])
with socket.socket() as free:
    free.bind(("127.0.0.1", 0))
    port = free.getsockname()[1]
server = subprocess.Popen([program, "serve", "--port", str(port), "--index", "books"], stdout=subprocess.PIPE)
server.stdout.readline()
connection = socket.create_connection(("127.0.0.1", port))
connection.setsockopt(socket.IPPROTO_TCP, socket.TCP_NODELAY, 1)


def spent():
    """Processor time of the server's threads so far, in microseconds."""
    tasks = f"/proc/{server.pid}/task"
    return sum(int(open(f"{tasks}/{it}/schedstat").read().split()[0]) for it in os.listdir(tasks)) / 1000


def ask(request):
    connection.sendall(request)
    got = connection.recv(1 << 20)
    head, _, body = got.partition(b"\r\n\r\n")
    left = int(head.split(b"content-length: ")[1].split(b"\r\n")[0]) - len(body)
    while left > 0:
        left -= len(connection.recv(1 << 20))
    return int(head.split()[1])


def request(method, path, body=b""):
    return b"%s %s HTTP/1.1\r\nhost: localhost\r\ncontent-length: %d\r\n\r\n%s" % (method, path, len(body), body)


def measure(name, count, make, status):
    before = spent()
    for number in range(count):
        if (answer := ask(make(number))) != status:
            sys.exit(f"bench/http.sh: {name} answers {answer}")
    each = (spent() - before) / count
    print(f"{name}: {each:.1f} microseconds a request, {count} requests", flush=True)
    return each


def puts(number):
    return request(b"PUT", b"/books/_doc/%d" % (number % 100), b'{"title":"Faust","pages":%d}' % number)


try:
    for number in range(100):
        ask(puts(number))
    ask(request(b"POST", b"/books/_refresh"))
    floor = measure("a page that is always the same", requests, lambda n: request(b"GET", b"/books/nothing/here"), 404)
    get = measure("a get by id", requests, lambda n: request(b"GET", b"/books/_doc/%d" % (n % 100)), 200)
    print(f"a get is {get / floor:.2f} times the page that is always the same", flush=True)
    term = b'{"query":{"term":{"title":"faust"}},"size":1}'
    measure("a search of one term", requests // 10, lambda n: request(b"POST", b"/books/_search", term), 200)
    measure("a put", requests // 10, puts, 200)
    lines = b"".join(b'{"index":{"_id":"%d"}}\n{"n":%d}\n' % (n % 100, n) for n in range(1000))
    measure("a bulk of 1,000 documents", 5, lambda n: request(b"POST", b"/books/_bulk", lines), 200)
    for size, count in ((1_000, requests // 10), (100_000, requests // 100), (1_000_000, requests // 1000)):
        body = b'{"size":0}'.ljust(size)
        each = measure(f"a body of {size:,} bytes", max(count, 10), lambda n: request(b"POST", b"/books/_search", body), 200)
        print(f"    {each * 1000 / size:.1f} microseconds a KB", flush=True)
finally:
    server.kill()
PROGRAM
