#!/bin/bash
# bench/clients.sh [SECONDS [CONNECTIONS ..]]: what many clients get of the built server, beside nginx in the same run (3 seconds a line, and 1, 8, 64 and 512
# connections by default).
#
# Each line has requests a second, the median and the 99th of a hundred of what one takes, and the server's processor time a request, in microseconds: gets of
# one document, searches of one term, and nginx's static page of as many bytes as the get's, over so many connections that are kept (wrk). The same follows
# beside 5,000 connections that ask nothing, and beside 100 that send a byte a second (IDLE=N and DRIPPING=N: N of them). Last come `match_all` and its deep
# page over 100,000 documents (DOCUMENTS=N: N of them), over one connection.
# INDEXD_PROGRAM=FILE measures the executable FILE in place of the one that ./indexd runs, which is built first where it has to be. Needs Linux, python3, wrk
# and nginx (Debian's packages wrk and nginx-light).
set -euo pipefail

. "$(dirname -- "$(readlink -f -- "${BASH_SOURCE[0]}")")/program.sh"
PATH=$PATH:/usr/sbin
seconds=${1:-3}
shift || true
for word in "$seconds" "$@"; do
    if ! [[ $word =~ ^[1-9][0-9]{0,3}$ ]]; then
        echo "bench/clients.sh: numbers of 1 to 9999 are wanted, and not $word" >&2
        exit 2
    fi
done
for needed in wrk nginx; do
    if ! command -v "$needed" >/dev/null; then
        echo "bench/clients.sh: $needed is wanted: apt-get install wrk nginx-light" >&2
        exit 2
    fi
done

exec python3 - "$program" "$seconds" "${@:-}" <<'PROGRAM'
import contextlib
import http.client
import json
import multiprocessing
import os
import re
import resource
import signal
import socket
import subprocess
import sys
import tempfile
import time
from pathlib import Path

program, seconds = sys.argv[1], int(sys.argv[2])
counts = [int(it) for it in sys.argv[3:] if it] or [1, 8, 64, 512]
idle, dripping, documents = (int(os.environ.get(name, given)) for name, given in (("IDLE", 5_000), ("DRIPPING", 100), ("DOCUMENTS", 100_000)))
TICKS = os.sysconf("SC_CLK_TCK")
UNITS = {"us": 1, "ms": 1_000, "s": 1_000_000, "m": 60_000_000}
LINE = "{:34} {:>11} {:>11} {:>9} {:>9} {:>9}"


def free_port():
    with socket.socket() as free:
        free.bind(("127.0.0.1", 0))
        return free.getsockname()[1]


def ended(text):
    sys.exit(f"bench/clients.sh: {text}")


def spent(process):
    """Processor time of a process and of those that it has started, in microseconds."""
    total = 0
    for stat in Path("/proc").glob("[0-9]*/stat"):
        with contextlib.suppress(OSError):
            fields = stat.read_text().rpartition(")")[2].split()
            if process in (int(stat.parent.name), int(fields[1])):
                total += int(fields[11]) + int(fields[12])
    return total * 1_000_000 / TICKS


def measure(name, process, url, connections, script=None):
    """Has wrk ask for a while, and prints the line of it."""
    words = ["wrk", f"-t{min(2, connections)}", f"-c{connections}", f"-d{seconds}s", "--timeout", "10s", "--latency", *(["-s", script] if script else []), url]
    before = spent(process)
    said = subprocess.run(words, stdin=subprocess.DEVNULL, capture_output=True, text=True).stdout
    after = spent(process)
    found = re.search(r"(\d+) requests in", said)
    if not found or int(found[1]) == 0 or "Non-2xx" in said:
        ended(f"{name}, {connections} connections: {said.strip() or 'wrk says nothing'}")
    done = int(found[1])
    each = re.search(r"Requests/sec:\s*([\d.]+)", said)[1]
    times = [float(number) * UNITS[unit] for share in (50, 99) for number, unit in re.findall(rf"^\s*{share}%\s+([\d.]+)(us|ms|s|m)\s*$", said, re.M)]
    lost = re.search(r"Socket errors: (.*)", said)
    print(LINE.format(name, connections, f"{float(each):.0f}", *(f"{it:.0f}" for it in times), f"{(after - before) / done:.1f}") + (f"  {lost[0]}" if lost else ""), flush=True)


def served(folder, port):
    mapping = Path(folder, "mapping.json")
    mapping.write_text('{"properties":{"title":{"type":"text"},"pages":{"type":"long"}}}')
    words = [program, "serve", "--port", str(port), "--index", "books", "--mapping", mapping]
    if b"--idle-s" in subprocess.run([program, "serve", "--help"], stdin=subprocess.DEVNULL, capture_output=True).stdout:
        words += ["--idle-s", "3600"]
    server = subprocess.Popen(words, stdin=subprocess.DEVNULL, stdout=subprocess.PIPE)
    if not server.stdout.readline():
        ended("the server doesn't start")
    return server


def ask(port, method, path, body=None):
    connection = http.client.HTTPConnection("127.0.0.1", port)
    connection.request(method, path, body)
    page = connection.getresponse()
    text = page.read()
    if page.status >= 400:
        ended(f"{method} {path} answers {page.status}")
    connection.close()
    return text


def fill(port, first, end):
    for at in range(first, end, 5_000):
        lines = "".join(f'{{"index":{{"_id":"{it}"}}}}\n{{"title":"{"Faust" if it % 100 == 0 else "Emma"} {it}","pages":{it}}}\n' for it in range(at, min(at + 5_000, end)))
        ask(port, "POST", "/books/_bulk", lines)
    ask(port, "POST", "/books/_refresh")


def nginx_of(folder, port, size):
    """nginx, which gives a page of so many bytes."""
    Path(folder, "page.json").write_bytes(b"x" * size)
    workers = min(4, os.cpu_count() or 1)
    Path(folder, "nginx.conf").write_text(f"""
worker_processes {workers}; daemon off; pid {folder}/nginx.pid; error_log {folder}/errors; worker_rlimit_nofile 20000;
events {{ worker_connections 4096; }}
http {{
    access_log off; keepalive_requests 1000000000; default_type application/json; open_file_cache max=10; sendfile on; tcp_nodelay on;
    client_body_temp_path {folder}/a; proxy_temp_path {folder}/b; fastcgi_temp_path {folder}/c; uwsgi_temp_path {folder}/d; scgi_temp_path {folder}/e;
    server {{ listen 127.0.0.1:{port}; root {folder}; }}
}}
""")
    os.chmod(folder, 0o755)
    nginx = subprocess.Popen(["nginx", "-c", f"{folder}/nginx.conf"], stdin=subprocess.DEVNULL, stdout=subprocess.DEVNULL, stderr=subprocess.DEVNULL)
    for _ in range(100):
        with contextlib.suppress(OSError), socket.create_connection(("127.0.0.1", port)):
            return nginx
        time.sleep(0.05)
    ended("nginx doesn't start")


def hold(port, how_many, drips, ready):
    """Holds connections, until the process is ended; over those that drip a byte goes each second, and one that has ended is opened again."""
    signal.signal(signal.SIGINT, signal.SIG_IGN)
    request = b"GET /books/_doc/1 HTTP/1.1\r\nx: " + b"x" * 1_000
    held = [socket.create_connection(("127.0.0.1", port)) for _ in range(how_many)]
    sent = [0] * how_many
    ready.set()
    while True:
        time.sleep(1)
        for at in range(how_many if drips else 0):
            try:
                held[at].sendall(request[sent[at]:sent[at] + 1])
                sent[at] += 1
            except OSError:
                with contextlib.suppress(OSError):
                    held[at].close()
                    held[at], sent[at] = socket.create_connection(("127.0.0.1", port)), 0


@contextlib.contextmanager
def holding(port, how_many, drips):
    ready = multiprocessing.Event()
    holder = multiprocessing.Process(target=hold, args=(port, how_many, drips, ready))
    holder.start()
    try:
        while not ready.wait(1):
            if not holder.is_alive():
                ended(f"{how_many} connections can't be had")
        yield
    finally:
        holder.kill()
        holder.join()


def round_of(where, server, nginx, port, page_port, script):
    for connections in counts:
        measure(f"get{where}", server, f"http://127.0.0.1:{port}/books/_doc/7", connections)
        measure(f"search of one term{where}", server, f"http://127.0.0.1:{port}/books/_search", connections, script)
        measure(f"nginx{where}", nginx, f"http://127.0.0.1:{page_port}/page.json", connections)


def script_of(folder, name, body):
    path = Path(folder, f"{name}.lua")
    path.write_text(f'wrk.method = "POST"\nwrk.headers["content-type"] = "application/json"\nwrk.body = {json.dumps(json.dumps(body))}\n')
    return path


def run(folder, port, server):
    fill(port, 0, 1_000)
    size, page_port = len(ask(port, "GET", "/books/_doc/7")), free_port()
    nginx = nginx_of(folder, page_port, size)
    try:
        print(f"a get's page has a body of {size} bytes; the server has {os.cpu_count()} processors with wrk")
        print(LINE.format("", "connections", "a second", "p50, us", "p99, us", "cpu, us"))
        term = script_of(folder, "term", {"query": {"term": {"title": "faust"}}, "size": 1})
        round_of("", server.pid, nginx.pid, port, page_port, term)
        for how_many, drips, where in ((idle, False, f" beside {idle} idle"), (dripping, True, f" beside {dripping} dripping")):
            if how_many:
                with holding(port, how_many, drips):
                    round_of(where, server.pid, nginx.pid, port, page_port, term)
    finally:
        nginx.terminate()
        nginx.wait()
    fill(port, 1_000, documents)
    everything = {"query": {"match_all": {}}}
    last = max(0, min(documents, 10_000) - 10)
    for name, body in (("match_all", everything), (f"match_all from {last}", {**everything, "from": last, "size": 10})):
        measure(f"{name} of {documents}", server.pid, f"http://127.0.0.1:{port}/books/_search", 1, script_of(folder, "all", body))


before = resource.getrlimit(resource.RLIMIT_NOFILE)
if before[1] != resource.RLIM_INFINITY and before[1] < idle + 2_000:
    ended(f"at most {before[1]} files may be open, and {idle + 2_000} are wanted: see ulimit -Hn, or give IDLE=N")
resource.setrlimit(resource.RLIMIT_NOFILE, (max(before[0], idle + 2_000), before[1]))
with tempfile.TemporaryDirectory() as top:
    the_port = free_port()
    the_server = served(top, the_port)
    try:
        run(top, the_port, the_server)
    finally:
        the_server.kill()
        the_server.wait()
PROGRAM
