#!/bin/bash
# bench/durable.sh [SECONDS [CLIENTS ..]]: durable writes of many clients, beside what the disk itself gives (3 seconds a line, and 1, 4, 8, 64 and 256 clients
# by default).
#
# First a file is appended to and synced (fdatasync) as often as that goes, by 100 bytes, the length of such a write's record; that is measured again before each
# block of lines, since disks are shared. Then so many connections that are kept (wrk) each write one document after another to a server of an index in a folder:
# one copy and three, with --sync each and --sync together. A line has writes a second, how many that is for each synced append of the disk alone, the median
# and the 99th of a hundred of what one takes, and at 64 clients and more how many syncs of a copy's log there are for a write, counted by strace in a run of its
# own where it is installed. PostgreSQL writes the same documents to one table of JSON with an index (pgbench, synchronous_commit), where it is installed.
# Last how long a start over what was written takes.
# Everything stands in a folder of /var/tmp (DIR=FOLDER: in that). SYNC_MS=N has each sync take N milliseconds more, those of the file alone too, so that a disk
# that gives now more and now less is as good as even (needs gcc). INDEXD_PROGRAM=FILE measures the executable FILE in place of the one that ./indexd runs, which
# is built first where it has to be. Needs Linux, python3 and wrk.
set -euo pipefail

. "$(dirname -- "$(readlink -f -- "${BASH_SOURCE[0]}")")/program.sh"
seconds=${1:-3}
shift || true
for word in "$seconds" "$@"; do
    if ! [[ $word =~ ^[1-9][0-9]{0,3}$ ]]; then
        echo "bench/durable.sh: numbers of 1 to 9999 are wanted, and not $word" >&2
        exit 2
    fi
done
if ! command -v wrk >/dev/null; then
    echo "bench/durable.sh: wrk is wanted: apt-get install wrk" >&2
    exit 2
fi

if [ -n "${SYNC_MS:-}" ]; then
    if ! [[ $SYNC_MS =~ ^[1-9][0-9]{0,2}$ ]]; then
        echo "bench/durable.sh: SYNC_MS is a number of 1 to 999, and not $SYNC_MS" >&2
        exit 2
    fi
    shim=$(mktemp --suffix=.so)
    gcc -x c -shared -fPIC -O2 -o "$shim" - <<SLOW
#include <sys/syscall.h>
#include <unistd.h>
int fsync(int file) { usleep($SYNC_MS * 1000); return (int)syscall(SYS_fsync, file); }
int fdatasync(int file) { usleep($SYNC_MS * 1000); return (int)syscall(SYS_fdatasync, file); }
SLOW
    chmod 755 "$shim"
    export LD_PRELOAD=$shim
fi

exec python3 - "$program" "$seconds" "${@:-}" <<'PROGRAM'
import glob
import os
import pwd
import re
import shutil
import socket
import subprocess
import sys
import tempfile
import time
from pathlib import Path

program, seconds = sys.argv[1], int(sys.argv[2])
counts = [int(it) for it in sys.argv[3:] if it] or [1, 4, 8, 64, 256]
top = os.environ.get("DIR", "/var/tmp")
UNITS = {"us": 0.001, "ms": 1, "s": 1_000, "m": 60_000}
LINE = "{:44} {:>10} {:>10} {:>10} {:>10} {:>10}"
WRITES = """
local threads = 0
function setup(thread) threads = threads + 1; thread:set("mine", threads) end
function init(args) number = 0 end
function request()
    number = number + 1
    return wrk.format("PUT", "/books/_doc/" .. mine .. "-" .. number % 1000, nil, '{"title":"Faust","pages":' .. number .. '}')
end
"""
TABLE = "CREATE TABLE books (id text PRIMARY KEY, source jsonb NOT NULL); CREATE INDEX ON books ((source->>'pages'));"
INSERT = """\\set n random(1, 1000)
INSERT INTO books VALUES (:client_id || '-' || :n, '{"title":"Faust","pages":12}') ON CONFLICT (id) DO UPDATE SET source = EXCLUDED.source;
"""


def ended(text):
    sys.exit(f"bench/durable.sh: {text}")


def disk_of(folder):
    """How many appends of 100 bytes the disk syncs a second."""
    count, begun = 0, time.monotonic()
    with open(f"{folder}/plain", "ab", buffering=0) as plain:
        while (took := time.monotonic() - begun) < 2:
            plain.write(b"x" * 100)
            os.fdatasync(plain.fileno())
            count += 1
    return count / took


def serve(folder, *words):
    with socket.socket() as free:
        free.bind(("127.0.0.1", 0))
        port = free.getsockname()[1]
    begun = time.monotonic()
    server = subprocess.Popen([program, "serve", "--port", str(port), "--index", "books", "--data", folder, *words], stdout=subprocess.PIPE)
    if not server.stdout.readline():
        ended("the server doesn't start")
    return server, port, time.monotonic() - begun


def load(port, clients, script, lasts=seconds):
    """Has wrk write for a while; writes a second, and the median and the 99th of a hundred of what one takes, in milliseconds."""
    words = ["wrk", f"-t{min(2, clients)}", f"-c{clients}", f"-d{lasts}s", "--timeout", "20s", "--latency", "-s", script, f"http://127.0.0.1:{port}/"]
    said = subprocess.run(words, stdin=subprocess.DEVNULL, capture_output=True, text=True).stdout
    rate, bad = re.search(r"Requests/sec:\s+([\d.]+)", said), re.search(r"Non-2xx.*", said)
    if not rate or bad:
        ended(f"wrk said: {said}")
    parts = [float(it) * UNITS[unit] for it, unit in re.findall(r"(?:50|99)%\s+([\d.]+)(us|ms|s|m)", said)[:2]]
    return float(rate[1]), parts[0], parts[1], int(re.search(r"(\d+) requests in", said)[1])


def syncs(server, copies, port, clients, script):
    """How many syncs of a copy's log there are for a write, by strace; none where that isn't installed."""
    if not shutil.which("strace"):
        return "-"
    with tempfile.NamedTemporaryFile("r") as told:
        words = ["strace", "-f", "-c", "-e", "trace=fdatasync,fsync", "-o", told.name, "-p", str(server.pid)]
        tracer = subprocess.Popen(words, stdin=subprocess.DEVNULL, stdout=subprocess.DEVNULL, stderr=subprocess.DEVNULL)
        time.sleep(0.5)
        writes = load(port, clients, script, 2)[3]
        tracer.terminate()
        tracer.wait()
        found = [int(it.split()[3]) for it in told if re.search(r" f(data)?sync$", it.rstrip())]
    return f"{sum(found) / copies / writes:.3f}"


def measured(folder, copies, which, script):
    disk = disk_of(folder)
    print(f"appends of 100 bytes that the disk syncs: {disk:.0f} a second", flush=True)
    data = f"{folder}/{which}-{copies}"
    server, port, _ = serve(data, "--copies", str(copies), "--sync", which)
    try:
        for clients in counts:
            rate, half, most, _ = load(port, clients, script)
            share = syncs(server, copies, port, clients, script) if clients >= 64 else ""
            name = f"--copies {copies} --sync {which}, {clients} client{'s' * (clients > 1)}"
            print(LINE.format(name, f"{rate:.0f}", f"{rate / disk:.2f}", f"{half:.2f}", f"{most:.2f}", share), flush=True)
    finally:
        server.kill()
        server.wait()
    return data


def postgres(folder):
    """The same writes to PostgreSQL, where it is installed."""
    found = sorted(glob.glob("/usr/lib/postgresql/*/bin/initdb"))
    if not found or not shutil.which("pgbench"):
        print("PostgreSQL isn't installed")
        return
    home = Path(found[-1]).parent
    user = {"user": "postgres", "group": "postgres"} if os.geteuid() == 0 else {}
    data, quiet = f"{folder}/postgres", {"stdin": subprocess.DEVNULL, "stdout": subprocess.DEVNULL, "stderr": subprocess.DEVNULL}
    os.mkdir(data)
    if user:
        os.chown(data, pwd.getpwnam("postgres").pw_uid, -1)
    name = "postgres" if user else pwd.getpwuid(os.geteuid()).pw_name
    subprocess.run([home / "initdb", "-D", data, "-A", "trust", "-U", name], check=True, cwd=data, **user, **quiet)
    words = ["-c", "listen_addresses=", "-c", f"unix_socket_directories={data}", "-c", "max_connections=300", "-c", "synchronous_commit=on"]
    server = subprocess.Popen([home / "postgres", "-D", data, *words], cwd=data, **user, **quiet)
    try:
        base = ["-h", data, "-U", name]
        for _ in range(100):
            if subprocess.run([home / "pg_isready", *base], **quiet).returncode == 0:
                break
            time.sleep(0.1)
        subprocess.run(["psql", *base, "-c", TABLE, "postgres"], check=True, cwd=data, **user, **quiet)
        script = f"{folder}/insert.sql"
        Path(script).write_text(INSERT)
        disk = disk_of(folder)
        for clients in counts:
            words = ["pgbench", *base, "-n", "-M", "prepared", "-c", str(clients), "-j", str(min(2, clients)), "-T", str(seconds), "-f", script, "-l", "--log-prefix", f"{data}/log{clients}", "postgres"]
            said = subprocess.run(words, stdin=subprocess.DEVNULL, capture_output=True, text=True, cwd=data, **user).stdout
            rate = float(re.search(r"tps = ([\d.]+)", said)[1])
            took = sorted(int(it.split()[2]) / 1_000 for log in glob.glob(f"{data}/log{clients}.*") for it in open(log))
            half, most = took[len(took) // 2], took[len(took) * 99 // 100]
            print(LINE.format(f"PostgreSQL, {clients} client{'s' * (clients > 1)}", f"{rate:.0f}", f"{rate / disk:.2f}", f"{half:.2f}", f"{most:.2f}", ""), flush=True)
    finally:
        server.terminate()
        server.wait()


slow = os.environ.get("LD_PRELOAD") if os.environ.get("SYNC_MS") else None
with tempfile.TemporaryDirectory(dir=top) as folder:
    os.chmod(folder, 0o755)
    script = f"{folder}/writes.lua"
    Path(script).write_text(WRITES)
    print(LINE.format("", "a second", "of the disk", "median ms", "99th ms", "syncs"))
    for copies in (1, 3):
        for which in ("each", "together"):
            data = measured(folder, copies, which, script)
            if copies == 1:
                server, _, took = serve(data)
                server.kill()
                server.wait()
                print(f"a start over a log of {os.path.getsize(data + '/copy-1.rsx'):,} bytes: {took:.2f} seconds", flush=True)
    postgres(folder)
if slow:
    os.unlink(slow)
PROGRAM
