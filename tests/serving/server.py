"""A server that is started, asked and ended, and commands of the program that end by themselves."""
import os
import resource
import socket
import subprocess
import tempfile
import threading
import time

from checking import check, program, shown

SECONDS = 30
START_SECONDS = 120
MOST_BAD_RUNS = 5


def other(got, wanted):
    return "" if got == wanted else f"{shown(got)}, and wanted is {shown(wanted)}"


def is_kept(name, got, wanted):
    check(name, "" if got == wanted else f"{got}, and wanted is {wanted}")


def free_port():
    with socket.socket() as taken:
        taken.bind(("127.0.0.1", 0))
        return taken.getsockname()[1]


class Server:
    """A server of a new index, killed at the end where it hasn't ended."""

    def __init__(self, *words, index="books", env=None, pass_fds=(), greatest_file=None, most_files=None, most_seconds=START_SECONDS, errors=subprocess.PIPE):
        self.port = free_port()
        # (what a search finds is then the same, however long a test takes)
        words = words if "--refresh-ms" in words else ("--refresh-ms", 0, *words)
        words = [program(), "serve", "--port", str(self.port), "--index", index, *map(str, words)]
        if most_files is not None:
            words = ["sh", "-c", f'ulimit -n {most_files} && exec "$@"', "sh", *words]
        self.process = subprocess.Popen(
            words, stdin=subprocess.DEVNULL, stdout=subprocess.PIPE, stderr=errors, env=env, pass_fds=pass_fds,
            restore_signals=greatest_file is None)  # Python ignores SIGXFSZ, and a server that is to meet a full file inherits that.
        if greatest_file is not None:
            self.limit_files(greatest_file)
        self.hear(most_seconds)

    def hear(self, most_seconds):
        """Waits for the line that says where the server listens, and kills a server that takes longer."""
        late = threading.Timer(most_seconds, self.process.kill)
        late.daemon = True
        late.start()
        self.said = self.process.stdout.readline()
        late.cancel()
        self.listens = self.said == f"listening on 127.0.0.1:{self.port}\n".encode()

    def __enter__(self):
        return self

    def __exit__(self, *_):
        self.process.kill()
        self.process.communicate()

    def errors_said(self, least=0):
        """Ends the server, once it has said so many lines on standard error or no more in time, and gives its lines. (One may come after the page.)"""
        late = threading.Timer(SECONDS, self.process.kill)
        late.start()
        said = b"".join(self.process.stderr.readline() for _ in range(least))
        late.cancel()
        self.process.kill()
        return (said + self.process.stderr.read()).decode(errors="replace").splitlines()

    def limit_files(self, length):
        resource.prlimit(self.process.pid, resource.RLIMIT_FSIZE, (length, resource.RLIM_INFINITY))

    def connect(self):
        return socket.create_connection(("127.0.0.1", self.port), SECONDS)

    def ask(self, *pieces, pause=0):
        """Sends the pieces over a connection of their own, and gives all that comes back until the server ends it."""
        with self.connect() as connection:
            connection.setsockopt(socket.IPPROTO_TCP, socket.TCP_NODELAY, 1)
            try:
                for piece in pieces:
                    connection.sendall(piece)
                    time.sleep(pause)
                connection.shutdown(socket.SHUT_WR)
            except OSError:
                pass
            return rest_of(connection)

    def curl(self, *words, body=None):
        """The status and the body that curl gets."""
        words = ["curl", "-s", "-S", "-m", str(SECONDS), "-o", "-", "-w", "\n%{http_code}", *words[:-1], f"http://127.0.0.1:{self.port}{words[-1]}"]
        if body is not None:
            words[1:1] = ["--data-binary", "@-", "-H", "content-type: application/json"]
        ran = subprocess.run(words, input=body or b"", capture_output=True)
        text, _, status = ran.stdout.rpartition(b"\n")
        return int(status or 0), text


def rest_of(connection):
    got = b""
    try:
        while some := connection.recv(65536):
            got += some
    except OSError:
        pass
    return got


def ended(*words):
    return subprocess.run([program(), *map(str, words)], stdin=subprocess.DEVNULL, capture_output=True, timeout=SECONDS)


def ran(*words):
    return ended("serve", *words)


def dump(*words):
    return ended("dump", *words)


def audit(folder):
    return ended("audit", folder)


def complains(name, ran, status, *texts):
    text = ran.stderr.decode()
    good = ran.returncode == status and ran.stdout == b"" and all(it in text for it in texts)
    good = good and (status == 2 or text.startswith("indexd: ") and text.count("\n") == 1)
    check(name, "" if good else f"status {ran.returncode}, {shown(ran.stdout)}, {shown(ran.stderr)}")


def at_once(clients, run_client):
    """Has so many clients run at the same time, until each has ended."""
    threads = [threading.Thread(target=run_client, args=(client,)) for client in range(clients)]
    for it in threads:
        it.start()
    for it in threads:
        it.join()


def scratch():
    """A folder in memory where there is such a place, for what a program does in it is recorded and not lost."""
    return tempfile.TemporaryDirectory(dir="/dev/shm" if os.access("/dev/shm", os.W_OK) else None)
