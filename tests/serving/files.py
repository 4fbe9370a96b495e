"""The files of a folder: whose standard streams are closed, who may read them, whose lock is removed, and what stands in their place."""
import contextlib
import os
import re
import socket
import stat
import subprocess
import time
from pathlib import Path

from checking import check, program, shown
from serving.pages import PUT, bodies, get_of, page_names, put_of, sources
from serving.server import SECONDS, START_SECONDS, Server, complains, ended, free_port, is_kept, other, scratch

MOST_SECONDS = 5
DOCUMENTS = 20
REFUSED = (put_of(b"bad", b"{"), b"GET /books/_nothing/here HTTP/1.1\r\n\r\n", b"POST /books/_search HTTP/1.1\r\ncontent-length: 24\r\n\r\n{\"query\":{\"nothing\":{}}}",
           b"GET /books/_search?q=x HTTP/1.1\r\n\r\n")


def files():
    for copies in (1, 3):
        for closed in ("<&-", ">&-", "2>&-", "<&- >&- 2>&-"):
            with scratch() as top:
                streams_closed(copies, closed, Path(top, "books"))
    for words in ((), ("--sync", "together"), ("--copies", 3)):
        with scratch() as top:
            lock_removed(words, Path(top, "books"))
    for mask in (0o022, 0o000):
        for copies in (1, 3):
            with scratch() as top:
                modes(mask, copies, Path(top))
    for copies in (1, 3):
        with scratch() as top:
            links(copies, Path(top))
            others(copies, Path(top))
    with scratch() as top:
        copies_leave(Path(top))
        inspected(Path(top))
    explained()


class Closed:
    """A server that is started with some standard streams closed, so that it tells nobody when it listens."""

    def __init__(self, closed, *words):
        self.port = free_port()
        words = ["sh", "-c", f'exec "$@" {closed}', "sh", program(), "serve", "--port", self.port, "--index", "books", "--refresh-ms", 0, *words]
        self.process = subprocess.Popen([*map(str, words)], stdin=subprocess.DEVNULL, stdout=subprocess.DEVNULL, stderr=subprocess.DEVNULL)

    def __enter__(self):
        return self

    def __exit__(self, *_):
        self.process.kill()
        self.process.wait()

    def listens(self):
        end = time.monotonic() + START_SECONDS
        while self.process.poll() is None and time.monotonic() < end:
            with contextlib.suppress(OSError), self.connect():
                return True
            time.sleep(0.02)
        return False

    def stream(self, number):
        """The file that is open under the number of a standard stream."""
        with contextlib.suppress(FileNotFoundError):
            return os.readlink(f"/proc/{self.process.pid}/fd/{number}")
        return ""

    def connect(self):
        return socket.create_connection(("127.0.0.1", self.port), SECONDS)

    ask = Server.ask


def streams_closed(copies, closed, folder):
    """No file of the index takes the number of a standard stream, so no line that is meant for one is written into it."""
    name = f"{copies} copies with {closed}"
    names = [b"%d" % it for it in range(DOCUMENTS)]
    with Closed(closed, "--data", folder, "--explain", "--copies", copies) as server:
        if not server.listens():
            check(f"{name}: it starts", f"it ended with {server.process.poll()}")
            return
        taken = [it for it in map(server.stream, range(3)) if it.startswith(str(folder))]
        check(f"{name}: no file has the number of a stream", "" if not taken else repr(taken))
        got = page_names(server.ask(*[it for at in names for it in (put_of(at, b'{"n":%s}' % at), REFUSED[int(at) % len(REFUSED)])]))
        check(f"{name}: {DOCUMENTS} documents are written", "" if [it for it, _ in got[::2]] == [201] * DOCUMENTS else repr(got[:4]))
        check(f"{name}: what is to be refused is", "" if len(got) == 2 * DOCUMENTS and all(it >= 400 for it, _ in got[1::2]) else repr(got[:4]))
    logs = sorted(folder.glob("copy-*.rsx"))
    is_kept(f"{name}: a log for each copy", len(logs), copies)
    for file in [*logs, folder / "master.log", folder / "lock", folder / "mapping.json"]:
        texts = [it for it in (b"indexd:", b"connection", b"listening", b"GET ", b"_search") if it in file.read_bytes()]
        check(f"{name}: no line is in {file.name}", "" if not texts else repr(texts))
    for log in logs:
        got = ended("inspect", log)
        good = got.returncode == 0 and got.stderr == b"" and re.fullmatch(rb"records 2\d\n", got.stdout)
        check(f"{name}: {log.name} has its records alone", "" if good else f"status {got.returncode}, {shown(got.stdout + got.stderr)}")
    with Server("--data", folder) as server:
        check(f"{name}: the next start", "" if server.listens else shown(server.process.stderr.read()))
        if server.listens:
            is_kept(f"{name}: all is found", sources(server, names), [{"n": it} for it in range(DOCUMENTS)])


def refused(name, folder, *texts, words=()):
    """A start that ends by itself within some seconds, with a line that has these texts."""
    try:
        words = [program(), "serve", "--port", free_port(), "--data", folder, *words]
        ran = subprocess.run([*map(str, words)], stdin=subprocess.DEVNULL, capture_output=True, timeout=MOST_SECONDS)
    except subprocess.TimeoutExpired as late:
        check(name, f"it doesn't end within {MOST_SECONDS} s, and says {shown((late.stdout or b'') + (late.stderr or b''))}")
    else:
        complains(name, ran, 1, "indexd: ", "data folder", *texts)


def lock_removed(words, folder):
    """A server has its folder whether or not the file that it locks keeps its name."""
    with Server("--data", folder, *words) as server:
        is_kept(f"{words} a write before", page_names(server.ask(put_of(b"a", b'{"n":1}'))), [(201, "")])
        (folder / "lock").unlink()
        for more in (words, ()):
            refused(f"{words} a second server with {more}, without the lock", folder, "another process serves it", words=more)
        refused(f"{words} and a third one", folder, "another process serves it")
        is_kept(f"{words} the first goes on", page_names(server.ask(put_of(b"b", b'{"n":2}'), get_of(b"a"))), [(201, ""), (200, "")])
    with Server("--data", folder) as server:
        check(f"{words} a start once it has ended", "" if server.listens else shown(server.process.stderr.read()))
        if server.listens:
            is_kept(f"{words} what it finds", sources(server, [b"a", b"b"]), [{"n": 1}, {"n": 2}])


@contextlib.contextmanager
def umasked(mask):
    before = os.umask(mask)
    try:
        yield
    finally:
        os.umask(before)


def mode_of(path):
    return f"{stat.S_IMODE(path.stat().st_mode):o}"


def modes(mask, copies, top):
    """What a server makes is for its own user alone, whatever the mask; a folder that is there keeps its mode."""
    name = f"mask {mask:03o}, {copies} copies"
    there, mapping = top / "there", top / "given.json"
    there.mkdir()
    there.chmod(0o755)
    mapping.write_bytes(b'{"properties":{"n":{"type":"long"}}}')
    mapping.chmod(0o644)
    logs = [f"copy-{it + 1}.{end}" for it in range(copies) for end in ("rsx", "sum")]
    for folder, mode in ((top / "new", "700"), (there, "755")):
        for words in (("--copies", copies, "--mapping", mapping), ()):
            with umasked(mask):
                with Server("--data", folder, *words) as server:
                    server.ask(PUT)
        is_kept(f"{name}: a folder that is {folder.name}", mode_of(folder), mode)
        is_kept(f"{name}: the files of one that is {folder.name}", {it.name: mode_of(it) for it in folder.iterdir()}, dict.fromkeys([*logs, "lock", "mapping.json", "master.log"], "600"))
    with umasked(mask):
        with Server("--data", top / "new", "--copies", copies + 1) as server:
            server.ask(PUT)
    is_kept(f"{name}: a copy that is added", mode_of(top / "new" / f"copy-{copies + 1}.rsx"), "600")


def made(folder, *words):
    with Server("--data", folder, *words) as server:
        server.ask(put_of(b"a", b'{"n":1}'))
    return folder


def links(copies, top):
    """A link in place of a file isn't followed, whether a new index is to be made or one is there: what it leads to stays as it is."""
    words = ("--copies", copies)
    for name in ("mapping.json.new", "lock"):
        folder, target = top / f"begun-{name}", top / f"begun-{name}.away"
        folder.mkdir()
        target.write_bytes(b"precious\n")
        (folder / name).symlink_to(target)
        refused(f"{copies} copies: a new folder with a link {name}", folder, f"{name} is no plain file", words=words)
        is_kept(f"{copies} copies: what the link {name} leads to", target.read_bytes(), b"precious\n")
    for name in ("lock", "master.log", "copy-1.rsx") if copies == 1 else ("lock", "master.log"):
        folder, target = made(top / f"made-{name}", *words), top / f"made-{name}.away"
        (folder / name).rename(target)
        before = target.read_bytes()
        (folder / name).symlink_to(target)
        refused(f"{copies} copies: a folder with a link {name}", folder, f"{name} is no plain file")
        is_kept(f"{copies} copies: what the link of that folder leads to, {name}", target.read_bytes(), before)
        (folder / name).unlink()
        target.rename(folder / name)
        with Server("--data", folder) as server:
            is_kept(f"{copies} copies: the folder with its own {name}", sources(server, [b"a"]) if server.listens else None, [{"n": 1}])


def others(copies, top):
    """A FIFO or a device in place of a file is refused, and isn't waited for."""
    for name in ("master.log", "copy-1.rsx") if copies == 1 else ("master.log",):
        file = made(top / f"others-{name}", "--copies", copies) / name
        kinds = (("a FIFO", lambda: os.mkfifo(file)), ("a link to /dev/null", lambda: file.symlink_to("/dev/null")),
                 ("a device", lambda: os.mknod(file, 0o600 | stat.S_IFCHR, os.makedev(1, 3))))
        for kind, make in kinds:
            file.unlink()
            try:
                make()
            except PermissionError:
                print(f"skipped {kind} as {name}: it can't be made")
                file.touch()
                continue
            refused(f"{copies} copies: {kind} as {name}", file.parent, f"{name} is no plain file")
            is_kept(f"{copies} copies: {kind} as {name} stays", stat.S_ISREG(file.lstat().st_mode), False)


def copies_leave(top):
    """Of several copies one whose log is a FIFO, or a link, leaves the index, and the others go on."""
    for kind in ("FIFO", "link"):
        folder, target = made(top / kind, "--copies", 3), top / f"{kind}.away"
        log = folder / "copy-2.rsx"
        log.rename(target)
        before = target.read_bytes()
        os.mkfifo(log) if kind == "FIFO" else log.symlink_to(target)
        with Server("--data", folder, most_seconds=MOST_SECONDS) as server:
            check(f"a start beside a {kind}", "" if server.listens else f"it doesn't listen within {MOST_SECONDS} s")
            if server.listens:
                got = bodies(server.ask(put_of(b"b", b'{"n":2}'), get_of(b"a"), get_of(b"b")))
                is_kept(f"what is written and found beside a {kind}", [it.get("result", it.get("_source")) for it in got], ["created", {"n": 1}, {"n": 2}])
                said = server.errors_said(1)
                check(f"a {kind} makes its copy leave", "" if len(said) == 1 and said[0].startswith("indexd: copy 2: ") and said[0].endswith("it leaves the index") else repr(said))
        is_kept(f"what was the log before the {kind}", target.read_bytes(), before)


def inspected(top):
    """A file that can't be read doesn't hide what those before it hold."""
    log = made(top / "inspected") / "copy-1.rsx"
    got = ended("inspect", log, top / "missing.rsx")
    check("inspect of a log and of none: the line of the log", other(got.stdout, b"records 1\n"))
    good = got.returncode == 1 and got.stderr.startswith(b"indexd: ") and got.stderr.count(b"\n") == 1 and b"missing.rsx" in got.stderr
    check("inspect of a log and of none: the fault", "" if good else f"status {got.returncode}, {shown(got.stderr)}")


def explained():
    """The line of an id that is refused is that of its action, and not that of the document behind it."""
    lines = b'{"index":{"_id":"1"}}\n{}\n{"index":{"_id":""}}\n{}\n{"index":{"_id":"2"}}\n{}\n'
    with Server("--explain") as server:
        got = server.ask(b"POST /books/_bulk HTTP/1.1\r\ncontent-length: %d\r\n\r\n%s" % (len(lines), lines))
        check("a bulk with an empty id", "" if [it["index"]["status"] for it in bodies(got)[0]["items"]] == [201, 400, 201] else shown(got))
        said = server.errors_said(1)
        check("the line of an empty id", "" if len(said) == 1 and "POST /books/_bulk: line 3: " in said[0] else repr(said))
