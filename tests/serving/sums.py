"""Logs whose bits are flipped, that are cut or torn, or have a number that can't be: no start serves another document, or loses one without a word."""
import functools
import json
import os
import random
import resource
import subprocess
import time
from pathlib import Path

from checking import check, program, shown
from disk import logs
from serving.pages import bodies, sources
from serving.server import Server, dump, ended, free_port, is_kept, scratch

BLOCK, ENTRY = 65_536, 8
DOCUMENTS = 2_000
FLIPS = 40
LONGEST = 67_673_093
REFUSING_SECONDS = 60
MOST_MEMORY = 600_000_000


@functools.cache
def crc32c(bytes_):
    """The sum of CRC-32C, bit by bit."""
    register = 0xFFFFFFFF
    for byte in bytes_:
        register ^= byte
        for _ in range(8):
            register = register >> 1 ^ (0x82F63B78 if register & 1 else 0)
    return register ^ 0xFFFFFFFF


def entries_of(log):
    """The file of a log's sums."""
    sums = [crc32c(log[at:at + BLOCK]).to_bytes(4, "little") for at in range(0, len(log) - BLOCK + 1, BLOCK)]
    return b"".join(it + bytes(255 - byte for byte in it) for it in sums)


def text_of(number):
    return b'{"n":%d,"s":"%s"}' % (number, b"abcdefgh"[number % 8:] * 5)


def fill(server):
    """Puts the documents, in bulks, which stand in groups, and a last one alone."""
    lines = [b'{"index":{"_id":"%d"}}\n%s\n' % (it, text_of(it)) for it in range(DOCUMENTS)]
    for first in range(0, DOCUMENTS, 100):
        body = b"".join(lines[first:first + 100])
        got = bodies(server.ask(b"POST /books/_bulk HTTP/1.1\r\ncontent-length: %d\r\n\r\n%s" % (len(body), body)))
        if got[0]["errors"]:
            return "a bulk is refused"
    return ""


def refusal(folder, *words):
    """What a start says that is refused; None where the server listens, or takes much memory."""
    words = [program(), "serve", "--port", str(free_port()), "--data", str(folder), *words]
    process = subprocess.Popen(words, stdin=subprocess.DEVNULL, stdout=subprocess.PIPE, stderr=subprocess.PIPE)
    os.set_blocking(process.stdout.fileno(), False)
    end = time.monotonic() + REFUSING_SECONDS
    while process.poll() is None and time.monotonic() < end and not process.stdout.read() and memory_of(process) < MOST_MEMORY:
        time.sleep(0.01)
    listens = process.poll() is None
    process.kill()
    said = process.communicate()[1].decode(errors="replace")
    return None if listens else said


def memory_of(process):
    """How many bytes a process has in memory."""
    try:
        return int(Path(f"/proc/{process.pid}/statm").read_text().split()[1]) * resource.getpagesize()
    except (OSError, IndexError):
        return 0


def refuses(name, folder, log, *texts):
    """A start over a damaged log is refused with one line that has these texts, and changes no file; `inspect` says the same, and `dump` writes nothing."""
    (folder / "copy-1.rsx").write_bytes(log)
    before = files_of(folder)
    said = refusal(folder)
    good = said is not None and said.startswith("indexd: ") and said.count("\n") == 1 and all(it in said for it in ("copy-1.rsx", *texts))
    check(f"{name}: a start", "" if good else f"{shown((said or 'it serves').encode())}, and wanted is {texts}")
    check(f"{name}: no file is changed", "" if files_of(folder) == before else "one is")
    told, dumped = ended("inspect", folder / "copy-1.rsx"), dump("--data", folder)
    check(f"{name}: inspect", "" if told.returncode == 1 and all(it.encode() in told.stdout for it in texts) else shown(told.stdout))
    check(f"{name}: dump", "" if dumped.returncode == 1 and dumped.stdout == b"" and b"copy-1.rsx" in dumped.stderr else shown(dumped.stdout + dumped.stderr))


def files_of(folder):
    return {it.name: it.read_bytes() for it in folder.iterdir()}


def flipped(log, bit):
    return log[:bit // 8] + bytes([log[bit // 8] ^ 1 << bit % 8]) + log[bit // 8 + 1:]


def sums():
    is_kept("the sums of published examples", [crc32c(b"123456789"), crc32c(bytes(32))], [0xE3069283, 0x8A9136AA])
    with scratch() as top:
        folder = Path(top, "books")
        with Server("--data", folder) as server:
            check("documents for sums", fill(server))
        log, kept = (folder / "copy-1.rsx").read_bytes(), (folder / "copy-1.sum").read_bytes() if (folder / "copy-1.sum").exists() else b""
        is_kept("the sums beside a log", kept, entries_of(log))
        flips(folder, log)
        lengths(folder, log)
        shortened(folder, log)
        made_again(folder, log)
        torn(folder, log)
        salvaged(folder, log)
    far_away()
    several()


def flips(folder, log):
    """Bits that are flipped where the log has sums."""
    chance = random.Random(1)
    for _ in range(FLIPS):
        bit = chance.randrange(len(log) // BLOCK * BLOCK * 8)
        block = bit // 8 // BLOCK * BLOCK
        refuses(f"bit {bit} flipped", folder, flipped(log, bit), f"at offset {block} have changed" if bit >= 32 else "")
    (folder / "copy-1.rsx").write_bytes(log)


def offsets_of(log):
    """Where the frames of a log begin."""
    at, offsets = 4, []
    while at < len(log):
        offsets.append(at)
        at += 4 + int.from_bytes(log[at:at + 4], "little")
    return offsets


def lengths(folder, log):
    """Bits of a length that are flipped where the log has no sum yet, of a frame in the middle and of the last."""
    (folder / "copy-1.sum").unlink(missing_ok=True)
    offsets = offsets_of(log)
    for offset in (offsets[-3], offsets[-1]):
        for bit in (2, 9, 14, 20, 25, 31):
            refuses(f"bit {bit} of the length at {offset} flipped", folder, flipped(log, offset * 8 + bit), f"the frame at offset {offset} is damaged")
    (folder / "copy-1.rsx").write_bytes(log)
    (folder / "copy-1.sum").write_bytes(entries_of(log))


def shortened(folder, log):
    """Logs that are cut where they have sums: at a frame's end, within a frame, to a header and to nothing."""
    within = [it for it in offsets_of(log) if it < len(log) // BLOCK * BLOCK]
    for size in (within[-1], within[-1] + 100, 4, 0):
        refuses(f"a log of {size} bytes", folder, log[:size], "its end is missing")
    (folder / "copy-1.rsx").write_bytes(log)


def made_again(folder, log):
    """Sums that are missing, cut, damaged or zeroed are made again, and sums of more than a block's bytes are told from those of others."""
    whole = entries_of(log)
    for name, left in (("no sums", None), ("no whole sum", whole[:5]), ("one sum", whole[:ENTRY]), ("one and a half", whole[:ENTRY + 3]), ("a first sum of zeros", bytes(ENTRY) + whole[ENTRY:]),
                       ("a damaged sum", flipped(whole, 70))):
        (folder / "copy-1.sum").unlink(missing_ok=True)
        if left is not None:
            (folder / "copy-1.sum").write_bytes(left)
        with Server("--data", folder) as server:
            is_kept(f"{name}: the documents", sources(server, [b"0", b"1999"]), [json.loads(text_of(it)) for it in (0, 1_999)])
        is_kept(f"{name}: the sums", (folder / "copy-1.sum").read_bytes(), whole)


def torn(folder, log):
    """A torn end is cut off, and kept in a file of its own; what can't be one isn't cut."""
    content = b"\1" + logs.number(DOCUMENTS - 1) + logs.index(DOCUMENTS, 1, 1, b"torn", b'{"s":"%s"}' % (b"x" * 1_000))
    end = logs.frame(content)[:700]
    (folder / "copy-1.rsx").write_bytes(log + end)
    with Server("--data", folder) as server:
        is_kept("behind a torn end: the documents", sources(server, [b"0", b"1999", b"torn"]), [json.loads(text_of(0)), json.loads(text_of(1_999)), None])
        said = server.errors_said()
    is_kept("a torn end: what is said", said, [f"indexd: copy-1.rsx: 700 torn bytes at offset {len(log)} are cut off; copy-1.torn-{len(log)} has them"])
    kept = folder / f"copy-1.torn-{len(log)}"
    is_kept("a torn end: what is kept of it", (kept.read_bytes() == end, oct(kept.stat().st_mode & 0o777)) if kept.exists() else None, (True, "0o600"))
    check("a torn end: it is cut off", "" if (folder / "copy-1.rsx").read_bytes().startswith(log) and end not in (folder / "copy-1.rsx").read_bytes() else "it isn't")
    kept.unlink(missing_ok=True)
    long = logs.number(LONGEST + 1, 4) + b"\4" + logs.number(1_024, 4) + bytes(100)
    frame = logs.written(DOCUMENTS - 1, logs.delete(DOCUMENTS, 1, 2, b"0"))
    for name, rest in (("longer than the longest append", long), ("with a whole frame in it", end + frame), ("with no tag", logs.number(900, 4) + b"\7" + bytes(100)),
                       ("that is a whole record", logs.number(5_000, 4) + frame[4:])):
        refuses(f"an end {name}", folder, log + rest, f"the frame at offset {len(log)} is damaged")
    (folder / "copy-1.rsx").write_bytes(log)


def salvaged(folder, log):
    """Of a damaged log `dump --damaged` writes what is whole."""
    offsets = offsets_of(log)
    for name, damaged, sums_, at in (("a sum", flipped(log, 8 * 70_000), entries_of(log), BLOCK), ("a length", flipped(log, 8 * offsets[5] + 20), b"", offsets[5])):
        (folder / "copy-1.rsx").write_bytes(damaged)
        (folder / "copy-1.sum").write_bytes(sums_)
        before = files_of(folder)
        got = dump("--data", folder, "--damaged")
        lines = got.stdout.splitlines()
        documents = {json.loads(lines[it])["index"]["_id"]: lines[it + 1] for it in range(0, len(lines), 2)}
        bad = [it for it, text in documents.items() if text != text_of(int(it))]
        check(f"{name} is damaged: what is written is right", "" if got.returncode == 0 and not bad else f"{got.returncode} {bad[:3]} {shown(got.stderr)}")
        lost = {it for it in range(DOCUMENTS) if str(it) not in documents}
        wanted = lost_by(log, at, BLOCK if sums_ else 1)
        check(f"{name} is damaged: what is left out", "" if lost == wanted else f"{len(lost)} documents, and wanted are {len(wanted)}")
        check(f"{name} is damaged: it is said", "" if b"are left out" in got.stderr and b"copy-1.rsx" in got.stderr else shown(got.stderr))
        check(f"{name} is damaged: no file is changed", "" if files_of(folder) == before else "one is")
    (folder / "copy-1.rsx").write_bytes(log)
    (folder / "copy-1.sum").write_bytes(entries_of(log))
    is_kept("what is whole of a whole log", dump("--data", folder, "--damaged").stdout, dump("--data", folder).stdout)


def lost_by(log, at, size):
    """The documents of the frames that stand in so many bytes from a place on."""
    lost = set()
    for offset in offsets_of(log):
        content = log[offset + 4:offset + 4 + int.from_bytes(log[offset:offset + 4], "little")]
        if offset < at + size and offset + 4 + len(content) > at:
            lost |= {int(name) for _, _, name, _ in logs.kept_by(content)}
    return lost


def far_away():
    """A number that is too far past those before it: it is refused before a gap is filled."""
    with scratch() as top:
        folder = Path(top, "books")
        with Server("--data", folder) as server:
            server.ask(*(b"PUT /books/_doc/%d HTTP/1.1\r\ncontent-length: 2\r\n\r\n{}" % it for it in range(3)))
        log = (folder / "copy-1.rsx").read_bytes()
        for number in (1_027, 1 << 20, 1 << 40, 1 << 62):
            refuses(f"an operation {number} behind 2", folder, log + logs.written(2, logs.index(number, 1, 1, b"a", b"{}")), f"the frame at offset {len(log)} is damaged")
        refuses("a checkpoint that is far away", folder, log + logs.written(1 << 40, logs.index(3, 1, 1, b"a", b"{}")), f"the frame at offset {len(log)} is damaged")
        refuses("a resync that is far away", folder, log + logs.resync(2, 1 << 40), f"the frame at offset {len(log)} is damaged")
        (folder / "copy-1.rsx").write_bytes(log + logs.written(2, logs.index(1_026, 1, 1, b"a", b"{}")))
        with Server("--data", folder) as server:
            check("the last number that can be", "" if server.listens and sources(server, [b"a"]) == [{}] else shown(server.said))


def several():
    """Of three copies one is damaged: it is named and leaves, and the others serve all documents."""
    with scratch() as top:
        folder = Path(top, "books")
        with Server("--data", folder, "--copies", 3) as server:
            check("documents in three copies", fill(server))
            time.sleep(0.5)
        logs_ = {it: (folder / f"copy-{it}.rsx").read_bytes() for it in (1, 2, 3)}
        for copy, log in logs_.items():
            is_kept(f"the sums of copy {copy}", (folder / f"copy-{copy}.sum").read_bytes() if (folder / f"copy-{copy}.sum").exists() else b"", entries_of(log))
        damaged = flipped(logs_[2], 8 * 66_000 + 3)
        (folder / "copy-2.rsx").write_bytes(damaged)
        (folder / "copy-3.rsx").write_bytes(logs_[3] + b"\x2b\0\0\0\1\xff")
        with Server("--data", folder) as server:
            got = sources(server, [b"%d" % it for it in range(DOCUMENTS)]) if server.listens else []
            check("two of three copies serve", "" if got == [json.loads(text_of(it)) for it in range(DOCUMENTS)] else f"{shown(server.said)} {len(got)}")
            said = server.errors_said(3)
        wanted = [f"indexd: copy-2.rsx: the 65,536 bytes at offset {BLOCK} have changed", f"indexd: copy-3.rsx: 6 torn bytes at offset {len(logs_[3])} are cut off", "indexd: copy 2: "]
        check("what is said of the copies", "" if len(said) == 3 and all(line.startswith(it) for line, it in zip(said, wanted)) else repr(said))
        is_kept("the damaged copy's file", (folder / "copy-2.rsx").read_bytes() == damaged, True)
