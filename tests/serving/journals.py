"""Audits of what copies did, and journals that are changed, damaged and missing."""
import json
import os
import pty
import subprocess
from pathlib import Path

from checking import check, program, shown
from serving.pages import bodies, get_of, page_names, promote_of, put_of
from serving.server import SECONDS, Server, at_once, audit, complains, free_port, is_kept, ran, scratch


def clients_audited(folder, number):
    """Four clients at once write to so many copies: each write has a number of its own, and an entry of its own in the first copy's journal."""
    with Server("--copies", number, "--connections", 4, "--audit", "--journals", folder) as server:
        numbers = []

        def write(client):
            got = server.ask(*(put_of(b"%d-%d" % (client, it), b'{"n":%d}' % it) for it in range(100)))
            numbers.extend(it.get("_seq_no") for it in bodies(got))

        at_once(4, write)
        out, err = server.process.communicate(timeout=SECONDS)
        name = f"four clients at once of {number} copies"
        check(f"{name} are audited", "" if (out, err, server.process.returncode) == (b"audit ok\n", b"", 0) else f"{out} {err} {server.process.returncode}")
        check(f"{name} get each number once", "" if sorted(numbers) == [*range(400)] else f"{len(numbers)} numbers: {sorted(numbers)[:20]}")
        entries = (folder / "copy-1.journal").read_bytes().count(b'"answered":["wrote",')
        check(f"{name} have an entry for each write", "" if entries == 400 else f"{entries} entries")


def unjudged_changes(folder, path, may):
    """Changes each entry of a journal in turn, takes it out and doubles it, and says which changes an audit passes that it may not: another answer it never
    may, and one of the others where that may be, of the place and what is asked and answered there."""
    kept = path.read_bytes()
    lines = kept.splitlines(keepends=True)
    wrong = []
    for at, entry in enumerate(map(json.loads, lines[1:])):
        other = json.dumps(entry | {"answered": other_answer(entry)}).encode() + b"\n"
        for name, line in (("taken out", b""), ("doubled", lines[at + 1] * 2), ("answered in another way", other)):
            path.write_bytes(with_line(lines, at + 1, line))
            judged = audit(folder)
            passes = line != other and may(lines, at, entry, line)
            good = (judged.returncode, judged.stdout) == (0, b"audit ok\n") and passes or judged.returncode == 1 and judged.stdout.startswith(b"audit failed ")
            if not good:
                wrong.append(f"{path.name}, entry {at} {name}: {shown(judged.stdout)} {shown(judged.stderr)}")
    path.write_bytes(kept)
    return wrong


def with_line(lines, at, line):
    """A journal with a line in the place of another."""
    return b"".join([*lines[:at], line, *lines[at + 1:]])


def other_answer(entry):
    """An answer that the node never gives where it gave this one."""
    if entry["asked"][0] == "promote":
        return ["repeated"] if entry["answered"] == ["decided"] else ["refused", "NotInSync"]
    return ["refused", "NotPrimary"] if entry["answered"][0] == "refused" else ["stale"]


def may_be_lost(lines, at, entry, line):
    """A get changes nothing, and the last acknowledgement may be taken out, as if it had been lost."""
    acks = [it for it, text in enumerate(lines[1:]) if json.loads(text)["asked"][0] == "take" and json.loads(text)["asked"][1][0] == "ack"]
    return entry["asked"][0] == "get" or acks and at == acks[-1] and line == b""


def may_be_unnoticed(_lines, _at, entry, _line):
    """Where an entry kept no write and decided nothing, nobody may have noticed that it is lost, or there again."""
    return entry["answered"][0] not in ("wrote", "decided")


def journals_over_a_promotion(folder):
    """The journals of a run with a delete, a refresh, a refusal and a promotion pass no audit once an entry is changed, but where the model allows it."""
    with Server("--copies", 3, "--connections", 1, "--audit", "--journals", folder) as server:
        got = server.ask(
            put_of(b"0", b'{"n":0}'), put_of(b"1", b'{"n":1}'), b"POST /books/_refresh HTTP/1.1\r\n\r\n", b"DELETE /books/_doc/0 HTTP/1.1\r\n\r\n",
            b"DELETE /books/_doc/1?if_seq_no=7&if_primary_term=1 HTTP/1.1\r\n\r\n", promote_of(b"3"), put_of(b"2", b'{"n":2}'), promote_of(b"1"))
        out, err = server.process.communicate(timeout=SECONDS)
        names = [name for _, name in page_names(got)]
        check("a run with a promotion is audited", "" if (out, err) == (b"audit ok\n", b"") and names[4:8:3] == ["VersionConflict", "Gone"] else f"{out} {err} {names}")
    wrong = []
    for path in sorted(folder.iterdir()):
        wrong += unjudged_changes(folder, path, may_be_unnoticed)
    check("each entry of a run with a promotion changed", "; ".join(wrong))


def at_a_terminal(folder, path, kept, lines, at, line):
    """At a terminal the entry that doesn't pass is told, and what the model answers there."""
    path.write_bytes(with_line(lines, at, line))
    ours, theirs = pty.openpty()
    try:
        judged = subprocess.run([program(), "audit", str(folder)], stdout=subprocess.PIPE, stderr=theirs)
        told = os.read(ours, 65536).decode().replace("\r\n", "\n").splitlines()
    finally:
        os.close(ours)
        os.close(theirs)
    path.write_bytes(kept)
    names = [it.partition(": ")[0] for it in told]
    answers = [json.loads(it.partition(": ")[2]).get("answered") for it in told if it.startswith(("entry: ", "model: "))]
    good = judged.returncode == 1 and names[:2] == ["entry", "model"] and told[2].startswith("audit: copy 1: ") and answers == [["wrote", 1, 1, 2, "created"], ["wrote", 1, 1, 1, "created"]]
    check("at a terminal the entry and the model's answer are told", "" if good else f"{judged.stdout} {told}")


def is_judged(folder, name, status, out, err):
    judged = audit(folder)
    told = judged.stdout == out or out == b"audit failed " and judged.stdout.startswith(out) and judged.stdout.count(b"\n") == 1
    good = judged.returncode == status and told and err in judged.stderr and judged.stderr.count(b"\n") == (status != 0)
    check(name, "" if good else f"status {judged.returncode}, {shown(judged.stdout)}, {shown(judged.stderr)}")


def journals_kept(folder):
    """The journals of a run as files, which are judged again: as they are, with a line changed, taken out and doubled, and as no text."""
    with Server("--copies", 2, "--connections", 1, "--audit", "--journals", folder) as server:
        server.ask(*(put_of(b"%d" % it, b'{"n":%d}' % it) for it in range(3)), get_of(b"1"))
        out, err = server.process.communicate(timeout=SECONDS)
        check("journals are written", "" if (out, err) == (b"audit ok\n", b"") else f"{out} {err}")
    files = sorted(it.name for it in folder.iterdir())
    check("each node has a journal", "" if files == ["copy-1.journal", "copy-2.journal", "master.journal"] else repr(files))
    is_judged(folder, "journals that are kept", 0, b"audit ok\n", b"")
    first = folder / "copy-1.journal"
    kept = first.read_bytes()
    lines = kept.splitlines(keepends=True)
    writes = [at for at, line in enumerate(lines) if b'"put"' in line]
    check("each write is a line", "" if len(writes) == 3 else repr(lines))
    changes = {
        "another document": lines[writes[1]].replace(b'{\\"n\\":1}', b'{\\"n\\":9}'),
        "another version": lines[writes[1]].replace(b'["wrote",1,1,1,', b'["wrote",1,1,2,'),
        "a line taken out": b"",
        "a line doubled": lines[writes[1]] * 2,
    }
    for name, line in changes.items():
        check(f"{name} is a change", "" if line != lines[writes[1]] else shown(line))
        first.write_bytes(with_line(lines, writes[1], line))
        is_judged(folder, f"a journal with {name}", 1, b"audit failed ", b"audit: copy ")
    first.write_bytes(kept)
    wrong = []
    for path in sorted(folder.iterdir()):
        wrong += unjudged_changes(folder, path, may_be_lost)
    check("each entry taken out, doubled and answered in another way", "; ".join(wrong))
    at_a_terminal(folder, first, kept, lines, writes[1], changes["another version"])
    journals_that_are_none(folder, first, lines, writes[1])


def journals_that_are_none(folder, path, lines, at):
    """A journal with a line that is no entry, in the place of a write; an empty one, and one that is missing."""
    for name, text in (("no JSON", b"{"), ("another form", b"[]"), ("no such word", lines[at].replace(b'"put"', b'"putt"'))):
        path.write_bytes(with_line(lines, at, text.rstrip(b"\n") + b"\n"))
        is_judged(folder, f"a line with {name}", 1, b"", b"indexd: %s:%d: " % (bytes(path), at + 1))
    path.write_bytes(b"")
    is_judged(folder, "an empty journal", 1, b"", b"indexd: %s:1: " % bytes(path))
    (folder / "master.journal").unlink()
    is_judged(folder, "no journal of the master", 1, b"", b"master.journal")
    complains("journals without an audit", ran("--port", free_port(), "--journals", folder), 1, "--audit")


def audits():
    """One copy is audited as several are; and where a journal is missing nothing is."""
    with scratch() as top:
        folder = Path(top, "journals")
        with Server("--audit", "--connections", 1, "--journals", folder) as server:
            server.ask(put_of(b"1", b"{}"), put_of(b"1", b'{"n":1}'), get_of(b"1"), b"DELETE /books/_doc/1 HTTP/1.1\r\n\r\n", b"POST /books/_refresh HTTP/1.1\r\n\r\n")
            out, err = server.process.communicate(timeout=SECONDS)
            check("one copy is audited", "" if (out, err, server.process.returncode) == (b"audit ok\n", b"", 0) else f"{out} {err}")
        audits_without_each(folder, ["copy-1.journal", "master.journal"])
    with scratch() as top:
        folder = Path(top, "journals")
        with Server("--copies", 3, "--audit", "--connections", 1, "--journals", folder) as server:
            server.ask(*(put_of(b"%d" % it, b'{"n":%d}' % it) for it in range(3)), promote_of(b"2"), put_of(b"4", b"{}"), get_of(b"1"))
            out, err = server.process.communicate(timeout=SECONDS)
            check("three copies are audited", "" if (out, err) == (b"audit ok\n", b"") else f"{out} {err}")
        audits_without_each(folder, ["copy-1.journal", "copy-2.journal", "copy-3.journal", "master.journal"])


def audits_without_each(folder, names):
    is_kept("the journals of a run", sorted(it.name for it in folder.iterdir()), names)
    for some in [[it] for it in names] + [names[:-1]] * (len(names) > 2):
        for name in some:
            (folder / name).rename(folder / f"{name}.away")
        judged = audit(folder)
        good = judged.returncode == 1 and judged.stdout != b"audit ok\n" and some[0].encode() in judged.stderr
        check(f"an audit of {len(names)} journals without {' and '.join(some)}", "" if good else f"status {judged.returncode}, {judged.stdout}, {judged.stderr}")
        for name in some:
            (folder / f"{name}.away").rename(folder / name)
    is_kept(f"an audit of {len(names)} journals, all there again", audit(folder).stdout, b"audit ok\n")
