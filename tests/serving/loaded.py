"""Files that `indexd load` sends to an index as bulks: dumps, documents with their ids in a field, lines that are refused, and loads that break off."""
import json
import os
import pty
import re
import subprocess
import tempfile
import time
from pathlib import Path

from checking import check, program, shown
from serving.pages import bodies, do_in_turn, get_of, put_of, puts, sources
from serving.pretended import Pretended, closed, page, refused_page, written
from serving.server import SECONDS, Server, complains, dump, ended, free_port, other, scratch
from serving.starts import rest_of_terminal

COUNT = b"POST /books/_refresh HTTP/1.1\r\n\r\nGET /books/_count HTTP/1.1\r\n\r\n"
MAPPING = b'{"dynamic":"strict","properties":{"n":{"type":"long"},"s":{"type":"keyword"}}}'


def loaded():
    dumped_again()
    by_fields()
    refused_actions()
    refused_documents()
    refused_by_the_server()
    refused_whole()
    in_order()
    large_replies()
    begun_again()
    not_begun()
    broken_off()
    sent_again()
    with_a_bar()


def load_to(*words):
    """What is refused is lost, where no file is named for it."""
    return ended("load", *words) if "--refused" in words else ended("load", "--refused", os.devnull, *words)


def load(server, *words):
    return load_to("--port", server.port, "--index", "books", *words)


def words_of_load(server, *words):
    return [program(), "load", "--port", str(server.port), "--index", "books", "--refused", os.devnull, *map(str, words)]


def is_same(name, got, wanted):
    check(name, "" if got == wanted else f"{shown(repr(got).encode())}, and wanted is {shown(repr(wanted).encode())}")


def is_loaded(name, ran, documents):
    """All was loaded, and nothing else is said."""
    good = (ran.returncode, ran.stdout, ran.stderr) == (0, b"loaded %d documents\n" % documents, b"")
    check(name, "" if good else f"status {ran.returncode}, {shown(ran.stdout)}, {shown(ran.stderr)}")


def is_loaded_but(name, ran, documents, refused, file):
    """So many were loaded and so many refused, and standard error names the file that says why."""
    said = ran.stderr.decode()
    good = ran.returncode == 1 and ran.stdout == b"loaded %d documents\n" % documents and said.count("\n") == 1
    good = good and said.startswith(f"indexd: {refused} of {documents + refused} documents were refused; ") and str(file) in said
    check(name, "" if good else f"status {ran.returncode}, {shown(ran.stdout)}, {shown(ran.stderr)}")


def refusals_in(file):
    """The lines that were refused: the file's name, the number, the text and the reason of each."""
    found = [json.loads(it) for it in file.read_text().splitlines()] if file.exists() else []
    return [(Path(it["file"]).name, it["line"], it["text"], it["reason"]) for it in found if [*it] == ["file", "line", "reason", "text"]]


def are_refused(name, file, wanted):
    """Each refusal, in the order of their lines, has its file, its line and its text, and its reason has these words."""
    got = sorted(refusals_in(file), key=lambda it: it[:2])
    is_same(name, [it[:3] for it in got], [it[:3] for it in wanted])
    for (_, line, _, reason), (*_, words) in zip(got, wanted):
        check(f"{name}: the reason of line {line}", "" if all(it in reason for it in words) else reason)


def counted(server):
    return bodies(server.ask(COUNT))[1]["count"]


def bulk_lines(first, end):
    return b"".join(b'{"index":{"_id":"%d"}}\n{"n":%d}\n' % (it, it) for it in range(first, end))


def dumped_again():
    """The dump of a folder is loaded into a new one, whole and in parts, over a port and without a server: its dump is the same, and its log has each document once."""
    with scratch() as top:
        top, names = Path(top), [b"%d" % it for it in range(1_500)]
        old, whole, mapping = top / "old", top / "whole.ndjson", top / "mapping.json"
        mapping.write_bytes(MAPPING)
        with Server("--data", old, "--mapping", mapping) as server:
            for size in (300, 200, 100):
                do_in_turn(server, puts(0, 1_500, size))
            server.ask(b"DELETE /books/_doc/7 HTTP/1.1\r\n\r\n", put_of(b"3", '{"s":"\u00fc\u2028 x"}'.encode()), put_of(b"a%20b%2Fc", b'{\n"n": 1}'))
            wanted = sources(server, [*names, b"a%20b%2Fc"])
        whole.write_bytes(dump("--data", old).stdout)
        is_same("a dump in parts for a load", dump("--data", old, "--bytes", 50_000, "--to", top / "parts").returncode, 0)
        parts = sorted((top / "parts").iterdir())
        with Server("--data", top / "port", "--mapping", mapping) as server:
            is_loaded("a dump is loaded over a port", load(server, whole), 1_500)
            check("what it gives", "" if sources(server, [*names, b"a%20b%2Fc"]) == wanted else "other documents")
        is_loaded("a dump is loaded into a new folder", load_to("--data", top / "new", "--mapping", mapping, whole), 1_500)
        is_loaded("parts are loaded in turn", load_to("--data", top / "turn", "--mapping", mapping, "--index", "books", *parts), 1_500)
        for name in ("port", "new", "turn"):
            check(f"{name}: its dump is the same", other(dump("--data", top / name).stdout, whole.read_bytes()))
            is_same(f"{name}: its mapping", json.loads(dump("--data", top / name, "--mapping").stdout), json.loads(MAPPING))
            sizes = [(top / it / "copy-1.rsx").stat().st_size for it in (name, "old")]
            check(f"{name}: its log is the smaller one", "" if 3 * sizes[0] < sizes[1] else repr(sizes))
        is_loaded("into a folder that has the documents", load_to("--data", top / "new", whole), 1_500)
        check("their dump is the same", other(dump("--data", top / "new").stdout, whole.read_bytes()))
        with Server("--data", top / "new") as server:
            complains("into a folder that is served", load_to("--data", top / "new", whole), 1, "data folder", "another process")
            is_same("and it is as it was", counted(server), 1_500)


def by_fields():
    """Documents that have their ids in a field: a text, and a number as it is spelt."""
    with tempfile.TemporaryDirectory() as top:
        texts, numbers = Path(top, "texts.ndjson"), Path(top, "numbers.ndjson")
        texts.write_bytes(b'{"s":"a b","n":1}\n\n{"n":2,"s":"\\u00e9\\"\\\\"}\r\n  \n{"s":"x","s":"last","n":3}\n{"n":4,"s":"no end"}')
        numbers.write_bytes(b'{"n":0}\n{"n":-9223372036854775808}\n { "n" : 18446744073709551615 } \n{"n":7}\n')
        with Server() as server:
            is_loaded("documents by a text", load(server, "--id", "s", texts), 4)
            is_loaded("documents by a number", load(server, "--id", "n", numbers), 4)
            is_same("what they are by a text", sources(server, [b"a%20b", b"%C3%A9%22%5C", b"last", b"no%20end"]),
                    [{"s": "a b", "n": 1}, {"n": 2, "s": "\u00e9\"\\"}, {"s": "last", "n": 3}, {"n": 4, "s": "no end"}])
            is_same("what they are by a number", sources(server, [b"0", b"-9223372036854775808", b"18446744073709551615", b"7"]),
                    [{"n": it} for it in (0, -2 ** 63, 2 ** 64 - 1, 7)])
            is_same("and no more", counted(server), 8)


def refused_actions():
    """Lines that are no actions, and pairs of lines that can't be sent; in two files, the rest of which is loaded."""
    long = b"x" * 65_536
    good = b'{"index":{"_id":"%d"}}\n{}\n'
    lines = [
        good % 1, b"{\n", b'{"n":1}\n', b'{"index":{"_id":"x"},"a":1}\n', b'{"index":[]}\n', b"5\n",
        b'{"index":{}}\n{"n":1}\n', b'{"create":{"_id":5}}\n{"n":2}\n', b'{"delete":{"_index":"books"}}\n', b'{"update":{"_id":"u"}}\n{"doc":{}}\n', good % 2,
        b'{"index":{"_id":"r","routing":"x"}}\n{}\n', b'{"index":{"_id":"t"}}\n{"s":"%s"}\n' % long[8:], b'{"index":{"_id":"t"}}\n{"s":"%s"}\n' % long[7:],
        b'{"index":{"_id":"%s"}}\n' % long, b'{"index":{"_id":"\xff"}}\n', b'{"index":{"_id":"y"}}\n{"s":"\xff"}\n', good % 3]
    wanted = [
        (3, "{", ["no JSON"]), (4, '{"n":1}', ["no action", "--id"]), (5, '{"index":{"_id":"x"},"a":1}', ["no action"]), (6, '{"index":[]}', ["no action"]), (7, "5", ["no action"]),
        (8, '{"index":{}}\n{"n":1}', ["_id"]), (10, '{"create":{"_id":5}}\n{"n":2}', ["_id"]), (12, '{"delete":{"_index":"books"}}', ["_id"]),
        (13, '{"update":{"_id":"u"}}\n{"doc":{}}', ["update"]), (17, '{"index":{"_id":"r","routing":"x"}}\n{}', ["routing"]),
        (21, '{"index":{"_id":"t"}}\n{"s":"%s"}' % long[7:].decode(), ["65537 bytes"]), (23, '{"index":{"_id":"%s"}}' % long.decode(), ["65556 bytes"]),
        (24, '{"index":{"_id":"\ufffd"}}', ["UTF-8", "line 24"]), (25, '{"index":{"_id":"y"}}\n{"s":"\ufffd"}', ["UTF-8", "line 26"])]
    with tempfile.TemporaryDirectory() as top:
        first, second, refused = Path(top, "first.ndjson"), Path(top, "second.ndjson"), Path(top, "refused.ndjson")
        first.write_bytes(b"".join(lines))
        second.write_bytes(b"\n" + good % 4 + b'{"index":{"_id":"5"}}')
        with Server() as server:
            is_loaded_but("lines that are no actions", load(server, "--refused", refused, first, second), 5, len(wanted) + 1, refused)
            are_refused("refused actions", refused,
                        [(first.name, *it) for it in wanted] + [(second.name, 4, '{"index":{"_id":"5"}}', ["the file ends"])])
            is_same("and the rest is loaded", counted(server), 5)
        refused.write_bytes(b"")
        with Server() as server:
            is_loaded_but("they may be written to an empty file", load(server, "--refused", refused, first), 4, len(wanted), refused)
            is_same("all of them", len(refusals_in(refused)), len(wanted))


def refused_documents():
    """Documents that have no id."""
    long = "x" * 3_000_000
    lines = [
        ('{"s":"a"}', []), ('{"n":1}', ['no field "s"']), ('{"s":null}', ['"s"', "no id"]), ('{"s":1.0}', ['"s"', "no id"]), ('{"s":-0}', ['"s"', "no id"]), ('{"s":18446744073709551616}', ['"s"', "no id"]),
        ('{"s":["a"]}', ['"s"', "no id"]), ('{"s":true}', ['"s"', "no id"]), ('{"s":""}', ['"s"', "0 bytes"]), ('{"s":"%s"}' % long[:513], ['"s"', "513 bytes"]), ('{"s":"%s"}' % long[:512], []),
        ("[1]", ["no JSON object"]), ('"s"', ["no JSON object"]), ('{"s":"b"', ["no JSON"]), ('{"o":{"s":"b"}}', ['no field "s"']), ('{"s":"c","t":"%s"}' % long[:70_000], ["70016 bytes"]),
        (long, ["3000000 bytes", "beginning"]), ('{"s":"d"}', [])]
    with tempfile.TemporaryDirectory() as top:
        file, refused = Path(top, "documents.ndjson"), Path(top, "refused.ndjson")
        file.write_text("".join(f"{it}\n" for it, _ in lines))
        with Server() as server:
            wanted = [(file.name, number, text[:1_048_576], words) for number, (text, words) in enumerate(lines, 1) if words]
            is_loaded_but("documents without ids", load(server, "--id", "s", "--refused", refused, file), 3, len(wanted), refused)
            are_refused("refused documents", refused, wanted)
            is_same("and the rest is loaded", counted(server), 3)


def refused_by_the_server():
    """Items that the server refuses, each with its own reason, in bulks that it takes."""
    with tempfile.TemporaryDirectory() as top:
        file, refused, mapping = Path(top, "some.ndjson"), Path(top, "refused.ndjson"), Path(top, "mapping.json")
        mapping.write_bytes(MAPPING)
        bad = [('{"create":{"_id":"7"}}\n{"n":7}', ["VersionConflict", "409"]), ('{"index":{"_id":"w"}}\n{"n":"x"}', ["WrongValue", "400"]), ('{"index":{"_id":"u"}}\n{"m":1}', ["Unmapped"]),
               ('{"index":{"_id":"j"}}\n{"n":', ["NotJson", "400", "byte 5"]), ('{"index":{"_id":""}}\n{}', ["IdEmpty"]), ('{"index":{"_id":"i","_index":"other"}}\n{}', ["NoIndex", "404"]),
               ('{"index":{"_id":"7","if_seq_no":90000,"if_primary_term":1}}\n{}', ["VersionConflict"])]
        text, wanted, line = bulk_lines(0, 900).decode(), [], 1_801
        for number, (lines, words) in enumerate(bad):
            text += lines + "\n" + bulk_lines(1_000 + 300 * number, 1_300 + 300 * number).decode()
            wanted.append((file.name, line, lines, words))
            line += 602
        file.write_text(text + '{"delete":{"_id":"8"}}\n{"delete":{"_id":"nothing"}}\n')
        with Server("--mapping", mapping) as server:
            is_loaded_but("items that the server refuses", load(server, "--refused", refused, file), 3_000, len(bad), refused)
            are_refused("refused items", refused, wanted)
            is_same("and the rest is loaded", counted(server), 2_999)


def refused_whole():
    """Bulks that the server refuses whole, for the sake of some of their items."""
    bad = '{"index":{"_id":"bad","if_seq_no":0}}\n{}'
    with tempfile.TemporaryDirectory() as top:
        for places in ([0], [999], [500, 501], [333, 1_700, 2_499], [3_000]):
            file, refused = Path(top, f"{places}.ndjson"), Path(top, f"refused-{places}.ndjson")
            pairs = [bulk_lines(it, it + 1).decode() for it in range(3_000)]
            for before, place in enumerate(places):
                pairs.insert(place, bad + "\n")
            file.write_text("".join(pairs))
            with Server() as server:
                is_loaded_but(f"bulks that are refused for items {places}", load(server, "--refused", refused, file), 3_000, len(places), refused)
                are_refused(f"those items, {places}", refused, [(file.name, 2 * it + 1, bad, ["BadBulk", "400"]) for it in places])
                is_same(f"and the rest is loaded, {places}", counted(server), 3_000)


def in_order():
    """Lines that write the same documents over and over, some of which are refused: each has its last source."""
    with tempfile.TemporaryDirectory() as top:
        file, refused = Path(top, "some.ndjson"), Path(top, "refused.ndjson")
        pairs = ['{"index":{"_id":"%d"}}\n{"n":%d}\n' % (it % 700, it) for it in range(9_000)]
        for place in range(100, 9_000, 1_100):
            pairs[place] = '{"index":{"_id":"%d","if_seq_no":0}}\n{"n":%d}\n' % (place % 700, place)
        file.write_text("".join(pairs) + '{"delete":{"_id":"0"}}\n')
        with Server() as server:
            is_loaded_but("documents over and over", load(server, "--refused", refused, file), 8_991, 9, refused)
            got = [(it or {}).get("n") for it in sources(server, [b"%d" % it for it in range(700)])]
            is_same("each has its last source", got, [None] + [max(at for at in range(it, 9_000, 700) if at % 1_100 != 100) for it in range(1, 700)])


def large_replies():
    """Bulks of 1,000 items, bulks whose replies are larger than they are, and lines that come slowly."""
    with tempfile.TemporaryDirectory() as top:
        full, wide = Path(top, "full.ndjson"), Path(top, "wide.ndjson")
        full.write_bytes(bulk_lines(0, 20_000))
        wide.write_text("".join('{"id":"%s%06d"}\n' % ("\\u0001" * 506, it) for it in range(2_000)))
        with Server("--connections", 1) as server:
            is_loaded("20 bulks of 1,000 items", load(server, full), 20_000)
            is_same("over one connection", server.process.wait(SECONDS), 0)
        with Server() as server:
            is_loaded("long ids", load(server, "--id", "id", wide), 2_000)
            is_same("and each is there", counted(server), 2_000)
        long = Path(top, "long.ndjson")
        long.write_bytes(b"".join(b'{"index":{"_id":"%d"}}\n{"s":"%s"}\n' % (it, b"x" * 900) for it in range(5_000)))
        with Pretended(*[written_at_length] * 5) as server:
            is_loaded("pages that are larger than what a connection holds", load(server, long), 5_000)
        with Server("--idle-s", 1) as server:
            with subprocess.Popen(words_of_load(server, "-"), stdin=subprocess.PIPE, stdout=subprocess.PIPE, stderr=subprocess.PIPE) as slow:
                slow.stdin.write(bulk_lines(0, 2_500))
                slow.stdin.flush()
                time.sleep(2.5)
                said = slow.communicate(bulk_lines(2_500, 5_000))
            is_same("a load that rests longer than the server keeps a connection", (slow.returncode, *said), (0, b"loaded 5000 documents\n", b""))


def written_at_length(lines):
    """Writes each document, and has 10 MB of spaces in its page."""
    text, ids, ends = written(lines)
    body = text.partition(b"\r\n\r\n")[2] + b" " * 10_000_000
    return b"HTTP/1.1 200 OK\r\ncontent-length: %d\r\n\r\n%s" % (len(body), body), ids, ends


def begun_again():
    """A load that is killed while its lines come, and begun again."""
    with scratch() as top:
        file = Path(top, "all.ndjson")
        file.write_bytes(bulk_lines(0, 5_000))
        with Server("--data", Path(top, "books")) as server:
            with subprocess.Popen(words_of_load(server, "-"), stdin=subprocess.PIPE, stdout=subprocess.PIPE, stderr=subprocess.PIPE) as first:
                first.stdin.write(bulk_lines(0, 3_500))
                first.stdin.flush()
                end = time.monotonic() + SECONDS
                while counted(server) < 2_000 and time.monotonic() < end:
                    time.sleep(0.05)
                first.kill()
                first.communicate()
            there = counted(server)
            check("a load that is killed has written some", "" if 2_000 <= there < 5_000 else f"{there} documents")
            is_loaded("it is begun again", load(server, file), 5_000)
            is_same("each document is there once", counted(server), 5_000)
            versions = {it["_version"] for it in bodies(server.ask(*(get_of(b"%d" % it) for it in range(0, 5_000, 100))))}
            is_same("some were written twice", versions, {1, 2})


def not_begun():
    """Loads that end before anything is sent."""
    with tempfile.TemporaryDirectory() as top:
        file, refused, missing = Path(top, "some.ndjson"), Path(top, "refused.ndjson"), Path(top, "missing.ndjson")
        file.write_bytes(bulk_lines(0, 10) + b"{}\n")
        port = free_port()
        complains("a load without a server", load_to("--port", port, file), 1, f"127.0.0.1:{port}")
        with Server() as server:
            refused.write_bytes(b"x")
            complains("a file of refused lines that is there", load(server, "--refused", refused, file), 1, str(refused), "--refused")
            is_same("it is as it was", refused.read_bytes(), b"x")
            complains("a file of refused lines in a folder that isn't there", load(server, "--refused", f"{top}/no/refused", file), 1, "no/refused")
            complains("a file that isn't there", load(server, file, missing), 1, str(missing))
            complains("a folder as a file", load(server, file, top), 1, top)
            complains("another index", load_to("--port", server.port, "--index", "other", file), 1, "404", "NoIndex")
            is_same("nothing was written", counted(server), 0)
            is_loaded("a load of no lines", load(server, "/dev/null"), 0)
            for words in ([], ["--port", server.port], ["--port", "x", file], [file], ["--data", top, "--port", server.port, file], ["--port", server.port, "--mapping", file, file],
                          ["--port", server.port, "--id", file], ["--port", server.port, "--no", file]):
                complains(f"load {words[:2]} {len(words)}", load_to(*words), 2)


def broken_off():
    """Connections that are lost, pages that can't be read, and statuses that end a load: what was confirmed by then is told."""
    with tempfile.TemporaryDirectory() as top:
        file = Path(top, "some.ndjson")
        file.write_bytes(bulk_lines(0, 2_500))
        full = refused_page(503, "Closed")
        for name, answers, words in (("is lost", [written, closed], ["1000 documents", "broke off"]), ("has no page", [written, page(b"nonsense\r\n\r\n")], ["1000 documents", "can't be read"]),
                                     ("has another page", [written, written, page(b'HTTP/1.1 200 OK\r\ncontent-length: 12\r\n\r\n{"items":[]}')], ["2000 documents", "can't be read"]),
                                     ("is refused", [written, written, full], ["2000 documents", "503", "Closed"])):
            with Pretended(*answers) as server:
                complains(f"a load whose connection {name}", load_to("--port", server.port, file), 1, f"127.0.0.1:{server.port}", *words)


def sent_again():
    """Bulks and items for which a server has no room are sent again, and so are the halves of a bulk that is too large for it."""
    with tempfile.TemporaryDirectory() as top:
        file = Path(top, "some.ndjson")
        file.write_bytes(bulk_lines(0, 2_500))
        no_room, too_large = refused_page(429, "WindowFull"), refused_page(413, "BodyTooLarge")

        def some(request):
            return written(request, lambda at: at % 3 == 0)

        for name, answers in (("no room for a bulk", [no_room, written, no_room]), ("no room for some items", [some, written, some, some]), ("a bulk that is too large", [too_large, written, too_large])):
            with Pretended(*answers) as server:
                is_loaded(name, load_to("--port", server.port, file), 2_500)
                is_same(f"{name}: each is written once", sorted(server.ids, key=int), [str(it) for it in range(2_500)])
        with Pretended(*[no_room] * 100) as server:
            complains("no room at all", load_to("--port", server.port, file), 1, "429", "WindowFull", "0 documents")


def with_a_bar():
    """At a terminal a bar is drawn and taken away; the server takes its time."""
    with tempfile.TemporaryDirectory() as top:
        file = Path(top, "some.ndjson")
        file.write_bytes(bulk_lines(0, 5_000))

        def slow(request):
            time.sleep(0.3)
            return written(request)

        for name, words, some in (("a file", [file], rb"\[[#.]{24}\] \d+% \d+ documents, \d+ a second, \d+ s left"), ("a pipe", ["-"], rb"\d+ documents, \d+ a second")):
            terminal, errors = pty.openpty()
            with Pretended(*[slow] * 5) as server:
                ran = subprocess.run(words_of_load(server, *words), input=file.read_bytes(), stdout=subprocess.PIPE, stderr=errors, timeout=SECONDS)
            os.close(errors)
            said = rest_of_terminal(terminal)
            is_same(f"a load of {name} at a terminal", (ran.returncode, ran.stdout), (0, b"loaded 5000 documents\n"))
            check(f"its bar, {name}", "" if re.fullmatch(rb"(\r\x1b\[K" + some + rb"){2,}\r\x1b\[K", said) else shown(said))
