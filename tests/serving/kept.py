"""An index in a folder: found again, torn, damaged, missing, interrupted, and dumped."""
import json
import tempfile
import urllib.parse
from pathlib import Path

from checking import check, shown
from serving.pages import bodies, do_in_turn, page_names, put_of, sources
from serving.server import Server, complains, dump, free_port, is_kept, other, ran, scratch
from translog.damaged import HEADER, frame, number, operation

MAPPED = b'{"dynamic":"strict",\n "properties":{"n":{"type":"long"}}}\n'


def kept():
    with tempfile.TemporaryDirectory() as top:
        folder, mapping = Path(top, "books"), Path(top, "mapping.json")
        mapping.write_bytes(MAPPED)
        with Server("--data", folder, "--mapping", mapping) as server:
            got = bodies(server.ask(*(put_of(b"%d" % n, b'{"n":%d}' % n) for n in range(4)), b"DELETE /books/_doc/3 HTTP/1.1\r\n\r\n"))
            is_kept("writes into a folder", [(it["_seq_no"], it["_primary_term"]) for it in got], [(n, 1) for n in range(5)])
            complains("a second server of a folder", ran("--port", free_port(), "--data", folder), 1, "data folder", "another process")
        is_kept("the files of a folder", sorted(it.name for it in folder.iterdir()), ["copy-1.rsx", "copy-1.sum", "lock", "mapping.json", "master.log"])
        is_kept("the mapping is kept as it was handed in", (folder / "mapping.json").read_bytes(), MAPPED)
        with Server("--data", folder) as server:
            is_kept("documents after a kill", sources(server, [b"0", b"1", b"2", b"3"]), [{"n": 0}, {"n": 1}, {"n": 2}, None])
            got = bodies(server.ask(b"GET /books/_count HTTP/1.1\r\n\r\n", put_of(b"0?if_seq_no=0&if_primary_term=1", b'{"n":7}'), put_of(b"1", b'{"m":7}')))
            is_kept("a count after a kill", got[0]["count"], 3)
            is_kept("a write in the next term", (got[1].get("_seq_no"), got[1].get("_primary_term"), got[1].get("_version")), (5, 2, 2))
            is_kept("the mapping after a kill", got[2].get("error", {}).get("reason"), "Unmapped")
        mapping.write_bytes(b'{"properties": {"n": {"type": "long"}}, "dynamic": "strict"}')
        with Server("--data", folder, "--mapping", mapping) as server:
            is_kept("the same mapping in other words", sources(server, [b"0", b"1"]), [{"n": 7}, {"n": 1}])
        mapping.write_bytes(MAPPED.replace(b"long", b"keyword"))
        complains("another mapping", ran("--port", free_port(), "--data", folder, "--mapping", mapping), 1, "line 2", "long", "keyword", "--mapping")
        torn_and_damaged(folder)
        missing(folder)
        interrupted(Path(top))
        points_in_keys(Path(top))


def points_in_keys(top):
    """A log of a program that knew no objects: a key with points is a field that isn't mapped, and stays one."""
    folder, mapping = top / "points", top / "points.json"
    mapping.write_bytes(b'{"properties":{"k":{"type":"keyword"}}}')
    with Server("--data", folder, "--mapping", mapping):
        pass
    kept = [(b"a", b'{"a.b":"x","k":"y"}'), (b"b", b'{"k.k":"y","k.":1,".k":[true,null],"k":["x","y"]}'), (b"c", b'{".":"y"}')]
    frames = [frame(b"\1" + number(at - 1) + operation(at, 1, 1, name, text)) for at, (name, text) in enumerate(kept)]
    (folder / "copy-1.rsx").write_bytes(HEADER + b"".join(frames))
    with Server("--data", folder) as server:
        is_kept("sources with points in their keys", sources(server, [name for name, _ in kept]), [json.loads(text) for _, text in kept])
        asked = [("k", "y"), ("k", "x"), ("a.b", "x"), ("k.k", "y"), (".k", "true")]
        texts = [json.dumps({"query": {"term": {field: value}}}).encode() for field, value in asked]
        got = bodies(server.ask(*(b"POST /books/_count HTTP/1.1\r\ncontent-length: %d\r\n\r\n%s" % (len(it), it) for it in texts)))
        is_kept("searches of them", [it.get("count") for it in got], [2, 1, 0, 0, 0])
        is_kept("a write behind them", page_names(server.ask(put_of(b"d", b'{"a":{"b":"x"},"k":"y"}'))), [(201, "")])


def torn_and_damaged(folder):
    log, master = folder / "copy-1.rsx", folder / "master.log"
    whole = log.read_bytes()
    for torn in (b"\1", b"\x2b\0\0\0\1\xff"):
        log.write_bytes(whole + torn)
        with Server("--data", folder) as server:
            is_kept(f"a log with a torn end of {len(torn)} bytes", sources(server, [b"0", b"2"]), [{"n": 7}, {"n": 2}])
        whole = log.read_bytes()
    second = 8 + int.from_bytes(whole[4:8], "little")
    for file, at, offset in ((log, 8, "offset 4"), (log, second + 4, f"offset {second}"), (master, 8, "offset 4")):
        bytes_before = file.read_bytes()
        damaged = bytes_before[:at] + b"\x09" + bytes_before[at + 1:]
        file.write_bytes(damaged)
        complains(f"{file.name} damaged at byte {at}", ran("--port", free_port(), "--data", folder), 1, file.name, offset)
        is_kept("and nothing of it is changed", file.read_bytes(), damaged)
        file.write_bytes(b"RSX9" + bytes_before[4:])
        complains(f"{file.name} with another header", ran("--port", free_port(), "--data", folder), 1, file.name, "header")
        file.write_bytes(bytes_before)
    with Server("--data", folder) as server:
        is_kept("the same folder once its files are whole", sources(server, [b"0", b"2"]), [{"n": 7}, {"n": 2}])


def missing(folder):
    for name in ("mapping.json", "master.log", "copy-1.rsx"):
        (folder / name).rename(folder / "away")
        complains(f"a folder without {name}", ran("--port", free_port(), "--data", folder), 1, f"{name} is missing")
        check("and none is made", "it is there" if (folder / name).exists() else "")
        (folder / "away").rename(folder / name)
    complains("a folder in one that isn't there", ran("--port", free_port(), "--data", folder / "a/b"), 1, "data folder")
    complains("a file in place of a folder", ran("--port", free_port(), "--data", folder / "lock"), 1, "data folder")


def interrupted(top):
    """Starts that end early leave some files of a new index, empty or torn."""
    for number, files in enumerate(({"mapping.json.new": b"{"}, {"mapping.json": b"{}"}, {"mapping.json": b"{}", "copy-1.rsx": b""},
                                    {"mapping.json": b"{}", "copy-1.rsx": b"", "master.log": b"RS"}, {"mapping.json": b"{}", "copy-1.rsx": b"RSX", "master.log": b"RSM1\2\0"},
                                    {"mapping.json": b"{}", "copy-1.rsx": b"RSX1\x2b\0\0\0\1\xff", "master.log": b"RSM1"})):
        folder = top / f"begun-{number}"
        folder.mkdir()
        for name, text in files.items():
            (folder / name).write_bytes(text)
        for text in (b'{"n":1}', b'{"n":2}'):
            with Server("--data", folder) as server:
                check(f"a start after {sorted(files)}", "" if server.listens else shown(server.said))
                if server.listens:
                    server.ask(put_of(b"1", text))
                    is_kept("its write is found", sources(server, [b"1"]), [json.loads(text)])


def dumped():
    """What a dump writes gives an equal index, where it is read as a bulk."""
    dumped_in_order()
    documents = {"0": b'{"n":0}', "a b": b'{\n "n": 1,\r\n "s": "x\\ny"\n}', 'q"\\': '{"s":"\u00fc\u2028"}'.encode(), "gone": b"{}", "twice": b'{"n":1}'}
    names = {it: urllib.parse.quote(it, safe="").encode() for it in documents}
    with tempfile.TemporaryDirectory() as top:
        folder, mapping = Path(top, "books"), Path(top, "mapping.json")
        mapping.write_bytes(MAPPED.replace(b'"dynamic":"strict",', b""))
        complains("a dump of a folder that isn't there", dump("--data", folder), 1, "data folder")
        with Server("--data", folder, "--mapping", mapping) as server:
            server.ask(*(put_of(names[it], text) for it, text in documents.items()), b"DELETE /books/_doc/gone HTTP/1.1\r\n\r\n", put_of(b"twice", b'{"n":2}'))
            wanted = sources(server, [*names.values()])
            served = dump("--data", folder)
        before = {it.name: it.read_bytes() for it in folder.iterdir()}
        ran_dump, ran_mapping = dump("--data", folder), dump("--data", folder, "--mapping")
        is_kept("a dump changes nothing", {it.name: it.read_bytes() for it in folder.iterdir()}, before)
        is_kept("a dump of a folder that is served", (served.returncode, served.stdout, served.stderr), (0, ran_dump.stdout, b""))
        is_kept("a dump's lines", (ran_dump.returncode, ran_dump.stdout.count(b"\n"), ran_dump.stderr), (0, 8, b""))
        is_kept("a dump's mapping", (json.loads(ran_mapping.stdout), ran_mapping.stdout.count(b"\n")), (json.loads(mapping.read_bytes()), 1))
        mapping.write_bytes(ran_mapping.stdout)
        with Server("--data", Path(top, "other"), "--mapping", mapping) as server:
            got = server.ask(b"POST /books/_bulk HTTP/1.1\r\ncontent-length: %d\r\n\r\n" % len(ran_dump.stdout) + ran_dump.stdout)
            is_kept("a dump is a bulk", bodies(got)[0]["errors"], False)
            is_kept("what the bulk gives", sources(server, [*names.values()]), wanted)


def dumped_in_order():
    """A dump has the documents in the order of their last writes, which isn't that of their ids, nor of their first writes."""
    deeds = [("put", name, b'{"n":%d}' % at) for at, name in enumerate((b"b", b"c", b"a", b"d", b"e", b"c", b"b"))]
    deeds += [("delete", b"d"), ("put", b"0", b"{}"), ("put", b"a", b'{"n":9}')]
    for copies in (1, 3):
        with scratch() as top:
            with Server("--data", Path(top, "books"), "--copies", copies) as server:
                pages = [it for it, _ in do_in_turn(server, deeds)]
                check(f"documents for a dump of {copies} copies", "" if all("error" not in it for it in pages) else repr(pages))
            got = dump("--data", Path(top, "books"))
            wanted = b"".join(b'{"index":{"_id":"%s"}}\n%s\n' % it for it in ((b"e", b'{"n":4}'), (b"c", b'{"n":5}'), (b"b", b'{"n":6}'), (b"0", b"{}"), (b"a", b'{"n":9}')))
            check(f"the order of a dump of {copies} copies", other(got.stdout, wanted))
