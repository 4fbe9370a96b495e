"""Indexes that move: dumps in parts, read again as bulks, and mapping files as Elasticsearch has them."""
import json
import tempfile
from pathlib import Path

from checking import check, shown
from serving.pages import bodies, do_in_turn, put_of, sources
from serving.server import Server, complains, dump, free_port, is_kept, other, ran, scratch

MAPPING = {"dynamic": "strict", "properties": {"n": {"type": "long"}, "s": {"type": "keyword"}}}


def moved():
    in_parts()
    parts_refused()
    wrapped_mappings()


def in_parts():
    """Documents of some 3 KB, of which a bulk of 1,000 lines would be more than a body may have; of one copy and of three."""
    names = [b"%d" % it for it in range(1_000)]
    for copies in (1, 3):
        with scratch() as top:
            folder, parts = Path(top, "books"), Path(top, "parts")
            with Server("--data", folder, "--copies", copies) as server:
                server.ask(*(put_of(name, b'{"n":%d,\n"s":"%s"}' % (at, b"x" * (2_900 + at % 200))) for at, name in enumerate(names)))
                server.ask(put_of(b"5", b'{"n":-5}'), b"DELETE /books/_doc/6 HTTP/1.1\r\n\r\n")
                wanted = sources(server, names)
            whole, got = dump("--data", folder).stdout, dump("--data", folder, "--bytes", 1_000_000, "--to", parts)
            check(f"{copies} copies: a dump in parts says nothing", other(got.stdout + got.stderr, b""))
            if got.returncode:
                continue
            texts = [it.read_bytes() for it in sorted(parts.iterdir())]
            is_kept(f"{copies} copies: the names of its parts", sorted(it.name for it in parts.iterdir()), [f"part-{it:06}.ndjson" for it in range(1, len(texts) + 1)])
            check(f"{copies} copies: its parts are the dump", other(b"".join(texts), whole))
            check(f"{copies} copies: they have at most 1,000,000 bytes, and room for no document more",
                  "" if len(texts) == 4 and all(990_000 < len(it) <= 1_000_000 for it in texts[:-1]) else repr([len(it) for it in texts]))
            check(f"{copies} copies: no document is cut", "" if all(it.count(b"\n") % 2 == 0 and it.startswith(b'{"index":') for it in texts) else "one is")
            with Server() as server:
                bulks = [b"POST /books/_bulk HTTP/1.1\r\ncontent-length: %d\r\n\r\n%s" % (len(it), it) for it in texts]
                is_kept(f"{copies} copies: each part is a bulk", [it.get("errors") for it in bodies(server.ask(*bulks))], [False] * len(texts))
                check(f"{copies} copies: what the parts give", "" if sources(server, names) == wanted else "other documents")


def parts_refused():
    """Documents that are greater than a part, and folders that no dump is written to."""
    with tempfile.TemporaryDirectory() as top:
        folder = Path(top, "books")
        with Server("--data", folder) as server:
            do_in_turn(server, [("put", b"a", b'{"n":1}'), ("put", b"long", b'{"s":"%s"}' % (b"x" * 100)), ("put", b"b", b"{}"), ("put", b"c", b"{}")])
        got, parts = dump("--data", folder, "--bytes", 60, "--to", f"{top}/small"), sorted(Path(top, "small").iterdir())
        is_kept("a document that is greater than a part stands alone", [it.read_bytes().count(b"\n") for it in parts], [2, 2, 4])
        said = got.stderr.decode()
        good = got.returncode == 0 and said.count("\n") == 1 and "part-000002.ndjson" in said and "60" in said
        check("and is told", "" if good else f"status {got.returncode}, {shown(got.stderr)}")
        for number, exact in ((len(parts[2].read_bytes()), 1), (len(parts[2].read_bytes()) - 1, 2)):
            dump("--data", folder, "--bytes", number, "--to", f"{top}/exact-{exact}")
            is_kept(f"parts of {number} bytes", len([*Path(top, f"exact-{exact}").iterdir()]), 2 + exact)
        before = parts[0].read_bytes()
        complains("parts in a folder that isn't empty", dump("--data", folder, "--bytes", 60, "--to", f"{top}/small"), 1, "small", "isn't empty", "part-00000", "--to")
        is_kept("and nothing in it is changed", parts[0].read_bytes(), before)
        complains("parts in a file", dump("--data", folder, "--bytes", 60, "--to", parts[0]), 1, parts[0].name)
        complains("parts in a folder of one that isn't there", dump("--data", folder, "--bytes", 60, "--to", f"{top}/no/parts"), 1, "no/parts")
        for words in (["--bytes", 60], ["--to", f"{top}/new"], ["--bytes", 0, "--to", f"{top}/new"], ["--bytes", "x", "--to", f"{top}/new"],
                      ["--mapping", "--bytes", 60, "--to", f"{top}/new"]):
            complains(f"dump {words[0]} {words[1]}", dump("--data", folder, *words), 2)
        check("and no folder is made for these", "it is there" if Path(top, "new").exists() else "")
        Path(top, "empty").mkdir()
        is_kept("parts in a folder that is empty", dump("--data", folder, "--bytes", 60, "--to", f"{top}/empty").returncode, 0)
        with Server("--data", f"{top}/nothing"):
            pass
        is_kept("a dump of no documents in parts", dump("--data", f"{top}/nothing", "--bytes", 60, "--to", f"{top}/none").returncode, 0)
        is_kept("has no part", [*Path(top, "none").iterdir()], [])


def wrapped_mappings():
    """`{"mappings":M}` is M, wherever a mapping is read."""
    plain, wrapped = json.dumps(MAPPING, indent=1), json.dumps({"mappings": MAPPING}, indent=1)
    with tempfile.TemporaryDirectory() as top:
        file = Path(top, "mapping.json")
        for name, first, second in (("plain first", plain, wrapped), ("wrapped first", wrapped, plain), ("both wrapped", wrapped, wrapped)):
            folder = Path(top, name)
            for text in (first, second):
                file.write_text(text)
                with Server("--data", folder, "--mapping", file) as server:
                    check(f"mappings, {name}: the server starts", "" if server.listens else shown(server.said))
                    got = bodies(server.ask(put_of(b"1", b'{"n":1}'), put_of(b"2", b'{"m":1}')))
                    is_kept(f"mappings, {name}: the mapping", [it.get("error", {}).get("reason") for it in got], [None, "Unmapped"])
            is_kept(f"mappings, {name}: what is kept", json.loads((folder / "mapping.json").read_bytes()), MAPPING)
            is_kept(f"mappings, {name}: what is dumped", json.loads(dump("--data", folder, "--mapping").stdout), MAPPING)
        old = Path(top, "old")
        with Server("--data", old):
            pass
        (old / "mapping.json").write_text(wrapped)
        file.write_text(plain)
        with Server("--data", old, "--mapping", file) as server:
            check("a folder that keeps a wrapped mapping", "" if server.listens else shown(server.said))
        is_kept("and what is dumped of it", json.loads(dump("--data", old, "--mapping").stdout), MAPPING)
        file.write_text(json.dumps({"mappings": {}}))
        complains("another mapping, wrapped", ran("--port", free_port(), "--data", old, "--mapping", file), 1, "another mapping", "line 1", "--mapping")
        for text in ({"mappings": MAPPING, "settings": {}}, {"mappings": {"mappings": MAPPING}}, {"mappings": 1}, {"settings": {}}):
            file.write_text(json.dumps(text))
            complains(f"the mapping file {json.dumps(text)[:30]}", ran("--port", free_port(), "--mapping", file), 1, "no mapping")
