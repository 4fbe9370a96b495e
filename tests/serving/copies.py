"""Several copies: what they answer together, promotions, and copies in a folder that are added, damaged and missing."""
import os
import tempfile
import time
from pathlib import Path

from checking import check, shown
from serving.documents import together_over
from serving.journals import clients_audited, journals_kept, journals_over_a_promotion
from serving.pages import bodies, get_of, page_names, page_of, promote_of, put_of, sources
from serving.server import SECONDS, Server, complains, dump, free_port, ran


def copies():
    copies_kept()
    promotions()
    searches_follow()
    searchers_end()
    lone_promotions()
    for number in (1, 2, 3, 5):
        together_over(f"clients at the same time, {number} copies", 4, 50, "--copies", number)
    put = b'PUT /books/_doc/1?refresh=true HTTP/1.1\r\ncontent-length: 7\r\n\r\n{"n":1}'
    search = b'POST /books/_search HTTP/1.1\r\ncontent-length: 26\r\n\r\n{"query":{"match_all":{}}}'
    create = b'PUT /books/_create/1 HTTP/1.1\r\ncontent-length: 7\r\n\r\n{"n":2}'
    with Server("--copies", 3, "--connections", 2, "--audit") as server:
        got = bodies(server.ask(put, search, create, get_of(b"1"), get_of(b"2"), b"POST /books/_refresh HTTP/1.1\r\n\r\n"))
        check("a write of three copies says so", "" if got[0]["_shards"] == {"failed": 0, "successful": 3, "total": 3} else repr(got[0]))
        check("a search finds what is refreshed", "" if got[1]["hits"]["total"]["value"] == 1 else repr(got[1]))
        check("a document that is there isn't created", "" if got[2]["status"] == 409 else repr(got[2]))
        check("gets of several copies", "" if got[3]["_source"] == {"n": 1} and not got[4]["found"] else repr(got[3:5]))
        check("each copy is refreshed", "" if got[5]["_shards"] == {"failed": 0, "successful": 3, "total": 3} else repr(got[5]))
        server.ask(b"DELETE /books/_doc/1 HTTP/1.1\r\n\r\n")
        out, err = server.process.communicate(timeout=SECONDS)
        check("what three copies did is audited", "" if (out, err, server.process.returncode) == (b"audit ok\n", b"", 0) else f"{out} {err} {server.process.returncode}")
    for number in (1, 3):
        with tempfile.TemporaryDirectory() as top:
            clients_audited(Path(top, "journals"), number)
    with tempfile.TemporaryDirectory() as top:
        journals_kept(Path(top, "journals"))
        journals_over_a_promotion(Path(top, "others"))
    complains("an audit without an end", ran("--port", free_port(), "--copies", "2", "--audit"), 1, "--connections")


def promotions():
    """Another copy is made the primary: writes go on there, what was written before is found, and the old primary is gone."""
    with Server("--copies", 3, "--connections", 1, "--audit") as server:
        given = server.ask(
            put_of(b"1", b'{"n":1}'), promote_of(b"2"), put_of(b"2", b'{"n":2}'), get_of(b"1"), promote_of(b"1"), promote_of(b"9"), promote_of(b"3?pretty"),
            put_of(b"3", b'{"n":3}'), promote_of(b"3"), put_of(b"4", b'{"n":4}'), get_of(b"1"), b"POST /books/_refresh HTTP/1.1\r\n\r\n", promote_of(b"2"))
        got, names = bodies(given), page_names(given)
        told = [(it.get("acknowledged"), it.get("primary"), it.get("primary_term")) for it in (got[1], got[6], got[8])]
        check("promotions are told", "" if told == [(True, 2, 2), (True, 3, 3), (True, 3, 4)] else repr(told))
        written = [(it.get("_primary_term"), it.get("_shards", {}).get("total")) for it in (got[0], got[2], got[7], got[9])]
        check("writes go on at the new primary", "" if written == [(1, 3), (2, 2), (3, 1), (4, 1)] else repr(written))
        check("what was written before is found", "" if [got[it].get("_source") for it in (3, 10)] == [{"n": 1}] * 2 else repr(got))
        check("the old primary is gone", "" if [names[it] for it in (4, 12)] == [(503, "Gone")] * 2 else repr(names))
        check("a copy that was never there", "" if names[5] == (503, "NotInSync") else repr(names[5]))
        check("a refresh is of the copies that are left", "" if got[11].get("_shards", {}).get("total") == 1 else repr(got[11]))
        out, err = server.process.communicate(timeout=SECONDS)
        check("promotions are audited", "" if (out, err) == (b"audit ok\n", b"") else f"{out} {err}")


def searches_follow():
    """Searches of one connection go to the copy that leads, also once that is another one."""
    refresh, search = b"POST /books/_refresh HTTP/1.1\r\n\r\n", b"GET /books/_search HTTP/1.1\r\n\r\n"
    with Server("--copies", 3, "--connections", 1, "--refresh-ms", 0) as server:
        given = bodies(server.ask(put_of(b"1", b'{"n":1}'), search, refresh, search, promote_of(b"2"), put_of(b"2", b'{"n":2}'), search, refresh, search))
        totals = [given[it].get("hits", {}).get("total", {}).get("value") for it in (1, 3, 6, 8)]
        check("searches follow the primary", "" if totals == [0, 1, 1, 2] else repr(totals))


def searchers_end():
    """A connection that searched before sees a write of another that was refreshed; more connections than searchers that a copy gives out search one after the other."""
    search = b"GET /books/_search HTTP/1.1\r\n\r\n"
    with Server("--copies", 3) as server:
        with server.connect() as connection:
            pages, totals = connection.makefile("rb"), []
            for number in range(2):
                connection.sendall(search)
                totals.append(page_of(pages)["hits"]["total"]["value"])
                server.ask(put_of(b"%d" % number, b"{}").replace(b"/%d HTTP" % number, b"/%d?refresh=true HTTP" % number))
            connection.sendall(search)
            totals.append(page_of(pages)["hits"]["total"]["value"])
        check("a write of another connection that was refreshed is found", "" if totals == [0, 1, 2] else repr(totals))
        totals = [bodies(server.ask(search))[0].get("hits", {}).get("total", {}).get("value") for _ in range(20)]
        check("twenty connections search one after the other", "" if totals == [2] * 20 else repr(totals))


def lone_promotions():
    """One copy leads already, and there is no other; what names no copy is refused before."""
    with Server() as server:
        got = page_names(server.ask(promote_of(b"1"), promote_of(b"2"), put_of(b"1", b"{}"), promote_of(b"1")))
        check("one copy isn't promoted", "" if got == [(503, "IsPrimary"), (503, "NotInSync"), (201, ""), (503, "IsPrimary")] else repr(got))
        for copy in (b"x", b"", b"0", b"-1", b"+1", b"1.0", b"4294967296", b"99999999999999999999", b"%FF", b"1?refresh=true", b"1?x"):
            got = page_names(server.ask(promote_of(copy)))
            check(f"a promotion of {copy}", "" if got == [(400, "BadParameter")] else repr(got))
        for method in (b"GET", b"PUT", b"DELETE", b"PATCH"):
            got = server.ask(promote_of(b"1", method))
            check(f"a promotion by {method}", "" if page_names(got) == [(405, "BadMethod")] and b"\r\nallow: POST\r\n" in got else shown(got))
        got = page_names(server.ask(b"POST /other/_promote/1 HTTP/1.1\r\n\r\n", b"POST /books/_promote HTTP/1.1\r\n\r\n"))
        check("a promotion elsewhere", "" if got == [(404, "NoIndex"), (404, "NoRoute")] else repr(got))


def copies_kept():
    """A folder of one copy gets two more, which are kept as it is; then a copy's file is damaged, and one is missing."""
    with tempfile.TemporaryDirectory() as top:
        folder = Path(top, "books")

        def look(name, documents, more, *words, wanted=b""):
            """Starts over the folder, finds the documents, and puts one more."""
            with Server("--data", folder, *words) as server:
                check(f"{name}: it starts", "" if server.listens else shown(server.process.stderr.read()))
                found = [it and it["n"] for it in sources(server, [b"%d" % it for it in range(documents)])]
                check(f"{name}: each document is found", "" if found == [*range(documents)] else repr(found))
                end, holders = time.monotonic() + SECONDS, None
                while holders != {"failed": 0, "successful": more, "total": more} and time.monotonic() < end:
                    got = bodies(server.ask(put_of(b"%d" % documents, b'{"n":%d}' % documents)))
                    holders = got[0].get("_shards")
                    time.sleep(0.05)
                check(f"{name}: one more is written to {more}", "" if holders and holders["total"] == more else repr(got))
                server.process.kill()
                said = server.process.communicate()[1]
                check(f"{name}: what is said", "" if said.startswith(wanted) and bool(said) == bool(wanted) else shown(said))

        look("one copy", 0, 1)
        look("two more", 1, 3, "--copies", 3)
        look("three copies", 2, 3)
        files = sorted(it.name for it in folder.glob("*.rsx"))
        check("each copy has a file", "" if files == ["copy-1.rsx", "copy-2.rsx", "copy-3.rsx"] else repr(files))
        damage(folder / "copy-2.rsx")
        look("a damaged copy", 3, 2, wanted=b"indexd: copy 2: ")
        os.remove(folder / "copy-1.rsx")
        look("the first copy is missing", 4, 1, wanted=b"indexd: copy 1: nothing is kept of it; it leaves the index\n")
        dumped = dump("--data", folder)
        check("the copy that led last is written", "" if dumped.stdout.count(b"\n") == 10 else f"{shown(dumped.stdout)} {shown(dumped.stderr)}")
        look("it is a primary again", 5, 1)
        damaged = damage(folder / "copy-3.rsx")
        complains("no copy that opens", ran("--port", free_port(), "--data", folder), 1, "no copy could be opened", "copy 3: ")
        check("and its file is as it was", "" if (folder / "copy-3.rsx").read_bytes() == damaged else "it has changed")


def damage(log):
    """Changes a byte of a log's first record."""
    kept = log.read_bytes()
    damaged = kept[:30] + bytes([kept[30] ^ 1]) + kept[31:]
    log.write_bytes(damaged)
    return damaged
