"""Requests as clients spell them, what a page says of its connection, refreshes behind bulks, and why requests are refused."""
import json
import socket
import tempfile
from pathlib import Path

from checking import check, shown
from serving.pages import PUT, bodies, get_of, page_names, pages_of, put_of
from serving.server import SECONDS, Server, other


def answered():
    with Server() as server:
        server.ask(PUT)
        targets(server)
        heads(server)
        last_pages(server)
    for copies in (1, 3):
        shown_by_bulks(copies)
    refreshed_once()
    explained()


def targets(server):
    """Targets that name the host too, as a proxy's client sends them."""
    for target, wanted in ((b"http://localhost/books/_doc/1", (200, "")), (b"HTTP://LOCALHOST:9200/books/_doc/1", (200, "")), (b"http://[::1]:1/books/_doc/1?pretty", (200, "")),
                           (b"http://localhost/books/_doc/9", (404, "")), (b"http://localhost/other/_doc/1", (404, "NoIndex")),
                           (b"http://localhost/books/nothing/here", (404, "NoRoute")), (b"http://localhost", (404, "NoRoute"))):
        got = server.ask(b"GET %s HTTP/1.1\r\nhost: localhost\r\n\r\n" % target)
        check(f"GET {target.decode()}", "" if page_names(got) == [wanted] else shown(got))
    got = server.ask(b"PUT http://localhost/books/_doc/3?refresh=true HTTP/1.1\r\ncontent-length: 7\r\n\r\n{\"n\":1}" + get_of(b"3"))
    check("PUT http://localhost/books/_doc/3", "" if page_names(got) == [(201, ""), (200, "")] else shown(got))


def heads(server):
    """A HEAD is refused like another method that isn't known, by a page without its body, and the next request of the stream is answered."""
    for path in (b"/books/_doc/1", b"/books", b"/"):
        page = server.ask(b"PATCH %s HTTP/1.1\r\n\r\n" % path).partition(b"\r\n\r\n")
        got = server.ask(b"HEAD %s HTTP/1.1\r\n\r\n" % path + get_of(b"1"))
        check(f"HEAD {path.decode()} has no body", other(got, page[0] + page[1] + server.ask(get_of(b"1"))))


def last_pages(server):
    """A stream ends where a client asks for it, and after a request of HTTP/1.0."""
    asks_to_end = get_of(b"1").replace(b"\r\n\r\n", b"\r\nconnection: close\r\n\r\n")
    got = server.ask(get_of(b"1") + asks_to_end + get_of(b"1"))
    check("a stream that is asked to end has no page more", "" if len([*pages_of(got)]) == 2 else shown(got))
    got = server.ask(get_of(b"1").replace(b"HTTP/1.1", b"HTTP/1.0") + get_of(b"1"))
    check("nor has one of HTTP/1.0", "" if got.count(b"HTTP/1.1 ") == 1 else shown(got))


def shown_by_bulks(copies):
    """A bulk with a refresh shows all that it did once it is answered, and one that was refused shows nothing."""
    many = 5_000
    lines = b"".join(b'{"index":{"_id":"%d"}}\n{"n":%d}\n' % (it, it) for it in range(many)) + b'{"delete":{"_id":"0"}}\n'
    count = b"GET /books/_count HTTP/1.1\r\n\r\n"
    with Server("--copies", copies) as server:
        got = bodies(server.ask(bulk_of(lines, b"true") + count))
        check(f"{copies} copies: a bulk of {many} with refresh=true", "" if got[1:] and got[1].get("count") == many - 1 else repr(got[1:]))
        got = bodies(server.ask(bulk_of(b'{"index":{"_id":"a"}}\n{}\n', b"false") + count + bulk_of(b'{"index":{"_id":"b"}}\n', b"true") + count))
        check(f"{copies} copies: one without, and one that is refused", "" if [it.get("count") for it in got[1::2]] == [many - 1] * 2 else repr(got))
        put = put_of(b"c?refresh=true", b"{}")
        got = bodies(server.ask(put + count))
        check(f"{copies} copies: a write with refresh=true", "" if got[1].get("count") == many + 1 else repr(got))


def refreshed_once():
    """A bulk with a refresh leaves one in the journal of each copy, behind the writes, and a bulk whose items all have a fault leaves none."""
    lines = b"".join(b'{"index":{"_id":"%d"}}\n{}\n' % it for it in range(10))
    for name, asked, wanted in (("of ten", lines, 1), ("without a write", b'{"index":{"_id":""}}\n{}\n', 0)):
        with tempfile.TemporaryDirectory() as folder:
            with Server("--copies", 2, "--connections", 1, "--audit", "--journals", folder) as server:
                server.ask(bulk_of(asked, b"true"))
                server.process.communicate(timeout=SECONDS)
            for copy in (1, 2):
                entries = [json.loads(it) for it in Path(folder, f"copy-{copy}.journal").read_bytes().splitlines()[1:]]
                behind = [it["asked"][0] for it in entries if it["asked"][0] in ("put", "refresh")]
                check(f"copy {copy} is refreshed by a bulk {name}", "" if behind.count("refresh") == wanted and "put" not in behind[-wanted:] else repr(behind))


def bulk_of(lines, refresh):
    return b"POST /books/_bulk?refresh=%s HTTP/1.1\r\ncontent-length: %d\r\n\r\n%s" % (refresh, len(lines), lines)


MAPPING = {"dynamic": "strict", "properties": {"author": {"properties": {"born": {"type": "long"}}}}}
REFUSED = (
    (put_of(b"1", b'{"author":{"born":"long ago"}}'), ("PUT", "/books/_doc/1", "author.born", "long ago")),
    (put_of(b"2", b'{"autor":1}'), ("PUT", "/books/_doc/2", "autor")),
    (put_of(b"3", b'{"author":'), ("PUT", "/books/_doc/3")),
    (bulk_of(b'{"index":{"_id":"1"}}\n{}\n{"index":{"_id":"2"}}\n{"author":{"born":1.5}}\n', b"true"), ("POST", "/books/_bulk", "line 4", "author.born", "1.5")),
    (bulk_of(b'{"index":{"_id":"1"}}\n{}\n{"index":{"_id":2}}\n{}\n', b"true"), ("POST", "/books/_bulk", "line 3", "_id")),
    (bulk_of(b'{"index":{"_id":"1"}}\n{}\n{"update":{"_id":"2"}}\n{}\n', b"true"), ("POST", "/books/_bulk", "line 3", "update")),
    (bulk_of(b'{"delete":{"_id":"1","routing":"a"}}\n', b"true"), ("POST", "/books/_bulk", "line 1", "routing")),
    (bulk_of(b'{"delete":{"_id":"1","if_seq_no":1}}\n', b"true"), ("POST", "/books/_bulk", "line 1", "if_seq_no")),
    (bulk_of(b'{"delete":{"_id":"1"}}\n{"index":{"_id":"1"}}\n{}', b"true"), ("POST", "/books/_bulk", "line 3", "line feed")),
    (bulk_of(b'{"delete":{"_id":"1"}}\n{"index":{"_id":"1"}}\n', b"true"), ("POST", "/books/_bulk", "line 2", "missing")),
    (bulk_of(b'{"delete":{"_id":"1"}}\n{"index":{"_id":"1"\n{}\n', b"true"), ("POST", "/books/_bulk", "line 2", "JSON")),
    (bulk_of(b"", b"true"), ("POST", "/books/_bulk", "no action")),
    (b'POST /books/_search HTTP/1.1\r\ncontent-length: 25\r\n\r\n{"query":{"fuzzy":{"a":1}', ("POST", "/books/_search")),
    (b'POST /books/_search HTTP/1.1\r\ncontent-length: 30\r\n\r\n{"query":{"fuzzy":{"a":"12"}}}', ("POST", "/books/_search", "fuzzy")),
    (b"GET /books/_search?q=x HTTP/1.1\r\n\r\n", ("GET", "/books/_search?q=x", "the parameter q isn't known")),
    (b"POST /books/_refresh?pretty&pretty HTTP/1.1\r\n\r\n", ("POST", "/books/_refresh", "the parameter pretty comes twice")),
    (b"DELETE /books/_doc/1?refresh=soon HTTP/1.1\r\n\r\n", ("DELETE", "/books/_doc/1", "refresh", "soon")),
    (b"GET /books/_doc/1?refresh HTTP/1.1\r\n\r\n", ("GET", "/books/_doc/1", "doesn't go with")),
    (b"GET /other/_doc/1 HTTP/1.1\r\n\r\n", ("GET", "/other/_doc/1")),
)


def explained():
    """With --explain a line on standard error has the request's method and target, and why it is refused; without it there is none."""
    with tempfile.TemporaryDirectory() as folder:
        mapping = Path(folder, "mapping.json")
        mapping.write_text(json.dumps(MAPPING))
        for words in (["--explain"], []):
            with Server("--mapping", mapping, *words) as server:
                server.ask(put_of(b"0", b'{"author":{"born":1749}}'))
                for request, _ in REFUSED:
                    got = page_names(server.ask(request))
                    check("a request that is to be refused", "" if got and (got[0][0] >= 400 or b"_bulk" in request) else repr(got))
                said = server.errors_said(len(REFUSED) if words else 0)
            if not words:
                check("nothing is explained where nobody asks", "" if not said else repr(said[:3]))
                continue
            check("a line for each request that is refused", "" if len(said) == len(REFUSED) else f"{len(said)} lines: {said}")
            for line, (_, texts) in zip(said, REFUSED):
                good = line.startswith("indexd: connection ") and all(it in line for it in texts)
                check(f"why {texts[0]} {texts[1]} is refused", "" if good else repr(line))
