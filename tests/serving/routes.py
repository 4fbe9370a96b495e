"""Requests with their pages: those of files, those that curl sends over every route, and hostile ones."""
import json
import shutil
import tempfile

from checking import TESTS, check, shown
from serving.pages import PUT, page_names
from serving.server import Server, other

ROWS = sorted(TESTS.glob("requests/*.in"))


def rows():
    for row in ROWS:
        given, wanted = row.read_bytes(), row.with_suffix(".out").read_bytes()
        with Server() as server:
            check(f"{row.stem}, at once", other(server.ask(given), wanted))
        if len(given) < 1000:
            with Server() as server:
                pieces = [given[at:at + 1] for at in range(len(given))]
                check(f"{row.stem}, a byte at a time", other(server.ask(*pieces), wanted))
    wanted = (TESTS / "requests/put.out").read_bytes()
    bad = []
    for at in range(len(PUT)):
        with Server() as server:
            got = server.ask(PUT[:at], PUT[at:], pause=0.001)
            if why := other(got, wanted):
                bad.append(f"at byte {at}: {why}")
    check("put, cut at each place", bad[0] if bad else "")
    bad = []
    with Server() as server:
        for at in range(len(PUT)):
            if why := other(server.ask(PUT[:at]), b""):
                bad.append(f"of {at} bytes: {why}")
        check("each beginning of put has no page", bad[0] if bad else "")
        check("and left nothing behind", other(server.ask(PUT), wanted))


def error(name, kind, status):
    return status, json.dumps({"error": {"reason": name, "type": kind}, "status": status}, separators=(",", ":")).encode()


def is_wrote(got, status, seq, version, result):
    body = {"_id": "a/b", "_index": "books", "_primary_term": 1, "_seq_no": seq,
            "_shards": {"failed": 0, "successful": 1, "total": 1}, "_version": version, "result": result}
    return is_got(got, (status, json.dumps(body, separators=(",", ":")).encode()))


def is_got(got, wanted):
    return other(repr(got).encode(), repr(wanted).encode())


def total(got):
    return json.loads(got[1])["hits"]["total"]["value"] if got[0] == 200 else got


CONFLICT = error("VersionConflict", "version_conflict_engine_exception", 409)
DOCUMENT = "/books/_doc/a%2Fb"


def routes():
    if not shutil.which("curl"):
        print("curl isn't installed: routes skipped", flush=True)
        return
    with Server() as server:
        routes_of_writes(server)
        routes_of_searches(server)
        routes_of_deletes(server)
        routes_with_faults(server)
    routes_of_a_mapping()


def routes_of_writes(server):
    check("put creates", is_wrote(server.curl("-X", "PUT", DOCUMENT, body=b'{"t":1}'), 201, 0, 1, "created"))
    check("post updates", is_wrote(server.curl("-X", "POST", DOCUMENT, body=b'{"t": 2}'), 200, 1, 2, "updated"))
    check("get", is_got(server.curl(DOCUMENT), (200, b'{"_id":"a/b","_index":"books","_primary_term":1,"_seq_no":1,"_source":{"t": 2},"_version":2,"found":true}')))
    check("get missing", is_got(server.curl("/books/_doc/9"), (404, b'{"_id":"9","_index":"books","found":false}')))
    check("create conflicts", is_got(server.curl("-X", "PUT", "/books/_create/a%2Fb", body=b"{}"), CONFLICT))
    check("op_type=create conflicts", is_got(server.curl("-X", "PUT", DOCUMENT + "?op_type=create", body=b"{}"), CONFLICT))
    check("a condition that isn't met", is_got(server.curl("-X", "PUT", DOCUMENT + "?if_seq_no=0&if_primary_term=1", body=b"{}"), CONFLICT))
    check("a condition that is met", is_wrote(server.curl("-X", "PUT", DOCUMENT + "?if_seq_no=1&if_primary_term=1", body=b'{"t":3}'), 200, 2, 3, "updated"))


def routes_of_searches(server):
    check("a search before the refresh", "" if total(server.curl("/books/_search")) == 0 else "it finds something")
    check("refresh", is_got(server.curl("-X", "POST", "/books/_refresh"), (200, b'{"_shards":{"failed":0,"successful":1,"total":1}}')))
    found = b'{"_shards":{"failed":0,"skipped":0,"successful":1,"total":1},"hits":{"hits":[{"_id":"a/b","_index":"books","_score":null,"_source":{"t":3}}],"max_score":null,"total":{"relation":"eq","value":1}},"timed_out":false,"took":0}'
    check("search", is_got(server.curl("/books/_search"), (200, found)))
    check("search with a body", is_got(server.curl("-X", "POST", "/books/_search?pretty", body=b'{"query":{"match_all":{}},"size":10}'), (200, found)))
    counted = b'{"_shards":{"failed":0,"skipped":0,"successful":1,"total":1},"count":%d}'
    check("count", is_got(server.curl("/books/_count"), (200, counted % 1)))
    check("count with a query", is_got(server.curl("-X", "POST", "/books/_count", body=b'{"query":{"bool":{"must_not":{"match_all":{}}}}}'), (200, counted % 0)))
    check("count with a page", is_got(server.curl("-X", "POST", "/books/_count", body=b'{"size":1}'), error("Parsing", "query_fault", 400)))


def routes_of_deletes(server):
    check("delete with a condition", is_got(server.curl("-X", "DELETE", DOCUMENT + "?if_seq_no=1&if_primary_term=1"), CONFLICT))
    check("delete", is_wrote(server.curl("-X", "DELETE", DOCUMENT + "?refresh"), 200, 3, 4, "deleted"))
    check("delete again", is_wrote(server.curl("-X", "DELETE", DOCUMENT), 404, 4, 5, "not_found"))
    check("refresh=true shows a delete", "" if total(server.curl("/books/_search")) == 0 else "it finds something")
    check("create", is_wrote(server.curl("-X", "POST", "/books/_create/a%2Fb?refresh=true", body=b"{}"), 201, 5, 6, "created"))
    check("refresh=true shows a create", "" if total(server.curl("/books/_search")) == 1 else "it isn't found")


def routes_with_faults(server):
    check("bulk without an index in the path", is_got(server.curl("-X", "PUT", "/_bulk", body=b'{"delete":{"_index":"other","_id":"1"}}\n'),
          (200, b'{"errors":true,"items":[{"delete":{"_id":"1","_index":"other","error":{"reason":"NoIndex","type":"index_not_found_exception"},"status":404}}],"took":0}')))
    check("a document that isn't JSON", is_got(server.curl("-X", "PUT", DOCUMENT, body=b"{"), error("NotJson", "mapping_fault", 400)))
    check("a query that isn't known", is_got(server.curl("-X", "POST", "/books/_search", body=b'{"query":{"fuzzy":{}}}'), error("Parsing", "query_fault", 400)))


def routes_of_a_mapping():
    with tempfile.NamedTemporaryFile() as mapping:
        mapping.write(b'{"dynamic":"strict","properties":{"n":{"type":"long"}}}')
        mapping.flush()
        with Server("--mapping", mapping.name) as server:
            check("a field that isn't mapped", is_got(server.curl("-X", "PUT", "/books/_doc/1", body=b'{"m":1}'), error("Unmapped", "mapping_fault", 400)))
            check("a value of another type", is_got(server.curl("-X", "PUT", "/books/_doc/1", body=b'{"n":"x"}'), error("WrongValue", "mapping_fault", 400)))
            check("a value that is converted", "" if server.curl("-X", "PUT", "/books/_doc/1?refresh", body=b'{"n":"12"}')[0] == 201 else "it isn't taken")
            check("a range", "" if total(server.curl("-X", "POST", "/books/_search", body=b'{"query":{"range":{"n":{"gte":12,"lt":13}}}}')) == 1 else "it isn't found")


# A request, its status and the name of its fault ("" where there is none).
HOSTILE = [
    (b"GET * HTTP/1.1\r\n\r\n", 404, "NoRoute"),
    (b"GET https://x/books/_search HTTP/1.1\r\n\r\n", 404, "NoRoute"),
    (b"GET http://x HTTP/1.1\r\n\r\n", 404, "NoRoute"),
    (b"GET / HTTP/1.1\r\n\r\n", 404, "NoRoute"),
    (b"GET /books/_doc HTTP/1.1\r\n\r\n", 404, "NoRoute"),
    (b"GET /books/_doc/1/ HTTP/1.1\r\n\r\n", 404, "NoRoute"),
    (b"GET /books/%FF HTTP/1.1\r\n\r\n", 404, "NoRoute"),
    (b"PATCH /other/_search HTTP/1.1\r\n\r\n", 404, "NoIndex"),
    (b"GET /%FF/_search HTTP/1.1\r\n\r\n", 404, "NoIndex"),
    (b"GET //_search HTTP/1.1\r\n\r\n", 404, "NoIndex"),
    (b"PATCH /books/_doc/1?x=1 HTTP/1.1\r\n\r\n", 405, "BadMethod"),
    (b"get /books/_search HTTP/1.1\r\n\r\n", 405, "BadMethod"),
    (b"DELETE /books/_bulk?x HTTP/1.1\r\n\r\n", 405, "BadMethod"),
    (b"GET /books/_doc/%FF HTTP/1.1\r\n\r\n", 400, "BadParameter"),
    (b"GET /books/_search?pretty&pretty HTTP/1.1\r\n\r\n", 400, "BadParameter"),
    (b"GET /books/_search?q=x HTTP/1.1\r\n\r\n", 400, "BadParameter"),
    (b"GET /books/_doc/1?refresh=false HTTP/1.1\r\n\r\n", 400, "BadParameter"),
    (b"DELETE /books/_doc/1?refresh=wait_for HTTP/1.1\r\n\r\n", 400, "BadParameter"),
    (b"DELETE /books/_doc/1?if_seq_no=1 HTTP/1.1\r\n\r\n", 400, "BadParameter"),
    (b"DELETE /books/_doc/1?if_seq_no=+1&if_primary_term=1 HTTP/1.1\r\n\r\n", 400, "BadParameter"),
    (b"DELETE /books/_doc/1?if_seq_no=9223372036854775808&if_primary_term=1 HTTP/1.1\r\n\r\n", 400, "BadParameter"),
    (b"PUT /books/_doc/?if_seq_no=1&if_primary_term=1&op_type=create HTTP/1.1\r\n\r\n", 400, "BadParameter"),
    (b"PUT /books/_doc/ HTTP/1.1\r\n\r\n", 400, "IdEmpty"),
    (b"PUT /books/_doc/" + b"i" * 513 + b" HTTP/1.1\r\n\r\n", 400, "IdTooLong"),
    (b"PUT /books/_doc/1 HTTP/1.1\r\n\r\n", 400, "NotJson"),
    (b"PUT /books/_doc/1 HTTP/1.1\r\ncontent-length: 2\r\n\r\n[]", 400, "NotObject"),
    (b"POST /books/_search HTTP/1.1\r\ncontent-length: 1\r\n\r\n ", 400, "Parsing"),
    (b"GET /books/%5Fsearch HTTP/1.1\r\n\r\n", 200, ""),
    (b"GET /books/_count?pretty=x HTTP/1.1\r\ncontent-length: 00000\r\n\r\n", 200, ""),
    (b"POST /_bulk HTTP/1.1\r\n\r\n", 400, "BadBulk"),
    (b'POST /books/_bulk HTTP/1.1\r\ncontent-length: 24\r\n\r\n{"delete":{"_id":"a"}}\n{', 400, "BadBulk"),
    (b'POST /books/_bulk HTTP/1.1\r\ncontent-length: 22\r\n\r\n{"delete":{"_id":"a"}}', 400, "BadBulk"),
    (b'POST /_bulk HTTP/1.1\r\ncontent-length: 23\r\n\r\n{"delete":{"_id":"a"}}\n', 400, "BadBulk"),
    (b'POST /books/_bulk HTTP/1.1\r\ncontent-length: 22\r\n\r\n{"index":{"_id":"a"}}\n', 400, "BadBulk"),
    (b"GET / HTTP/1.1\r\ncontent-length: 1\r\ncontent-length: 2\r\n\r\n", 400, "BadHead"),
    (b"GET / HTTP/1.1\r\ncontent-length: 7, 7\r\n\r\n", 400, "BadHead"),
    (b"GET / HTTP/1.1\r\ncontent-length:\r\n\r\n", 400, "BadHead"),
    (b"GET / HTTP/1.1\r\ntransfer-encoding: chunked\r\ncontent-length: x\r\n\r\n", 400, "BadHead"),
    (b"GET / HTTP/1.1\r\ntransfer-encoding: identity\r\ncontent-length: 99999999999999999999999\r\n\r\n", 501, "TransferCoding"),
    (b"GET / HTTP/1.1\r\ncontent-length: 99999999999999999999999\r\n\r\n", 413, "BodyTooLarge"),
    (b"GET / HTTP/1.1\r\nname : value\r\n\r\n", 400, "BadHead"),
    (b"\n" * 16384, 400, "BadHead"),
]


def hostile():
    after = b"GET /books/_count HTTP/1.1\r\n\r\n"
    with Server() as server:
        for given, status, name in HOSTILE:
            ends = name in ("BadHead", "TransferCoding", "BodyTooLarge")
            got, wanted = server.ask(given + after), [(status, name)] if ends else [(status, name), (200, "")]
            try:
                why = "" if page_names(got) == wanted else f"{page_names(got)}, and wanted is {wanted}"
            except (ValueError, IndexError):
                why = f"{shown(got)} isn't pages"
            check(f"hostile {shown(given[:60])}", why)
        for closes in (b"HTTP/1.0\r\n", b"HTTP/1.1\r\nconnection: close\r\n", b"HTTP/1.1\r\nConnection: x, CLOSE\r\n"):
            got = server.ask(b"GET /books/_count " + closes + b"\r\n" + after)
            check(f"the last request of {closes}", "" if page_names(got) == [(200, "")] else shown(got))
        longest = b"PUT /books/_doc/1 HTTP/1.1\r\ncontent-length: 1048576\r\n\r\n" + b" " * 1048576
        check("a body of 1,048,576 bytes", "" if page_names(server.ask(longest)) == [(400, "TooLarge")] else "another page")
