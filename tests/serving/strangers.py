"""Requests of web pages and under names that aren't the server's, endpoints behind a type, and lines of refusals: spelled in plain text, and not read by anyone."""
import json
import tempfile
import threading
import time
from pathlib import Path

from checking import check, shown
from serving.browser import browsed
from serving.greeted import FIELDS
from serving.pages import PUT, Client, bodies, get_of, page_names, promote_of, put_of
from serving.server import SECONDS, Server, complains, ended, free_port, is_kept, other, ran

FOREIGN_ORIGIN = (b"HTTP/1.1 403 Forbidden\r\ncontent-type: application/json\r\ncontent-length: 71\r\n\r\n"
                  b'{"error":{"reason":"ForeignOrigin","type":"sender_fault"},"status":403}')
FOREIGN_HOST = (b"HTTP/1.1 421 Misdirected Request\r\ncontent-type: application/json\r\ncontent-length: 69\r\n\r\n"
                b'{"error":{"reason":"ForeignHost","type":"sender_fault"},"status":421}')
SEARCH = b"GET /books/_search HTTP/1.1\r\n\r\n"
COUNT = b"GET /books/_count HTTP/1.1\r\n\r\n"
REFRESH = b"POST /books/_refresh HTTP/1.1\r\n\r\n"
MOST_SECONDS = 5
REFUSALS = 5_000


def strangers():
    for words in ((), ("--greet",), ("--copies", 3), ("--greet", "--copies", 3)):
        foreign_origins(words)
        foreign_hosts(words)
    with Server() as server:
        server.ask(PUT)
        plain_hosts(server)
        smuggled(server)
    for words in ((), ("--greet",), ("--copies", 3)):
        allowed_origins(words)
    any_origin()
    own_names()
    faulty_options()
    browsed()
    typed_paths()
    untyped_paths()
    escaped_refusals()
    escaped_words()
    for copies in (1, 3):
        unread(copies)


def is_started(name, server):
    check(f"{name}: it starts", "" if server.listens else shown(server.process.stderr.read()))
    return server.listens


# Why a stranger is refused, by a server that greets.
SENTENCES = {"ForeignOrigin": "the request comes from a web page of another origin; --cors ORIGIN lets its pages ask",
             "ForeignHost": "the server isn't known under the name in the field host; --host-name NAME gives it this name"}


def with_fields(request, *fields):
    """A request with more fields in front of its others."""
    line, end, rest = request.partition(b"\r\n")
    return line + end + b"".join(it + b"\r\n" for it in fields) + rest


def signed(words, page):
    """The page of a server with these words: one that greets names the product, and says in a sentence why it refuses."""
    head, empty, body = page.partition(b"\r\n\r\n")
    error = json.loads(body).get("error")
    if "--greet" not in words:
        return page
    if error:
        why = SENTENCES[error["reason"]]
        error = {"name": error["reason"], "reason": why, "root_cause": [{"reason": why, "type": error["type"]}], "type": error["type"]}
        body = json.dumps({**json.loads(body), "error": error}, separators=(",", ":")).encode()
        head = head.rpartition(b" ")[0] + b" %d" % len(body)
    return head.replace(b"application/json", b"application/json; charset=UTF-8") + FIELDS + empty + body


def line_of(request):
    return request.split(b" HTTP/")[0].decode()


def post_of(target, text, *fields):
    return with_fields(b"POST %s HTTP/1.1\r\ncontent-length: %d\r\n\r\n%s" % (target, len(text), text), *fields)


BULK = b'{"delete":{"_id":"kept"}}\n{"index":{"_id":"new"}}\n{"n":2}\n'
ASKED = (put_of(b"new", b'{"n":2}'), put_of(b"kept?refresh=true", b'{"n":2}'), post_of(b"/books/_doc/new", b'{"n":2}', b"content-type: text/plain"),
         post_of(b"/books/_create/new", b'{"n":2}'), b"DELETE /books/_doc/kept HTTP/1.1\r\n\r\n", post_of(b"/books/_bulk?refresh=true", BULK, b"content-type: text/plain"),
         post_of(b"/_bulk", BULK), promote_of(b"1"), promote_of(b"2"), REFRESH, get_of(b"kept"), SEARCH, COUNT, post_of(b"/books/_search", b'{"query":{"match_all":{}}}'),
         b"GET / HTTP/1.1\r\n\r\n", b"GET /nothing/here HTTP/1.1\r\n\r\n", b"OPTIONS /books/_doc/kept HTTP/1.1\r\n\r\n")


def foreign_origins(words):
    """Whatever a page of another origin asks, it gets one page, and nothing is done."""
    with Server(*words) as server:
        server.ask(put_of(b"kept?refresh=true", b'{"n":1}'))
        for origin in (b"origin: http://a.example", b"Origin: null", b"ORIGIN: http://127.0.0.1:%d" % server.port, b"origin:"):
            for request in ASKED:
                got = server.ask(with_fields(request, origin))
                check(f"{words} {line_of(request)} with {origin.decode()}", other(got, signed(words, FOREIGN_ORIGIN)))
        is_as_it_was(f"{words} after pages of other origins", server)


def is_as_it_was(name, server):
    """The one document is there as it was written, no other is, and no copy was promoted: the next write has the next number of the first term."""
    got = bodies(server.ask(get_of(b"kept"), get_of(b"new"), COUNT, put_of(b"next", b"{}")))
    said = [got[0].get("_source"), got[1].get("found"), got[2].get("count"), (got[3].get("_seq_no"), got[3].get("_primary_term"))]
    is_kept(name, said, [{"n": 1}, False, 1, (1, 1)])


def plain_hosts(server):
    """A field `host` that names the server changes no page."""
    hosts = (b"x", b"localhost", b"LOCALHOST:9200", b"127.0.0.1:%d" % server.port, b"127.0.0.1", b"10.0.0.7:80", b"[::1]", b"[::1]:9200", b"single-word", b"x.localhost",
             b"a.b.LocalHost:80", b"")
    asked = (get_of(b"1"), get_of(b"9"), get_of(b"1?pretty"), COUNT, SEARCH, b"GET /other/_doc/1 HTTP/1.1\r\n\r\n", b"GET / HTTP/1.1\r\n\r\n", put_of(b"1", b"{"),
             b"OPTIONS /books/_doc/1 HTTP/1.1\r\n\r\n", b"HEAD /books/_doc/1 HTTP/1.1\r\n\r\n", post_of(b"/books/_search", b'{"query":{"fuzzy":{}}}'))
    for request in asked:
        wanted = server.ask(request)
        for host in hosts:
            check(f"{line_of(request)} with host {host.decode()}", other(server.ask(with_fields(request, b"host: " + host)), wanted))
    for wanted, request in ((b"HTTP/1.1 405 ", b"OPTIONS /books/_doc/1"), (b"HTTP/1.1 404 ", b"OPTIONS /")):
        got = server.ask(request + b" HTTP/1.1\r\nhost: localhost\r\n\r\n")
        check(f"{request.decode()} without an origin", "" if got.startswith(wanted) and b"access-control" not in got else shown(got))


def foreign_hosts(words):
    """A name with a dot that isn't the server's, as another site's name that leads to this machine: nothing is done."""
    with Server(*words) as server:
        server.ask(put_of(b"kept?refresh=true", b'{"n":1}'))
        for host in (b"index.example", b"index.example:9200", b"INDEX.EXAMPLE:%d" % server.port, b"localhost.a.example", b"127.0.0.1.a.example", b"xlocalhost.a", b"localhost.", b"1.2.3.x"):
            for request in ASKED[::3] if b":" in host else ASKED:
                got = server.ask(with_fields(request, b"host: " + host))
                check(f"{words} {line_of(request)} with host {host.decode()}", other(got, signed(words, FOREIGN_HOST)))
        for hosts in ((b"host: localhost", b"host: index.example"), (b"Host: index.example", b"Host: localhost")):
            got = server.ask(with_fields(put_of(b"new", b"{}"), *hosts))
            check(f"{words} two fields, {hosts}", other(got, signed(words, FOREIGN_HOST)))
        got = server.ask(with_fields(put_of(b"new", b"{}"), b"host: index.example", b"origin: http://index.example"))
        check(f"{words} an origin comes before a host", other(got, signed(words, FOREIGN_ORIGIN)))
        is_as_it_was(f"{words} after requests of other names", server)


ALLOWED = (b"http://a.example", b"https://b.example:8080", b"null")


def opened(page, origin):
    """A page that a browser hands to the pages of an origin."""
    end = FIELDS if FIELDS in page else b"\r\n\r\n"
    head, end, rest = page.partition(end)
    return head + b"\r\naccess-control-allow-origin: " + origin + b"\r\nvary: origin" + end + rest


def allowed_origins(words):
    """Pages of allowed origins get what others get, with the fields that a browser needs; those of other origins are refused."""
    options = [it for origin in ALLOWED for it in ("--cors", origin.decode())]
    with Server(*words, *options) as server:
        server.ask(PUT)
        asked = (get_of(b"1"), get_of(b"9"), COUNT, SEARCH, b"GET / HTTP/1.1\r\n\r\n", b"GET /other/_doc/1 HTTP/1.1\r\n\r\n", put_of(b"1", b"{"), b"PATCH / HTTP/1.1\r\n\r\n")
        for request in asked:
            page = server.ask(request)
            for origin in ALLOWED:
                got = server.ask(with_fields(request, b"origin: " + origin))
                check(f"{words} {line_of(request)} of {origin.decode()}", other(got, opened(page, origin)))
            for origin in (b"http://c.example", b"http://a.example:80", b"https://a.example", b"http://a.example/", b"HTTP://a.example", b"http://a.example b", b"*", b""):
                got = server.ask(with_fields(request, b"origin: " + origin))
                check(f"{words} {line_of(request)} of {origin.decode()}, which isn't allowed", other(got, signed(words, FOREIGN_ORIGIN)))
        for origins in ((ALLOWED[0], b"http://c.example"), (b"http://c.example", ALLOWED[0])):
            got = server.ask(with_fields(get_of(b"1"), *(b"origin: " + it for it in origins)))
            check(f"{words} two origins, one of them allowed", other(got, signed(words, FOREIGN_ORIGIN)))
        wrote = server.ask(with_fields(put_of(b"2", b"{}"), b"origin: " + ALLOWED[0]))
        check(f"{words} a page of an allowed origin writes", "" if wrote.startswith(b"HTTP/1.1 201 ") and b"\r\naccess-control-allow-origin: http://a.example\r\n" in wrote else shown(wrote))
        preflights(words, server)


def preflights(words, server):
    """What a browser asks before a page sends a request: the page of an allowed origin may, and nothing is done."""
    for target in (b"/books/_doc/1", b"/books/_bulk", b"/nothing", b"*"):
        request = b"OPTIONS %s HTTP/1.1\r\naccess-control-request-method: PUT\r\norigin: " % target
        got = server.ask(request + ALLOWED[1] + b"\r\n\r\n")
        fields = (b"access-control-allow-origin: https://b.example:8080", b"vary: origin", b"access-control-allow-methods: DELETE, GET, HEAD, POST, PUT",
                  b"access-control-allow-headers: authorization, *", b"access-control-max-age: 600", b"access-control-allow-private-network: true", b"content-length: 0")
        head = got.removesuffix(b"\r\n\r\n").split(b"\r\n")
        good = got.startswith(b"HTTP/1.1 200 OK\r\n") and all(head.count(it) == 1 for it in fields)
        check(f"{words} OPTIONS {target.decode()} of an allowed origin", "" if good else shown(got))
        got = server.ask(request + b"http://c.example\r\n\r\n")
        check(f"{words} OPTIONS {target.decode()} of another one", other(got, signed(words, FOREIGN_ORIGIN)))


def any_origin():
    with Server("--cors", "*") as server:
        for origin in (b"http://a.example", b"null", b"http://127.0.0.1:1", b""):
            got = server.ask(with_fields(get_of(b"1"), b"origin: " + origin))
            check(f"any origin, {origin.decode()}", other(got, opened(server.ask(get_of(b"1")), b"*")))
        check("any origin, and no field", "" if b"access-control" not in server.ask(get_of(b"1")) else "it has a field of a browser")
        got = server.ask(with_fields(get_of(b"1"), b"origin: http://a.example", b"host: a.example"))
        check("any origin under a name that isn't the server's", other(got, FOREIGN_HOST))


def own_names():
    with Server("--host-name", "index.example", "--host-name", "Other.Example") as server:
        page = server.ask(get_of(b"1"))
        for host in (b"index.example", b"INDEX.example:9200", b"other.example", b"localhost", b"x", b"127.0.0.1"):
            check(f"the server's name {host.decode()}", other(server.ask(with_fields(get_of(b"1"), b"host: " + host)), page))
        for host in (b"a.index.example", b"index.example.", b"index.example.a", b"ndex.example", b"a.example", b".example"):
            check(f"another name, {host.decode()}", other(server.ask(with_fields(put_of(b"1", b"{}"), b"host: " + host)), FOREIGN_HOST))
        got = server.ask(with_fields(put_of(b"1", b"{}"), b"host: index.example", b"host: a.example"))
        check("its name and another one", other(got, FOREIGN_HOST))
        is_kept("nothing was written under another name", page_names(server.ask(get_of(b"1"))), [(404, "")])


def faulty_options():
    """An origin that no browser sends and a name that no host has are refused at the start, by the option and the text."""
    for origin in ("a.example", "http://a.example/", "HTTP://a.example", "http://A.example", "http://", "://a.example", "http://a.example/x", "http://u@a.example", "http://*.example",
                   "http://a.example,http://b.example", "http://a b", "NULL", "", "**"):
        ended = ran("--port", free_port(), "--connections", 1, "--cors", "http://ok.example", f"--cors={origin}")
        complains(f"--cors {origin}", ended, 1, f"--cors {origin} is no origin")
    for name in ("a.example:9200", "http://a.example", "a.example/", "a example", "", "[::1]", "*.example"):
        ended = ran("--port", free_port(), "--connections", 1, "--host-name", "ok.example", f"--host-name={name}")
        complains(f"--host-name {name}", ended, 1, f"--host-name {name} is no name of a host")


def smuggled(server):
    """A request that is refused leaves its connection as it is: the next one is answered, and the body of the first isn't taken for one."""
    hidden = put_of(b"hidden", b"{}")
    for field, status, reason in ((b"origin: http://a.example", 403, "ForeignOrigin"), (b"host: index.example", 421, "ForeignHost")):
        for first in (get_of(b"1"), post_of(b"/books/_doc/1", hidden, b"content-type: text/plain"), post_of(b"/books/_bulk", hidden)):
            got = server.ask(with_fields(first, field) + get_of(b"1") + with_fields(first, field) + get_of(b"hidden"))
            check(f"{line_of(first)} and more at once, {reason}", "" if page_names(got) == [(status, reason), (200, ""), (status, reason), (404, "")] else shown(got))
            with Client(server) as client:
                got = [client.ask(it) for it in (with_fields(first, field), get_of(b"1"), put_of(b"1", b'{"n":1}'), with_fields(first, field))]
            said = [it.get("status", it.get("found", it.get("result"))) for it in got]
            is_kept(f"{line_of(first)} and more in turn, {reason}", said, [status, True, "updated", status])


TYPED_BODIES = {b"_search": b'{"query":{"match_all":{}}}', b"_count": b'{"query":{"match_all":{}}}', b"_bulk": BULK, b"_mget": b'{"ids":["1"]}'}
TYPED = [*((method, b"/books/_doc/" + name) for name in TYPED_BODIES for method in (b"GET", b"POST", b"PUT", b"DELETE")), (b"POST", b"/books/_doc/_search?size=1"),
         (b"POST", b"/books/_doc/%5Fbulk"), (b"PUT", b"/books/_doc/_bulk?refresh=true"), (b"GET", b"/books/_doc/_count?pretty"), (b"POST", b"http://x/books/_doc/_mget")]


def typed_of(method, target):
    body = TYPED_BODIES.get(target.rpartition(b"/")[2], b"{}")
    body = body if method != b"GET" else b""
    return b"%s %s HTTP/1.1\r\ncontent-length: %d\r\n\r\n%s" % (method, target, len(body), body)


def typed_paths():
    """With --greet an endpoint behind a type, as older clients ask for it, is refused by name, and no document takes its place."""
    for copies in (1, 3):
        with Server("--greet", "--copies", copies) as server:
            for method, target in TYPED:
                got = server.ask(typed_of(method, target))
                body = got.partition(b"\r\n\r\n")[2]
                error = json.loads(body or b"{}").get("error", {})
                good = got.startswith(b"HTTP/1.1 400 Bad Request\r\n") and (error.get("name"), error.get("type")) == ("TypeInPath", "illegal_argument_exception")
                check(f"{copies} copies: {method.decode()} {target.decode()} with --greet", "" if good else shown(got))
            got = bodies(server.ask(REFRESH + COUNT + SEARCH + put_of(b"_source", b"{}")))
            is_kept(f"{copies} copies: no document is written", [got[1].get("count"), got[2]["hits"]["hits"], got[3].get("_seq_no")], [0, [], 0])


def untyped_paths():
    """Without --greet such a path is that of a document."""
    with Server() as server:
        for name in (b"_search", b"_count", b"_bulk", b"_mget"):
            got = server.ask(get_of(name) + post_of(b"/books/_doc/" + name, b'{"n":1}') + get_of(name) + put_of(name, b'{"n":2}') + get_of(name))
            said = [(it.get("_id"), it.get("result"), it.get("_source")) for it in bodies(got)]
            id = name.decode()
            is_kept(f"a document {id}", said, [(id, None, None), (id, "created", None), (id, None, {"n": 1}), (id, "updated", None), (id, None, {"n": 2})])


ODD = "a\x1b[31m\x07\n\x9b\u202eb"
SPELLED = r"a\u{1b}[31m\u{7}\u{a}\u{9b}\u{202e}b"
SPELLED_VALUE = r'"a\u001b[31m\u0007\n\u{9b}\u{202e}b"'
RAW = "a\x9b\u202eb"
SPELLED_RAW = r"a\u{9b}\u{202e}b"


def stays_plain(text):
    """Whether no character of a text moves a cursor, begins a line or turns one."""
    return not any(ord(it) < 32 or 127 <= ord(it) < 160 or it in "\u061c\u200e\u200f\u2028\u2029\u202a\u202b\u202c\u202d\u202e\u2066\u2067\u2068\u2069" for it in text)


def odd_requests():
    """Requests that are refused, with what the line of each has to spell."""
    key, raw = json.dumps({ODD: 1}).encode(), json.dumps({RAW: 1}, ensure_ascii=False).encode()
    yield put_of(b"1", key), SPELLED
    yield put_of(b"1", raw), SPELLED_RAW
    yield put_of(b"1", json.dumps({"n": ODD}).encode()), SPELLED_VALUE
    yield put_of(b"1", json.dumps({"o": {ODD: {}}}).encode()), SPELLED
    yield post_of(b"/books/_bulk", b'{"index":{"_id":"1"}}\n' + key + b"\n"), SPELLED
    for query in ({ODD: {}}, {"term": {"o": {ODD: 1}}}, {"range": {"n": {ODD: 1}}}, {"bool": {ODD: []}}):
        yield post_of(b"/books/_search", json.dumps({"query": query}).encode()), SPELLED
    yield post_of(b"/books/_search", json.dumps({ODD: 1}).encode()), SPELLED
    yield post_of(b"/books/_search", json.dumps({"query": {RAW: {}}}, ensure_ascii=False).encode()), SPELLED_RAW
    for target in ("/books/_nothing/" + RAW, "/" + RAW + "/_doc/1", "/books/_search?q=" + RAW):
        yield b"GET %s HTTP/1.1\r\n\r\n" % target.encode(), SPELLED_RAW
    for target in (b"/books/\x1b[31m", b"/books/\x07"):
        yield b"GET %s HTTP/1.1\r\n\r\n" % target, ""


def escaped_refusals():
    """A line has one refusal, and spells what would change how a terminal shows it."""
    requests = [*odd_requests()]
    with tempfile.TemporaryDirectory() as folder:
        mapping = Path(folder, "mapping.json")
        mapping.write_text(json.dumps({"dynamic": "strict", "properties": {"n": {"type": "long"}, "o": {"properties": {"k": {"type": "keyword"}}}}}))
        with Server("--mapping", mapping, "--explain") as server:
            for request, _ in requests:
                got = server.ask(request)
                check("an odd request is refused", "" if got.startswith(b"HTTP/1.1 4") or b'{"errors":true,' in got else shown(got))
            lines = server.errors_said(len(requests))
    check("a line for each odd request", "" if len(lines) == len(requests) else f"{len(lines)} lines of {len(requests)} requests: {ascii(lines[:4])}")
    for line, (request, spelled) in zip(lines, requests):
        good = stays_plain(line) and spelled in line and line.startswith("indexd: connection ")
        check(f"the line of {ascii(request.decode())}", "" if good else ascii(line))


def escaped_words():
    """What else names a word of the command line spells it too."""
    with tempfile.TemporaryDirectory() as folder:
        is_spelled("inspect of an odd name", ended("inspect", f"{folder}/a\x1b[31m\u202e.rsx"), 1, r"a\u{1b}[31m\u{202e}.rsx")
    for words in (("--port", "x\x1b[31m"), ("--port", "1", "--odd\x1b[31m"), ("--port", "1", "odd\x1b[31m"), ("--port", "1", "--sync", "odd\x1b[31m")):
        is_spelled(f"serve {ascii(words)}", ran(*words), 2, r"\u{1b}[31m")


def is_spelled(name, ran, status, spelled):
    text = (ran.stdout + ran.stderr).decode()
    good = ran.returncode == status and spelled in text and all(map(stays_plain, text.split("\n")))
    check(name, "" if good else f"status {ran.returncode}, {ascii(text[:300])}")


def unread(copies):
    """While nobody reads standard error the server answers all the same, and what it had no room for is counted for whoever reads it then."""
    request = b"GET /books/_nothing/here HTTP/1.1\r\n\r\n"
    with Server("--explain", "--copies", copies) as server:
        answered, slowest = refused_in_turn(server, request)
        name = f"{copies} copies, and nobody reads standard error"
        check(f"{name}: each request is answered in time", "" if answered == REFUSALS else f"{answered} of {REFUSALS} are answered")
        check(f"{name}: none waits", "" if slowest < MOST_SECONDS else f"one waits for {slowest:.1f} s")
        if answered < REFUSALS:
            return
        lines = read_lines(server, REFUSALS)
        told, counted = told_and_counted(lines)
        first = [it.split(" ", 3)[3] for it in lines[:100] if it.startswith("indexd: connection ")]
        check(f"{name}: the first lines are there", "" if len(first) == 100 and all(it.startswith("GET /books/_nothing/here: ") for it in first) else repr(lines[:2]))
        check(f"{name}: the others are counted", "" if counted > 0 and told + counted == REFUSALS else f"{told} lines and {counted} counted, {repr(lines[-2:])}")
        check(f"{name}: each line is one or the other", "" if sum(map(is_count, lines)) + told == len(lines) else repr(lines[-3:]))
        got = page_names(server.ask(request + PUT))
        is_kept(f"{name}: it answers once all is read", got, [(404, "NoRoute"), (201, "")])
        is_kept(f"{name}: and tells why", len(read_lines(server, 1)), 1)


def refused_in_turn(server, request):
    """How many requests are answered within the time for each, over one connection, and how long the slowest takes."""
    slowest = 0
    with Client(server) as client:
        client.connection.settimeout(MOST_SECONDS)
        for answered in range(REFUSALS):
            begun = time.monotonic()
            try:
                client.ask(request)
            except OSError:
                return answered, MOST_SECONDS
            slowest = max(slowest, time.monotonic() - begun)
    return REFUSALS, slowest


def is_count(line):
    words = line.split(" ")
    return words[:2] == ["indexd:", "and"] and words[2].isdigit() and words[3:] == ["more", "lines,", "which", "nobody", "read", "in", "time"]


def told_and_counted(lines):
    """How many refusals have a line, and how many more are counted."""
    return sum(it.startswith("indexd: connection ") for it in lines), sum(int(it.split(" ")[2]) for it in lines if is_count(it))


def read_lines(server, refusals):
    """The lines of standard error until they tell of so many refusals, or no more come in time."""
    late = threading.Timer(SECONDS, server.process.kill)
    late.start()
    lines = []
    while sum(told_and_counted(lines)) < refusals and (line := server.process.stderr.readline()):
        lines.append(line.decode(errors="replace").removesuffix("\n"))
    late.cancel()
    return lines
