"""`serve --greet`: the client class of Debian's python3-elasticsearch as its users have it, the pages that it is greeted by, and what stays without the word."""
import json
import os
import socket
import subprocess
import tempfile
from pathlib import Path

from checking import check, shown
from serving.libraries import libraries
from serving.pages import PUT, bodies, get_of, page_names, put_of
from serving.server import SECONDS, Server, complains, ended, is_kept, other

PYTHON = "/usr/bin/python3"
CLIENT = """
import sys
from elasticsearch import ConflictError, Elasticsearch, NotFoundError, RequestError, helpers
es = Elasticsearch("http://127.0.0.1:" + sys.argv[1])
def fails(kind, ask, **words):
    try:
        ask(**words)
    except kind as fault:
        return fault.status_code, fault.info["error"]["type"] if "error" in fault.info else fault.info.get("result", fault.info.get("found"))
def found(**words):
    got = es.search(index="books", **words)["hits"]
    return got["total"]["value"], sorted(it["_id"] for it in got["hits"])
print(es.ping(), es.info()["version"]["number"], es.info(pretty=True)["tagline"])
print(es.indices.exists(index="books"), es.indices.exists(index="other"))
print(es.exists(index="books", id="1"))
print(es.index(index="books", id="1", document={"title": "Faust", "year": 1808}, refresh="wait_for")["result"])
print(es.exists(index="books", id="1"))
got = es.get(index="books", id="1")
print(got["_source"], got["_version"])
print(found(query={"match": {"title": "faust"}}), es.count(index="books")["count"])
print(es.create(index="books", id="2", document={"title": "Die Räuber"}, refresh=True)["result"])
print(fails(ConflictError, es.create, index="books", id="2", document={}))
print(es.index(index="books", id="1", document={"title": "Faust II"}, if_seq_no=got["_seq_no"], if_primary_term=got["_primary_term"])["_version"])
print(fails(ConflictError, es.index, index="books", id="1", document={}, if_seq_no=got["_seq_no"], if_primary_term=got["_primary_term"]))
many = [{"_index": "books", "_id": "m%d" % it, "year": it} for it in range(300)] + [{"_op_type": "delete", "_index": "books", "_id": "m0"}]
print(helpers.bulk(es, many, chunk_size=100, refresh="wait_for"))
print(es.count(index="books", body={"query": {"prefix": {"title": "rä"}}})["count"], es.count(index="books", body={"query": {"range": {"year": {"lt": 1808}}}})["count"])
done, refused = helpers.bulk(es, [{"_op_type": "create", "_id": "2"}, {"_op_type": "create", "_id": "3"}], index="books", refresh="wait_for", raise_on_error=False)
print(done, [it["create"]["status"] for it in refused])
print(es.delete(index="books", id="2", refresh="wait_for")["result"])
print(fails(NotFoundError, es.delete, index="books", id="2"))
print(fails(NotFoundError, es.get, index="books", id="2"))
print(fails(NotFoundError, es.get, index="other", id="1"))
print(fails(RequestError, es.search, index="books", query={"nothing": {}}))
print(es.indices.refresh(index="books")["_shards"]["failed"])
print(found(query={"range": {"year": {"gte": 297}}}))
"""
CLIENT_OUTPUT = """True 7.10.2 You Know, for Search
True False
False
created
True
{'title': 'Faust', 'year': 1808} 1
(1, ['1']) 1
created
(409, 'version_conflict_engine_exception')
2
(409, 'version_conflict_engine_exception')
(301, [])
1 299
1 [409]
deleted
(404, 'not_found')
(404, False)
(404, 'index_not_found_exception')
(400, 'parsing_exception')
0
(3, ['m297', 'm298', 'm299'])
"""


PERL = r"""
use strict;
use warnings;
use Search::Elasticsearch;
my $port = shift;
my $es = Search::Elasticsearch->new(nodes => "127.0.0.1:$port");
my %at = (index => "books");
sub fault { my ($ask) = @_; eval { $ask->(); 1 } and return "none"; (my $kind = ref $@) =~ s/.*:://; return $kind }
print $es->ping, " ", $es->info->{version}{number}, "\n";
print $es->indices->exists(%at) ? "there" : "not there", "\n";
print $es->index(%at, id => 1, body => {title => "Faust", year => 1808}, refresh => "wait_for")->{result}, "\n";
print $es->get(%at, id => 1)->{_source}{title}, "\n";
print $es->exists(%at, id => 2) ? "there" : "not there", "\n";
print fault(sub { $es->create(%at, id => 1, body => {}) }), "\n";
print fault(sub { $es->get(%at, id => 2) }), "\n";
print fault(sub { $es->search(%at, body => {query => {nothing => {}}}) }), "\n";
print fault(sub { $es->get_source(%at, id => 1) }), "\n";
print $es->search(%at, body => {query => {match => {title => "faust"}}})->{hits}{total}{value}, "\n";
my $bulk = $es->bulk_helper(%at, refresh => "true");
$bulk->index(map { {id => "m$_", source => {year => $_}} } 1 .. 300);
$bulk->delete_ids("m1");
$bulk->flush;
print $es->count(%at)->{count}, "\n";
print $es->delete(%at, id => 1)->{result}, "\n";
"""
PERL_OUTPUT = """1 7.10.2
there
created
Faust
not there
Conflict
Missing
Request
Request
1
300
deleted
"""
PRODUCT = b"\r\nx-elastic-product: Elasticsearch"
# The fields that each page has last.
FIELDS = PRODUCT + b"\r\nkeep-alive: timeout=59"
EMPTY = b"\r\n\r\n"
MAPPING = {"dynamic": False, "properties": {"title": {"type": "text"}, "year": {"type": "long"}}}


def mapping_in(folder):
    mapping = Path(folder, "mapping.json")
    mapping.write_text(json.dumps(MAPPING))
    return mapping


def has_library(*words):
    """Whether a program that loads a library ends well."""
    try:
        return subprocess.run(words, capture_output=True).returncode == 0
    except OSError:
        return False


def runs(language, program, copies, text, wanted):
    """What a program prints that uses a client library over an index of this many copies."""
    with tempfile.TemporaryDirectory() as folder, Server("--greet", "--copies", copies, "--mapping", mapping_in(folder)) as server:
        ran = subprocess.run([program, "-", str(server.port)], input=text.encode(), capture_output=True, timeout=SECONDS, env={**os.environ, "PYTHONIOENCODING": "utf-8"})
        lines, good = (ran.stdout + ran.stderr[-500:]).decode(errors="replace").splitlines(), wanted.splitlines()
        check(f"{copies} copies: as many lines of the library for {language}", "" if len(lines) == len(good) else repr(lines[-2:]))
        for got, line in zip(lines, good):
            check(f"{copies} copies: the library for {language}", other(got.encode(), line.encode()))


def greeted():
    has = has_library(PYTHON, "-c", "import elasticsearch")
    check("python3-elasticsearch is installed", "" if has else "its client class can't be imported: apt-get install python3-elasticsearch")
    for copies in (1, 3) if has else ():
        runs("Python", PYTHON, copies, CLIENT, CLIENT_OUTPUT)
    if has_library("perl", "-MSearch::Elasticsearch", "-e", "1"):
        runs("Perl", "perl", 1, PERL, PERL_OUTPUT)
    else:
        print("skipped the library for Perl: libsearch-elasticsearch-perl isn't installed")
    with Server("--greet") as server:
        server.ask(PUT)
        greetings(server)
        signed_pages(server)
        heads(server)
        waits(server)
        idle_parameters(server)
        loose_bulks(server)
        pages_in_targets(server)
        sentences(server)
        item_sentences(server)
        typed(server)
    for copies in (1, 3):
        reported(copies)
    libraries()
    large_bulks()
    with Server("--greet", "--idle-s", 1) as server:
        got = server.ask(get_of(b"1"))
        check("with --idle-s 1 no page says how long to keep a connection", "" if b"keep-alive" not in got and PRODUCT in got else shown(got))
    with Server() as server:
        server.ask(PUT)
        ungreeted(server)
    reasons()


def greetings(server):
    """The page of `GET /` has keys in byte order and no spaces; it has the parameters of a GET of a document, and other methods have none."""
    for target in (b"/", b"/?pretty", b"http://localhost/"):
        got = server.ask(b"GET %s HTTP/1.1\r\n\r\n" % target)
        head, _, body = got.partition(b"\r\n\r\n")
        named = json.loads(body or b"{}")
        sorted_text = json.dumps(named, sort_keys=True, separators=(",", ":")).encode()
        good = head.startswith(b"HTTP/1.1 200 OK\r\n") and body == sorted_text and named.get("version", {}).get("number") == "7.10.2"
        check(f"GET {target.decode()}", "" if good else shown(got))
    got = server.ask(b"GET /?q=x HTTP/1.1\r\n\r\n")
    check("GET /?q=x", "" if page_names(got) == [(400, "BadParameter")] else shown(got))
    for request in (b"POST /", b"POST /books", b"GET /other", b"PUT /other", b"PUT /books/_mapping", b"GET /books/_source/1", b"POST /books/_delete_by_query", b"GET /_cat/nodes", b"GET *",
                    b"GET /_cluster/state", b"GET /other/_mapping", b"POST /_cluster/health", b"GET /books/_stats/docs", b"PUT /_metrics"):
        got = server.ask(request + b" HTTP/1.1\r\n\r\n")
        check(f"{request.decode()}, which no library takes for a missing document", "" if page_names(got) == [(400, "NoHandler")] else shown(got))
    for target in (b"/books", b"/b%6foks", b"/books?timeout=1m", b"http://localhost/books"):
        got = server.ask(b"PUT %s HTTP/1.1\r\n\r\n" % target)
        check(f"PUT {target.decode()}", other(got, sentence_page(400, "IndexExists", "resource_already_exists_exception", "index [books] already exists")))
    for target in (b"/books/_doc/9", b"/other/_doc/1"):
        got = server.ask(b"GET %s HTTP/1.1\r\n\r\n" % target)
        check(f"GET {target.decode()} is still not found", "" if got.startswith(b"HTTP/1.1 404 ") else shown(got))


def sentence_page(status, name, kind, sentence):
    """The page of a fault, as a server that greets spells it."""
    error = {"name": name, "reason": sentence, "root_cause": [{"reason": sentence, "type": kind}], "type": kind}
    body = json.dumps({"error": error, "status": status}, separators=(",", ":"), ensure_ascii=False).encode()
    reason = {400: b"Bad Request", 404: b"Not Found", 409: b"Conflict", 413: b"Content Too Large", 415: b"Unsupported Media Type", 503: b"Service Unavailable"}[status]
    return b"HTTP/1.1 %d %s\r\ncontent-type: application/json; charset=UTF-8\r\ncontent-length: %d%s\r\n\r\n%s" % (status, reason, len(body), FIELDS, body)


TOO_LARGE = "the body has more than 1,048,576 bytes; with --greet a bulk may have as many as --body-mb says"
# Requests that are refused, with the status, the name, the type and the sentence of their pages.
SENTENCES = (
    (put_of(b"s", b"[]"), 400, "NotObject", "mapper_parsing_exception", "not an object"),
    (b"POST /books/_search HTTP/1.1\r\ncontent-length: 26\r\n\r\n" + b'{"query":{"mach":{"a":1}}}', 400, "Parsing", "parsing_exception", "bad query: mach: this query isn't known"),
    (b"GET /books/_search?sort=%22x%22 HTTP/1.1\r\n\r\n", 400, "BadParameter", "illegal_argument_exception", "the parameter sort isn't known"),
    (b"GET /other/_search HTTP/1.1\r\n\r\n", 404, "NoIndex", "index_not_found_exception", "another index is served here, which is named books"),
    (b"PUT /books/_doc/s HTTP/1.1\r\ncontent-length: 1048577\r\n\r\n" + b" " * 1048577, 413, "BodyTooLarge", "size_fault", TOO_LARGE),
    (b"POST /books/_bulk HTTP/1.1\r\ncontent-length: 33554433\r\n\r\n", 413, "BodyTooLarge", "size_fault", TOO_LARGE),
    (b"POST /books/_search HTTP/1.1\r\ncontent-encoding: gzip\r\ncontent-length: 2\r\n\r\n{}", 415, "EncodedBody", "content_encoding", "the body has a content-encoding, and none is read here"),
    (put_of(b"1?op_type=create", b"{}"), 409, "VersionConflict", "version_conflict_engine_exception", "the document has other numbers than the write asks for, or it is there already"),
    (b"POST /books/_promote/1 HTTP/1.1\r\n\r\n", 503, "IsPrimary", "unavailable_shards_exception", "the copy is the primary"))


def sentences(server):
    """The page of a refused request has a sentence, in JSON's spelling, and Elasticsearch's type."""
    for request, status, name, kind, sentence in SENTENCES:
        check(f"the sentence of {name}", other(server.ask(request), sentence_page(status, name, kind, sentence)))
    got = bodies(server.ask(b"GET /books/_source/1 HTTP/1.1\r\n\r\n"))[0]["error"]
    good = got["reason"].startswith("no handler found for uri [/books/_source/1] and method [GET]: ") and got["type"] == "illegal_argument_exception"
    check("the sentence of NoHandler", "" if good else repr(got))
    got = bodies(server.ask(put_of(b"s", b'"')))[0]["error"]
    check("the sentence of NotJson", "" if got["reason"].startswith("not JSON: ") and got["root_cause"] == [{"reason": got["reason"], "type": got["type"]}] else repr(got))
    got = bodies(server.ask(bulk_of(b'{"index":{"_id":"1"}}\n{}\n{"update":{"_id":"1"}}\n{}\n')))[0]["error"]
    check("the sentence of BadBulk", "" if "line 3" in got["reason"] and got["type"] == "illegal_argument_exception" else repr(got))


def item_sentences(server):
    """An item of a bulk that is refused has a sentence, Elasticsearch's type, and the type of its document."""
    got = bodies(server.ask(bulk_of(b'{"create":{"_id":"1"}}\n{}\n{"index":{"_id":"i1"}}\n{"n":\n{"delete":{"_id":"i1","_index":"other"}}\n{"index":{"_id":"i1"}}\n{}\n')))[0]
    items = [list(it.values())[0] for it in got["items"]]
    wanted = [(409, "VersionConflict", "version_conflict_engine_exception", "the document has other numbers"), (400, "NotJson", "mapper_parsing_exception", "not JSON: "),
              (404, "NoIndex", "index_not_found_exception", "another index is served here, which is named books"), (201, "", "", "")]
    for item, (status, name, kind, words) in zip(items, wanted):
        error = item.get("error", {"name": "", "type": "", "reason": ""})
        good = item["status"] == status and item["_type"] == "_doc" and (error["name"], error["type"]) == (name, kind) and error["reason"].startswith(words)
        check(f"the item of a bulk that is {name or 'done'}", "" if good else repr(item))


def typed(server):
    """Each document has Elasticsearch 7's type, and JSON names its charset."""
    server.ask(put_of(b"typed?refresh=true", b'{"n":1}'))
    one = bodies(server.ask(put_of(b"typed", b'{"n":1}'), get_of(b"typed"), get_of(b"no-such"), b"DELETE /books/_doc/no-such HTTP/1.1\r\n\r\n"))
    found = bodies(server.ask(search_of(b"", b'{"size":1}')))[0]["hits"]["hits"]
    check("documents have a type", "" if all(it.get("_type") == "_doc" for it in (*one, *found)) and len(found) == 1 else repr((one, found)))
    got = server.ask(get_of(b"typed"))
    check("JSON names its charset", "" if b"\r\ncontent-type: application/json; charset=UTF-8\r\n" in got else shown(got))


def reported(copies):
    """What a server says of its index: its mapping and settings, how its copies stand, and the same figures as lines and for Prometheus."""
    mapping = {"dynamic": "strict", "properties": {"a": {"type": "long"}, "o": {"properties": {"k": {"type": "keyword"}, "p": {"properties": {"b": {"type": "boolean"}}}}}, "t": {"type": "text"}}}
    with tempfile.TemporaryDirectory() as folder:
        Path(folder, "mapping.json").write_text(json.dumps(mapping))
        with Server("--greet", "--copies", copies, "--mapping", Path(folder, "mapping.json")) as server:
            server.ask(*(put_of(b"%d" % it, b'{"a":1}') for it in range(5)), b"POST /books/_refresh HTTP/1.1\r\n\r\n")
            settings = {"index": {"number_of_replicas": str(copies - 1), "number_of_shards": "1", "provided_name": "books", "uuid": "_na_"}}

            def body(target):
                return bodies(server.ask(b"GET %s HTTP/1.1\r\n\r\n" % target))[0]

            is_kept(f"{copies} copies: GET /books", body(b"/books"), {"books": {"aliases": {}, "mappings": mapping, "settings": settings}})
            is_kept(f"{copies} copies: GET /books/_mapping", body(b"/books/_mapping"), {"books": {"mappings": mapping}})
            is_kept(f"{copies} copies: GET /b%6foks/_settings", body(b"/b%6foks/_settings"), {"books": {"settings": settings}})
            health = body(b"/_cluster/health?timeout=1s")
            said = {it: health[it] for it in ("status", "active_shards", "active_primary_shards", "unassigned_shards", "active_shards_percent_as_number")}
            is_kept(f"{copies} copies: GET /_cluster/health", said, {"status": "green", "active_shards": copies, "active_primary_shards": 1, "unassigned_shards": 0, "active_shards_percent_as_number": 100.0})
            stats = body(b"/books/_stats")
            shards = stats["indices"]["books"]["shards"]["0"]
            is_kept(f"{copies} copies: the documents and copies of _stats", (stats["_all"]["primaries"]["docs"]["count"], stats["_shards"], len(shards)), (5, {"failed": 0, "successful": copies, "total": copies}, copies))
            leads = [it for it in shards if it["routing"]["primary"]]
            is_kept(f"{copies} copies: the primary of _stats", [(it["routing"], it["in_sync"], it["primary_term"], it["refresh"]["records"] >= 5, it["segments"]["count"] >= 1, it["seq_no"]) for it in leads],
                    [({"node": "1", "primary": True, "state": "STARTED"}, True, 1, True, True, {"global_checkpoint": 4, "local_checkpoint": 4, "max_seq_no": 4})])
            for target, wanted in ((b"/_cat/health", b"- - indexd green 1 1 %d 1 0 0 0 0 - 100.0%%\n" % copies), (b"/_cat/indices", b"green open books _na_ 1 %d 5 - - -\n" % (copies - 1))):
                got = server.ask(b"GET %s HTTP/1.1\r\n\r\n" % target)
                check(f"{copies} copies: GET {target.decode()}", "" if got.endswith(EMPTY + wanted) and b"\r\ncontent-type: text/plain; charset=UTF-8\r\n" in got else shown(got))
            got = server.ask(b"GET /_metrics HTTP/1.1\r\n\r\n").partition(EMPTY)[2].decode().splitlines()
            good = 'indexd_documents{index="books"} 5' in got and 'indexd_copy_global_checkpoint{index="books",copy="1"} 4' in got and len(got) == 3 + 9 * copies
            check(f"{copies} copies: GET /_metrics", "" if good else repr(got))
            for target in (b"/books?q=x", b"/_cluster/health?wait_for_status=green", b"/_cat/health?v", b"/books/_stats?size=1"):
                got = server.ask(b"GET %s HTTP/1.1\r\n\r\n" % target)
                check(f"GET {target.decode()}", "" if page_names(got) == [(400, "BadParameter")] else shown(got))


def large_bulks():
    """A bulk may be larger than other requests, up to its limit; and a client may wait until it is asked for a body."""
    line = b'{"index":{"_id":"%06d"}}\n{"text":"%s"}\n'
    body = b"".join(line % (it, b"x" * 1000) for it in range(1900))
    with Server("--greet", "--body-mb", 2) as server:
        got = bodies(server.ask(bulk_of(body), b"POST /books/_refresh HTTP/1.1\r\n\r\n", b"GET /books/_count HTTP/1.1\r\n\r\n"))
        check("a bulk of nearly 2 MB", "" if got[0].get("errors") is False and got[2].get("count") == 1900 else repr(got)[:300])
        got = server.ask(bulk_of(body * 2))
        check("a bulk of nearly 4 MB, with --body-mb 2", "" if page_names(got) == [(413, "BodyTooLarge")] else shown(got))
        expecting(server, b"POST /books/_bulk", body)
    complains("--body-mb without --greet", ended("serve", "--port", "9", "--body-mb", "2"), 2, "--greet")
    with Server() as server:
        expecting(server, b"PUT /books/_doc/e", b"{}")
        got = server.ask(bulk_of(body))
        check("a bulk of nearly 2 MB without --greet", "" if page_names(got) == [(413, "BodyTooLarge")] else shown(got))


def expecting(server, line, body):
    """A client that waits until it is asked for a body: it is asked once; whoever sends its body at once, or a request of HTTP/1.0, isn't."""
    head = line + b" HTTP/1.%d\r\nexpect: 100-Continue\r\ncontent-length: %d\r\n\r\n"
    asked = b"HTTP/1.1 100 Continue\r\n\r\n"
    with server.connect() as sent:
        sent.sendall(head % (1, len(body)))
        got = sent.recv(len(asked), socket.MSG_WAITALL)
        check(f"{line.decode()} is asked for its body", other(got, asked))
        sent.sendall(body[:1])
        sent.sendall(body[1:] + get_of(b"nothing"))
        sent.shutdown(socket.SHUT_WR)
        rest = b"".join(iter(lambda: sent.recv(65536), b""))
        check(f"{line.decode()} is asked once", "" if [it for it, _ in page_names(rest)] in ([200, 404], [201, 404]) else shown(rest))
    got = server.ask(head % (1, len(body)) + body)
    check(f"{line.decode()} with its body isn't asked", "" if page_names(got) in ([(200, "")], [(201, "")]) else shown(got))
    got = server.ask(head % (0, len(body)), body, pause=0.2)
    check(f"{line.decode()} of HTTP/1.0 isn't asked", "" if page_names(got) in ([(200, "")], [(201, "")]) else shown(got))
    got = server.ask(line + b" HTTP/1.1\r\nexpect: 100-continue\r\ncontent-length: 99999999999\r\n\r\n")
    check(f"{line.decode()} that is too large is refused at once", "" if page_names(got) == [(413, "BodyTooLarge")] else shown(got))


def signed_pages(server):
    """Each page names the product, whatever was asked."""
    for request in (b"GET /", b"GET /books/_doc/1", b"GET /books/_doc/9", b"PATCH /books/_doc/1", b"HEAD /books", b"HEAD /books/_doc/1", b"GET /nothing", b"GET /books/_search", b"nothing",
                    b"POST /books/_doc/1"):
        got = server.ask(request + b" HTTP/1.1\r\n\r\n")
        check(f"{request.decode()} names the product", "" if PRODUCT in got.partition(b"\r\n\r\n")[0] and got.count(PRODUCT) == 1 else shown(got))


def heads(server):
    """A HEAD has the status line and the fields of the page of its GET and no body, and the next request is answered."""
    following = server.ask(get_of(b"1"))
    for target in (b"/", b"/books/_doc/1", b"/books/_doc/9", b"/other/_doc/1", b"/books/_count", b"/books/_mapping", b"/_cluster/health", b"/_cat/indices", b"/books/_bulk", b"/_bulk", b"/books/nothing/here", b"/books/_search?q=x"):
        page = server.ask(b"GET %s HTTP/1.1\r\n\r\n" % target)
        check(f"HEAD {target.decode()}", other(server.ask(b"HEAD %s HTTP/1.1\r\n\r\n" % target + get_of(b"1")), page.partition(EMPTY)[0] + EMPTY + following))
    for target, status in ((b"/books", b"200 OK"), (b"/b%6foks?pretty", b"200 OK"), (b"/other", b"404 Not Found"), (b"/books?q=x", b"400 Bad Request")):
        got = server.ask(b"HEAD %s HTTP/1.1\r\n\r\n" % target + get_of(b"1"))
        good = got.startswith(b"HTTP/1.1 %s\r\n" % status) and got.endswith(FIELDS + EMPTY + following) and got.count(EMPTY) == 2
        check(f"HEAD {target.decode()}", "" if good else shown(got))
    got = server.ask(b"HEAD /books/_doc/1 HTTP/1.1\r\n\r\n") and server.ask(get_of(b"1"))
    check("a HEAD changes nothing", "" if page_names(got) == [(200, "")] else shown(got))


def waits(server):
    """A refresh that is waited for is one that is done, for a write and for a bulk, wherever the parameter stands; nowhere else is there one."""
    count = b"GET /books/_count HTTP/1.1\r\n\r\n"
    for place in (b"w1?refresh=wait_for", b"w2?pretty&refresh=wait_for", b"w3?refresh=wait_for&op_type=index"):
        before = json.loads(server.ask(count).partition(b"\r\n\r\n")[2])["count"]
        got = server.ask(put_of(place, b"{}") + count)
        after = json.loads(got.rpartition(b"\r\n\r\n")[2])["count"]
        check(f"PUT /books/_doc/{place.decode()} is shown", "" if after > before else shown(got))
    for request in (get_of(b"1?refresh=wait_for"), b"POST /books/_search?refresh=wait_for HTTP/1.1\r\n\r\n", put_of(b"1?refresh=wait_for&refresh=true", b"{}"),
                    put_of(b"1?refresh=waits", b"{}"), put_of(b"1?op_type=wait_for", b"{}")):
        got = server.ask(request)
        check(request.split(b" HTTP")[0].decode(), "" if page_names(got) == [(400, "BadParameter")] else shown(got))


def bulk_of(lines):
    return b"POST /books/_bulk HTTP/1.1\r\ncontent-length: %d\r\n\r\n%s" % (len(lines), lines)


# Bulks as other programs write them, and the status of each item.
LOOSE = (
    (b'\n\r\n{"index":{"_id":"l1"}}\n{"year":1}\n\n\r\n{"create":{"_id":"l2"}}\r\n{"year":2}\r\n\r\n{"delete":{"_id":"l1"}}\n\n\r\n', [201, 201, 200]),
    (b'{"index":{"_type":"_doc","_id":"l3"}}\n{"year":3}\n{"delete":{"_id":"l3","_type":"_doc","_index":"books"}}\n', [201, 200]),
    (b'{"index":{"_id":"l4"}}\n\n{"index":{"_id":"l4"}}\n{"year":4}\n', [400, 201]))
# Bulks that are refused as a whole.
BAD_BULKS = (b"\n", b"\n\r\n\n", b" \n", b'{"delete":{"_id":"l"}}\n \n', b'{"delete":{"_id":"l"}}\n\r', b'{"index":{"_id":"l"}}\n', b'{"delete":{"_id":"l","_type":"book"}}\n',
             b'{"delete":{"_id":"l","_type":""}}\n', b'{"delete":{"_id":"l","_type":1}}\n', b'{"delete":{"_id":"l","_type":null}}\n', b'{"delete":{"_id":"l","_Type":"_doc"}}\n')


def loose_bulks(server):
    """Empty lines before an action line and at the end are read over, and so is the type `_doc`. An empty line in the place of a document is its source."""
    for lines, wanted in LOOSE:
        got = server.ask(bulk_of(lines))
        items = [list(it.values())[0] for it in bodies(got)[0].get("items", [])]
        check(f"the bulk {lines!r}", "" if [it["status"] for it in items] == wanted else shown(got))
    for lines in BAD_BULKS:
        got = server.ask(bulk_of(lines))
        check(f"the bulk {lines!r}", "" if page_names(got) == [(400, "BadBulk")] else shown(got))


def search_of(query, body=b"", method=b"POST"):
    return b"%s /books/_search%s HTTP/1.1\r\ncontent-length: %d\r\n\r\n%s" % (method, query and b"?" + query, len(body), body)


# Pages in the targets of searches, the bodies beside them, and the bodies that ask for the same.
PAGED = ((b"size=2", b"", b'{"size":2}'), (b"size=2&from=1", b"", b'{"from":1,"size":2}'), (b"from=1&pretty&timeout=1s", b"", b'{"from":1}'), (b"size=0", b"{}", b'{"size":0}'),
         (b"size=0002", b"", b'{"size":2}'), (b"size=10000", b"", b'{"size":10000}'), (b"from=9999&size=1", b"", b'{"from":9999,"size":1}'), (b"size=10001", b"", b'{"size":10001}'),
         (b"from=9991", b"", b'{"from":9991}'), (b"size=1", b'{"size":3,"from":1}', b'{"from":1,"size":1}'), (b"size=2&from=0", b'{"from":20000}', b'{"size":2}'), (b"size=1", b"[]", b"[]"),
         (b"size=1", b'{"query":{"nothing":{}}}', b'{"query":{"nothing":{}}}'), (b"from=1", b'{"query":{"match_all":{}},"from":0}', b'{"from":1}'))


def pages_in_targets(server):
    """`size` and `from` in the target of a search count as those of its body, and before them. Elsewhere, and where they are no numbers, they are refused."""
    server.ask(*(put_of(b"p%d?refresh=true" % it, b"{}") for it in range(5)))
    for query, body, same in PAGED:
        for method in (b"GET", b"POST"):
            check(f"a search with {query.decode()} and {body!r}", other(server.ask(search_of(query, body, method)), server.ask(search_of(b"", same))))
    for query in (b"size=-1", b"size=1.5", b"size=x", b"size=", b"size", b"size=1&size=1", b"from=1&from=2", b"from=99999999999999999999", b"Size=1"):
        got = server.ask(search_of(query))
        check(f"a search with {query.decode()}", "" if page_names(got) == [(400, "BadParameter")] else shown(got))
    for request in (b"GET /?size=1", b"GET /books/_count?size=1", b"GET /books/_doc/1?from=0", b"POST /books/_refresh?size=1", b"POST /books/_bulk?size=1", b"DELETE /books/_doc/1?size=1"):
        got = server.ask(request + b" HTTP/1.1\r\n\r\n")
        check(request.decode(), "" if page_names(got) == [(400, "BadParameter")] else shown(got))


# What the high-level client for Java sends with each search and each write.
OF_SEARCH = (b"typed_keys=true&max_concurrent_shard_requests=5&ignore_unavailable=false&expand_wildcards=open&allow_no_indices=true&ignore_throttled=true"
             b"&search_type=query_then_fetch&batched_reduce_size=512&ccs_minimize_roundtrips=true")
IDLE = (*(it.partition(b"=")[0] for it in OF_SEARCH.split(b"&")), b"allow_partial_search_results", b"error_trace", b"human", b"master_timeout", b"pre_filter_shard_size", b"preference", b"request_cache",
        b"timeout")


def idle_parameters(server):
    """Parameters that could change no answer are read over; others are refused, and so are these in another spelling."""
    search = server.ask(b"POST /books/_search HTTP/1.1\r\n\r\n")
    for query in (OF_SEARCH, *(it + b"=x" for it in IDLE), *IDLE, b"pretty&" + OF_SEARCH, b"timeout=1m&timeout=2m"):
        got = server.ask(b"POST /books/_search?%s HTTP/1.1\r\n\r\n" % query)
        check(f"a search with {query.decode()}", other(got, search))
    got = server.ask(put_of(b"idle?timeout=1m&refresh=wait_for&wait", b"{}"))
    check("a write with a parameter that isn't known", "" if page_names(got) == [(400, "BadParameter")] else shown(got))
    got = server.ask(put_of(b"idle?timeout=1m&refresh=wait_for&op_type=create", b"{}") + get_of(b"idle?preference=_local"))
    check("a write and a get with such parameters", "" if page_names(got) == [(201, ""), (200, "")] else shown(got))
    for query in (b"filter_path=took", b"routing=a", b"realtime=false", b"q=x", b"rest_total_hits_as_int=true", b"timeouts=1", b"Timeout=1m", b"time%6fut=1m", b"track_total_hits=false"):
        got = server.ask(b"GET /books/_search?%s HTTP/1.1\r\n\r\n" % query)
        check(f"a search with {query.decode()}", "" if page_names(got) == [(400, "BadParameter")] else shown(got))


def ungreeted(server):
    """Without --greet these pages are those of any request that isn't answered."""
    for request, wanted in ((b"GET / HTTP/1.1\r\n\r\n", (404, "NoRoute")), (b"GET /books HTTP/1.1\r\n\r\n", (404, "NoRoute")), (b"GET /books/_stats HTTP/1.1\r\n\r\n", (404, "NoRoute")),
                            (b"GET /_cluster/health HTTP/1.1\r\n\r\n", (404, "NoRoute")), (put_of(b"2?timeout=1m", b"{}"), (400, "BadParameter")), (put_of(b"2?refresh=wait_for", b"{}"), (400, "BadParameter"))):
        got = server.ask(request)
        good = page_names(got) == [wanted] and b"keep-alive" not in got and b"charset" not in got and PRODUCT not in got
        check(f"{request.split(b' HTTP')[0].decode()} without --greet", "" if good else shown(got))


    got = server.ask(b"POST /books/_search HTTP/1.1\r\ncontent-encoding: gzip\r\ncontent-length: 2\r\n\r\n{}")
    check("a body that says it is encoded, without --greet", "" if page_names(got) == [(200, "")] else shown(got))
    for query in (b"size=1", b"from=0", b"pretty&size=1"):
        got = server.ask(search_of(query))
        check(f"a search with {query.decode()} without --greet", "" if page_names(got) == [(400, "BadParameter")] else shown(got))
    for lines in (*(it for it, _ in LOOSE[:2]), *BAD_BULKS):
        got = server.ask(bulk_of(lines))
        check(f"the bulk {lines!r} without --greet", "" if page_names(got) == [(400, "BadBulk")] else shown(got))


def reasons():
    """With --explain too, a line has why what the request is turned into is refused."""
    with Server("--greet", "--explain") as server:
        asked = (b"GET / HTTP/1.1\r\n\r\n", b"HEAD /books HTTP/1.1\r\n\r\n", put_of(b"1?refresh=wait_for", b"{}"), b"HEAD /other HTTP/1.1\r\n\r\n", put_of(b"1?refresh=wait_for", b"{"),
                 b"GET /books/_source/1 HTTP/1.1\r\n\r\n", bulk_of(b'\n{"index":{"_id":"1"}}\n{}\n\n\r\n{"index":{"_id":""}}\n{}\n'))
        for request in asked:
            server.ask(request)
        said = server.errors_said(4)
        good = len(said) == 4 and "POST /books/_bulk: line 6: " in said[3] and "there is no such path" in said[2] and "HEAD /other: another index" in said[0] and "PUT /books/_doc/1?refresh=wait_for: " in said[1] and "parameter" not in said[1]
        check("why requests are refused", "" if good else repr(said))
