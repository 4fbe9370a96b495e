#!/bin/bash
# bench/tiers.sh [DOCUMENTS [QUERIES]]: what searches cost of an index that was filled by bulks, and of the same index in one segment (100000 documents and 200 queries a class by default).
#
# A server of an index in a folder is filled over HTTP by bulks of 500 documents, the same for the same number: products of some 400 bytes with two texts, a keyword, two longs
# and a boolean, their words drawn by Zipf from 20,000. Once it is at rest, each class of searches is asked over one connection, its queries one after the other and again, until
# half a second of the server's processor time or five seconds by the clock are over; a round before that isn't in the figures. Then the server is ended and started again, which
# makes one segment of the index, and the same queries are asked: what they find has to be the same.
# A line has the microseconds of processor time a query (user and system) after the bulks and of one segment, the ratio of the two, and the median by the clock of each. Then come
# the ratios' geometric mean and the worst of them, what a page takes that is always the same, the fill, memory and the start.
# The peers are filled with the same documents, and asked for the total and ten documents: SQLite with FTS5 in a file, which python3 calls, and Lucene, which java runs behind a
# pipe, with documents sorted by id, and neither scores nor a sync of each bulk. Neither has HTTP to read. A line names the classes for which a peer finds other documents than the
# server. One segment of a peer is what its own command makes of it (FTS5's optimize, Lucene's forceMerge).
# LUCENE_JARS=FOLDER names the folder that has Lucene's jars (of version 8, say; needs a JDK, 11 or newer). Everything stands in a folder of /var/tmp (DIR=FOLDER: in that).
# INDEXD_PROGRAM=FILE measures the executable FILE in place of the one that ./indexd runs, which is built first where it has to be. Needs Linux and python3.
set -euo pipefail

documents=${1:-100000}
queries=${2:-200}
if ! [[ $documents =~ ^[1-9][0-9]{3,6}$ && $queries =~ ^[1-9][0-9]{0,3}$ ]]; then
    echo "bench/tiers.sh: 1,000 documents to 9,999,999 and 1 query to 9,999 are wanted, and not $documents and $queries" >&2
    exit 2
fi
. "$(dirname -- "$(readlink -f -- "${BASH_SOURCE[0]}")")/program.sh"

exec python3 - "$program" "$documents" "$queries" <<'PROGRAM'
import collections
import glob
import itertools
import json
import math
import os
import random
import shutil
import socket
import sqlite3
import statistics
import subprocess
import sys
import tempfile
import time

PROPERTIES = {"title": "text", "body": "text", "brand": "keyword", "price": "long", "year": "long", "stock": "boolean"}
TICKS = os.sysconf("SC_CLK_TCK")
BULK, PAGE, DEEP = 500, 10, 9_000
# Seconds: of processor time that are enough for a class, by the clock that a class takes at most, without processor time that are rest, and until rest at most.
ENOUGH, LONGEST, QUIET, LONGEST_REST = 0.5, 5, 3, 60
Query = collections.namedtuple("Query", "body condition values")
Cost = collections.namedtuple("Cost", "processor median answers")
Fill = collections.namedtuple("Fill", "rate cost rest")
Figures = collections.namedtuple("Figures", "name fill several one")


def ended(text):
    sys.exit(f"bench/tiers.sh: {text}")


def words_of(draw, count):
    """Made-up words, each once: two to four syllables."""
    syllables, words = [a + b for a in "bdfgklmnprstvz" for b in "aeiou"], {}
    while len(words) < count:
        words["".join(draw.choices(syllables, k=draw.randint(2, 4)))] = True
    return list(words)


def sums_of_shares(count, first):
    """What the first words have together, for each number of them: the share of a word falls as its rank grows."""
    return list(itertools.accumulate(1 / (rank + first) for rank in range(count)))


WORDS, BRANDS = words_of(random.Random(1), 20_000), [f"brand{number:03}" for number in range(1_000)]
WORD_SHARES, BRAND_SHARES = sums_of_shares(len(WORDS), 1), sums_of_shares(len(BRANDS), 5)


def documents_of(count):
    """Each document with its id and its text; ids don't come in their order, and one of ten documents has no year."""
    draw = random.Random(count)
    for number in range(count):
        drawn = draw.choices(WORDS, cum_weights=WORD_SHARES, k=46)
        document = {"title": " ".join(drawn[:6]), "body": " ".join(drawn[6:]), "brand": draw.choices(BRANDS, cum_weights=BRAND_SHARES)[0], "price": draw.randrange(100_000)}
        if draw.random() < 0.9:
            document["year"] = draw.randrange(1990, 2030)
        document["stock"] = draw.random() < 0.7
        yield f"p{number * 7_919 % 10_000_000:07}", document, json.dumps(document)


def bulks_of(count):
    """The documents, 500 at a time."""
    documents = documents_of(count)
    while some := list(itertools.islice(documents, BULK)):
        yield some


def drawn_queries(draw, count):
    """One query of each class: the body, and for SQLite a condition with its values."""
    one, two, few = draw.choice(WORDS[:50]), draw.choice(WORDS[:50]), draw.choice(WORDS[4_000:8_000])
    low, half, year, front = draw.randrange(90_000), draw.randrange(45_000), draw.randrange(1995, 2005), f"brand{draw.randrange(10, 100)}"
    brand, seldom, ten = draw.choice(BRANDS[:10]), draw.choice(BRANDS[500:]), draw.sample(BRANDS, 10)
    first = min(draw.randrange(DEEP, 10_000 - PAGE), count - PAGE)
    text = "rowid IN (SELECT rowid FROM texts WHERE texts MATCH ?)"

    def between(field, low, high):
        return {"query": {"range": {field: {"gte": low, "lt": high}}}}, f"{field} >= ? AND {field} < ?", (low, high)

    return {
        "term rare": ({"query": {"term": {"brand": seldom}}}, "brand = ?", (seldom,)),
        "term common": ({"query": {"term": {"brand": brand}}}, "brand = ?", (brand,)),
        "match rare": ({"query": {"match": {"body": few}}}, text, (f"body:{few}",)),
        "match common": ({"query": {"match": {"body": one}}}, text, (f"body:{one}",)),
        "match or": ({"query": {"match": {"body": f"{few} {two}"}}}, text, (f"body:({few} OR {two})",)),
        "match and": ({"query": {"match": {"body": {"query": f"{one} {two}", "operator": "and"}}}}, text, (f"body:({one} AND {two})",)),
        "prefix narrow": ({"query": {"prefix": {"brand": front}}}, "brand >= ? AND brand < ?", (front, front + ":")),
        "prefix wide": ({"query": {"prefix": {"title": one[:2]}}}, text, (f"title:{one[:2]}*",)),
        "range narrow": between("price", low, low + 100),
        "range wide": between("price", half, half + 50_000),
        "terms": ({"query": {"terms": {"brand": ten}}}, f"brand IN ({','.join('?' * 10)})", tuple(ten)),
        "bool of filters": ({"query": {"bool": {"filter": [{"term": {"stock": True}}, {"range": {"year": {"gte": year}}}, {"term": {"brand": brand}}]}}},
            "stock = 1 AND year >= ? AND brand = ?", (year, brand)),
        "bool mixed": ({"query": {"bool": {"must": [{"match": {"body": one}}], "must_not": [{"term": {"brand": brand}}],
            "should": [{"match": {"title": two}}, {"range": {"price": {"lt": half}}}], "minimum_should_match": 1}}},
            f"{text} AND NOT brand = ? AND ({text} OR price < ?)", (f"body:{one}", brand, f"title:{two}", half)),
        "exists": ({"query": {"exists": {"field": "year"}}}, "year IS NOT NULL", ()),
        "match_all": ({"query": {"match_all": {}}}, "1", ()),
        "deep page": ({"query": {"match_all": {}}, "from": first}, "1", ()),
    }


def classes_of(count, how_many):
    """The queries of each class, the same for the same numbers."""
    draw, classes = random.Random(2), collections.defaultdict(list)
    for _ in range(how_many):
        for name, parts in drawn_queries(draw, count).items():
            classes[name].append(Query(*parts))
    return classes


def spent_by(process):
    """Processor time of a process so far, user and system, in seconds."""
    with open(f"/proc/{process.pid}/stat") as stat:
        fields = stat.read().rpartition(")")[2].split()
    return (int(fields[11]) + int(fields[12])) / TICKS


def rested(spent, has_all):
    """Waits until no processor time has been spent for a second and all documents are found; how many seconds that took, or None where it isn't so in time."""
    begun = since = time.monotonic()
    last = spent()
    while (now := time.monotonic()) - begun < LONGEST_REST:
        if (cost := spent()) != last:
            last, since = cost, now
        elif now - since >= QUIET and has_all():
            return since - begun
        time.sleep(0.1)
    return None


def filled(peer, count, bulks):
    """Hands over bulks that are made before, and waits until the peer is at rest."""
    begun, before = time.monotonic(), peer.spent()
    for bulk in bulks:
        peer.write(bulk)
    rate = count / (time.monotonic() - begun)
    rest = rested(peer.spent, lambda: peer.count() == count)
    if peer.count() != count:
        ended(f"{peer.name} has {peer.count()} documents, and not {count}")
    return Fill(rate, (peer.spent() - before) / count * 1e6, rest)


class Server:
    """The program, which serves an index in a folder over HTTP."""

    name = "indexd"

    def __init__(self, program, folder):
        with open(f"{folder}/mapping.json", "w") as mapping:
            json.dump({"properties": {name: {"type": kind} for name, kind in PROPERTIES.items()}}, mapping)
        self.words = [program, "serve", "--index", "books", "--mapping", f"{folder}/mapping.json", "--data", f"{folder}/data", "--idle-s", "3600"]
        self.memories = []
        self.start()

    def start(self):
        with socket.socket() as free:
            free.bind(("127.0.0.1", 0))
            port = free.getsockname()[1]
        begun = time.monotonic()
        self.process = subprocess.Popen([*self.words, "--port", str(port)], stdin=subprocess.DEVNULL, stdout=subprocess.PIPE)
        if not self.process.stdout.readline():
            ended("the server doesn't start")
        self.took = time.monotonic() - begun
        self.connection = socket.create_connection(("127.0.0.1", port))
        self.connection.setsockopt(socket.IPPROTO_TCP, socket.TCP_NODELAY, 1)

    def end(self):
        self.connection.close()
        self.process.terminate()
        self.process.communicate()

    def spent(self):
        return spent_by(self.process)

    def note_memory(self):
        """Notes what of its memory is there, in MiB."""
        with open(f"/proc/{self.process.pid}/status") as status:
            self.memories.append(next(int(it.split()[1]) / 1024 for it in status if it.startswith("VmRSS")))

    def more(self):
        some = self.connection.recv(1 << 20)
        if not some:
            ended("the server ends a connection")
        return some

    def ask(self, request):
        """Sends a request, and takes the body of its page."""
        self.connection.sendall(request)
        got = self.more()
        while b"\r\n\r\n" not in got:
            got += self.more()
        head, _, body = got.partition(b"\r\n\r\n")
        length = int(head.split(b"content-length: ", 1)[1].split(b"\r\n", 1)[0])
        while len(body) < length:
            body += self.more()
        return body

    def request(self, query):
        return posted("_search", json.dumps(query.body).encode())

    def found(self, page):
        """How many documents a page says that there are, and the ids of those that it has."""
        read = json.loads(page)
        if "hits" not in read:
            ended(f"a search is answered {page[:200]}")
        return read["hits"]["total"]["value"], [it["_id"] for it in read["hits"]["hits"]]

    def count(self):
        return json.loads(self.ask(posted("_count", b"")))["count"]

    def write(self, bulk):
        if not (page := self.ask(bulk)).startswith(b'{"errors":false'):
            ended(f"a bulk is answered {page[:200]}")

    def fill(self, count):
        bulks = [posted("_bulk", b"".join(b'{"index":{"_id":"%s"}}\n%s\n' % (name.encode(), text.encode()) for name, _, text in some)) for some in bulks_of(count)]
        return filled(self, count, bulks)

    def make_one_segment(self, count):
        self.end()
        self.start()
        rested(self.spent, lambda: self.count() == count)
        if self.count() != count:
            ended(f"after the restart there are {self.count()} documents, and not {count}")


def posted(path, body):
    return b"POST /books/%s HTTP/1.1\r\nhost: localhost\r\ncontent-length: %d\r\n\r\n%s" % (path.encode(), len(body), body)


class Sqlite:
    """SQLite with FTS5, in a file with a log that each transaction syncs, as the server syncs each bulk."""

    name = f"SQLite {sqlite3.sqlite_version}"

    def __init__(self, folder):
        self.base = sqlite3.connect(f"{folder}/base", isolation_level=None)
        self.base.execute("CREATE VIRTUAL TABLE texts USING fts5(title, body)")
        self.base.execute("PRAGMA journal_mode=WAL")
        self.base.execute("PRAGMA synchronous=FULL")
        self.base.execute("CREATE TABLE products (rowid INTEGER PRIMARY KEY, id TEXT UNIQUE, brand TEXT, price INTEGER, year INTEGER, stock INTEGER, source TEXT)")
        for column in ("brand", "price", "year"):
            self.base.execute(f"CREATE INDEX by_{column} ON products ({column})")
        self.rows = 0

    def end(self):
        self.base.close()

    def spent(self):
        return time.process_time()

    def write(self, some):
        self.base.execute("BEGIN")
        for row, (name, it, text) in enumerate(some, self.rows):
            self.base.execute("INSERT INTO texts (rowid, title, body) VALUES (?, ?, ?)", (row, it["title"], it["body"]))
            self.base.execute("INSERT INTO products VALUES (?, ?, ?, ?, ?, ?, ?)", (row, name, it["brand"], it["price"], it.get("year"), it["stock"], text))
        self.base.execute("COMMIT")
        self.rows += len(some)

    def fill(self, count):
        """Writes the documents; what it takes to make them isn't in the figures, and nothing is done between the calls."""
        seconds = cost = 0
        for some in bulks_of(count):
            begun, before = time.monotonic(), self.spent()
            self.write(some)
            seconds, cost = seconds + time.monotonic() - begun, cost + self.spent() - before
        return Fill(count / seconds, cost / count * 1e6, 0)

    def request(self, query):
        return query.condition, query.values, query.body.get("from", 0)

    def ask(self, request):
        condition, values, first = request
        total = self.base.execute(f"SELECT count(*) FROM products WHERE {condition}", values).fetchone()[0]
        rows = self.base.execute(f"SELECT id, source FROM products WHERE {condition} ORDER BY id LIMIT {PAGE} OFFSET {first}", values).fetchall()
        return total, [name for name, _ in rows]

    def found(self, answer):
        return answer

    def make_one_segment(self, _):
        self.base.execute("INSERT INTO texts (texts) VALUES ('optimize')")


LUCENE = r"""
import java.io.*;
import java.nio.charset.StandardCharsets;
import java.nio.file.Paths;
import java.util.*;
import org.apache.lucene.analysis.standard.StandardAnalyzer;
import org.apache.lucene.document.*;
import org.apache.lucene.index.*;
import org.apache.lucene.search.*;
import org.apache.lucene.store.FSDirectory;
import org.apache.lucene.util.*;

public class Tiers {
    static final Sort BY_ID = new Sort(new SortField("id", SortField.Type.STRING));
    static final FieldType TEXT = new FieldType();
    static IndexWriter writer;
    static DirectoryReader reader;
    static IndexSearcher searcher;
    static long refreshed = System.nanoTime();

    static void put(String[] parts) throws IOException {
        Document made = new Document();
        made.add(new StringField("id", parts[1], Field.Store.NO));
        made.add(new SortedDocValuesField("id", new BytesRef(parts[1])));
        made.add(new Field("title", parts[2], TEXT));
        made.add(new Field("body", parts[3], TEXT));
        made.add(new StringField("brand", parts[4], Field.Store.NO));
        made.add(new LongPoint("price", Long.parseLong(parts[5])));
        if (!parts[6].isEmpty()) {
            made.add(new LongPoint("year", Long.parseLong(parts[6])));
            made.add(new StringField("has", "year", Field.Store.NO));
        }
        made.add(new StringField("stock", parts[7], Field.Store.NO));
        made.add(new BinaryDocValuesField("source", new BytesRef(parts[8])));
        writer.updateDocument(new Term("id", parts[1]), made);
    }

    static void refresh() throws IOException {
        DirectoryReader next = DirectoryReader.openIfChanged(reader);
        if (next != null) {
            reader.close();
            reader = next;
            searcher = new IndexSearcher(reader);
        }
        refreshed = System.nanoTime();
    }

    static Query read(Iterator<String> words) {
        String kind = words.next();
        if (kind.equals("all")) return new MatchAllDocsQuery();
        if (kind.equals("bool")) {
            BooleanQuery.Builder made = new BooleanQuery.Builder().setMinimumNumberShouldMatch(Integer.parseInt(words.next()));
            for (int left = Integer.parseInt(words.next()); left > 0; left--) {
                BooleanClause.Occur occur = BooleanClause.Occur.valueOf(words.next());
                made.add(read(words), occur);
            }
            return made.build();
        }
        String field = words.next();
        if (kind.equals("range")) return LongPoint.newRangeQuery(field, Long.parseLong(words.next()), Long.parseLong(words.next()));
        if (kind.equals("term")) return new TermQuery(new Term(field, words.next()));
        if (kind.equals("prefix")) return new PrefixQuery(new Term(field, words.next()));
        List<BytesRef> values = new ArrayList<>();
        for (int left = Integer.parseInt(words.next()); left > 0; left--) values.add(new BytesRef(words.next()));
        return new TermInSetQuery(field, values);
    }

    static String search(int from, Query query) throws IOException {
        StringBuilder said = new StringBuilder().append(searcher.count(query));
        ScoreDoc[] hits = searcher.search(query, from + 10, BY_ID).scoreDocs;
        List<LeafReaderContext> leaves = reader.leaves();
        for (int at = from; at < hits.length; at++) {
            LeafReaderContext leaf = leaves.get(ReaderUtil.subIndex(hits[at].doc, leaves));
            BinaryDocValues source = leaf.reader().getBinaryDocValues("source");
            source.advanceExact(hits[at].doc - leaf.docBase);
            String id = ((BytesRef) ((FieldDoc) hits[at]).fields[0]).utf8ToString();
            said.append('\t').append(id).append('\t').append(source.binaryValue().utf8ToString());
        }
        return said.toString();
    }

    static String answer(String[] parts) throws IOException {
        if (parts[0].equals("search")) return search(Integer.parseInt(parts[1]), read(Arrays.asList(parts[2].split(" ")).iterator()));
        if (parts[0].equals("merge")) writer.forceMerge(1);
        if (!parts[0].equals("bulk") || System.nanoTime() - refreshed >= 1_000_000_000L) refresh();
        return Integer.toString(reader.numDocs());
    }

    public static void main(String[] words) throws IOException {
        TEXT.setIndexOptions(IndexOptions.DOCS);
        TEXT.setOmitNorms(true);
        TEXT.freeze();
        IndexSearcher.setDefaultQueryCache(null);
        IndexWriterConfig config = new IndexWriterConfig(new StandardAnalyzer()).setIndexSort(BY_ID);
        writer = new IndexWriter(FSDirectory.open(Paths.get(words[0])), config);
        reader = DirectoryReader.open(writer);
        searcher = new IndexSearcher(reader);
        BufferedReader lines = new BufferedReader(new InputStreamReader(System.in, StandardCharsets.UTF_8));
        PrintStream out = new PrintStream(new FileOutputStream(FileDescriptor.out), false, "UTF-8");
        out.println(org.apache.lucene.util.Version.LATEST);
        out.flush();
        for (String line = lines.readLine(); line != null; line = lines.readLine()) {
            String[] parts = line.split("\t", -1);
            if (parts[0].equals("put")) {
                put(parts);
                continue;
            }
            out.println(answer(parts));
            out.flush();
        }
    }
}
"""
OCCURS = {"filter": "FILTER", "must": "FILTER", "must_not": "MUST_NOT", "should": "SHOULD"}


def bool_notation(least, clauses):
    return " ".join([f"bool {least} {len(clauses)}", *(f"{occur} {it}" for occur, it in clauses)])


def notation(query):
    """A query in the words that Lucene's program reads, each kind before its parts."""
    (kind, inner), = query.items()
    if kind == "match_all":
        return "all"
    if kind == "exists":
        return f"term has {inner['field']}"
    if kind == "bool":
        return bool_notation(inner.get("minimum_should_match", 0), [(occur, notation(it)) for key, occur in OCCURS.items() for it in inner.get(key, [])])
    (field, value), = inner.items()
    if kind == "range":
        return f"range {field} {value.get('gte', -2**63)} {value.get('lt', 2**63) - 1}"
    if kind == "terms":
        return f"terms {field} {len(value)} {' '.join(value)}"
    if kind == "match":
        text, occur = (value["query"], "FILTER") if isinstance(value, dict) else (value, "SHOULD")
        clauses = [(occur, f"term {field} {it}") for it in text.split()]
        return clauses[0][1] if len(clauses) == 1 else bool_notation(0, clauses)
    return f"{kind} {field} {str(value).lower() if isinstance(value, bool) else value}"


class Lucene:
    """Lucene, run by java, which answers each line before it reads the next; documents are in the order of their ids, and searches see them after a second."""

    def __init__(self, folder, jars):
        with open(f"{folder}/Tiers.java", "w") as source:
            source.write(LUCENE)
        words = ["java", "-Xmx2g", "-cp", ":".join(jars), f"{folder}/Tiers.java", f"{folder}/lucene"]
        self.process = subprocess.Popen(words, stdin=subprocess.PIPE, stdout=subprocess.PIPE)
        self.name = f"Lucene {self.process.stdout.readline().decode().strip()}"
        if self.name == "Lucene ":
            ended(f"Lucene doesn't run by {', '.join(jars)}")

    def end(self):
        self.process.stdin.close()
        self.process.wait()

    def spent(self):
        return spent_by(self.process)

    def ask(self, lines):
        self.process.stdin.write(lines)
        self.process.stdin.flush()
        if not (line := self.process.stdout.readline()):
            ended(f"{self.name} has ended")
        return line

    write = ask

    def count(self):
        return int(self.ask(b"count\n"))

    def fill(self, count):
        fields = ("title", "body", "brand", "price", "year")

        def line_of(name, it, text):
            return "\t".join(["put", name, *(str(it.get(field, "")) for field in fields), str(it["stock"]).lower(), text]) + "\n"

        return filled(self, count, ["".join([*(line_of(*it) for it in some), "bulk\n"]).encode() for some in bulks_of(count)])

    def request(self, query):
        return f"search\t{query.body.get('from', 0)}\t{notation(query.body['query'])}\n".encode()

    def found(self, line):
        total, *parts = line.decode().rstrip("\n").split("\t")
        return int(total), parts[::2]

    def make_one_segment(self, count):
        self.ask(b"merge\n")
        rested(self.spent, lambda: self.count() == count)


def measured(peer, requests):
    """What requests cost, asked in rounds, and what each answers in the first round, which isn't in the figures."""
    answers, ends = [], time.monotonic() + LONGEST
    for request in requests:
        answers.append(peer.ask(request))
        if time.monotonic() >= ends:
            break
    times, begun, before = [], peer.spent(), time.monotonic()
    ends = before + LONGEST
    for request in itertools.cycle(requests):
        peer.ask(request)
        after = time.monotonic()
        times.append(after - before)
        if after >= ends or len(times) % len(requests) == 0 and peer.spent() - begun >= ENOUGH:
            break
        before = time.monotonic()
    return Cost((peer.spent() - begun) / len(times) * 1e6, statistics.median(times) * 1e6, answers)


def asked(peer, classes):
    """What each class costs, with what its queries find."""
    costs = {name: measured(peer, [peer.request(it) for it in queries]) for name, queries in classes.items()}
    return {name: cost._replace(answers=[peer.found(it) for it in cost.answers]) for name, cost in costs.items()}


def figures_of(peer, count, classes):
    """What a peer costs after bulks and in one segment."""
    fill = peer.fill(count)
    several = asked(peer, classes)
    peer.make_one_segment(count)
    return Figures(peer.name, fill, several, asked(peer, classes))


def served(program, folder, count, classes):
    """The server's figures, and the lines that stand below the table."""
    server = Server(program, folder)
    try:
        fill = server.fill(count)
        server.note_memory()
        figures = Figures(server.name, fill, asked(server, classes), None)
        floor = measured(server, [b"GET /books/nothing/here HTTP/1.1\r\nhost: localhost\r\n\r\n"])
        server.make_one_segment(count)
        server.note_memory()
        figures = figures._replace(one=asked(server, classes))
    finally:
        server.end()
    rest = "not at rest after 60 seconds" if fill.rest is None else f"at rest {fill.rest:.1f} seconds later"
    return figures, [
        f"of each query, a page that is always the same takes {floor.processor:.1f} us of the processor, {floor.median:.0f} us by the clock",
        f"the server is {rest}; memory {server.memories[0]:,.0f} MiB after the fill, {server.memories[1]:,.0f} MiB after the restart; the start took {server.took:.2f} seconds",
    ]


def peers_of(folder):
    """The peers that are installed, as calls that make them, and lines about those that aren't."""
    peers, lines = [], []
    try:
        sqlite3.connect(":memory:").execute("CREATE VIRTUAL TABLE texts USING fts5(title)")
        peers.append(lambda: Sqlite(folder))
    except sqlite3.Error:
        lines.append("python3's SQLite has no FTS5")
    jars = sorted(glob.glob(f"{glob.escape(os.environ.get('LUCENE_JARS') or folder)}/lucene-*.jar"))
    if any("lucene-core" in it for it in jars) and shutil.which("java"):
        peers.append(lambda: Lucene(folder, jars))
    else:
        lines.append("Lucene isn't measured: LUCENE_JARS names no folder with its jars, or java isn't installed")
    return peers, lines


def others_of(figures, wanted):
    """The classes whose queries find other documents than those wanted."""
    both = [*figures.several.items(), *figures.one.items()]
    return [*dict.fromkeys(name for name, cost in both if any(found != other for found, other in zip(cost.answers, wanted[name].answers)))]


def ratios_of(figures):
    return {name: cost.processor / figures.one[name].processor for name, cost in figures.several.items()}


def table_of(all_figures):
    """The lines of the table: a class each, the server's figures and then those of each peer."""
    server, *peers = all_figures
    line = "{:16} {:>12} {:>12} {:>7} {:>12} {:>12}" + "{:>15} {:>12}" * len(peers)
    yield line.format("", "processor us", "", "", "clock us", "", *itertools.chain(*((it.name, "") for it in peers))).rstrip()
    yield line.format("", *("after bulks", "one segment", "ratio"), *("after bulks", "one segment") * (len(peers) + 1))
    for name, ratio in ratios_of(server).items():
        several, one = server.several[name], server.one[name]
        beside = [f"{costs[name].processor:.1f}" for it in peers for costs in (it.several, it.one)]
        yield line.format(name, f"{several.processor:.1f}", f"{one.processor:.1f}", f"{ratio:.2f}", f"{several.median:.0f}", f"{one.median:.0f}", *beside)


def main(program, count, how_many):
    classes, texts = classes_of(count, how_many), [len(text) for _, _, text in itertools.islice(documents_of(count), 1_000)]
    with tempfile.TemporaryDirectory(dir=os.environ.get("DIR", "/var/tmp")) as folder:
        figures, lines = served(program, folder, count, classes)
        if others := others_of(figures, figures.several):
            ended(f"other documents are found in one segment than after bulks: {', '.join(others)}")
        all_figures, (peers, missing) = [figures], peers_of(folder)
        for made in peers:
            peer = made()
            try:
                all_figures.append(figures_of(peer, count, classes))
            finally:
                peer.end()
    print(f"{count:,} documents of {statistics.mean(texts):.0f} bytes, {how_many} queries a class")
    print("\n".join(table_of(all_figures)))
    for it in all_figures:
        ratios = ratios_of(it)
        worst = max(ratios, key=ratios.get)
        print(f"{it.name}: geometric mean of the ratios {math.exp(statistics.mean(map(math.log, ratios.values()))):.2f}, worst {ratios[worst]:.2f} ({worst}); "
              f"the fill {it.fill.rate:,.0f} documents a second, {it.fill.cost:.1f} us of the processor a document")
        if others := others_of(it, figures.several):
            print(f"{it.name} finds other documents: {', '.join(others)}")
    print("\n".join(lines + missing))


main(sys.argv[1], int(sys.argv[2]), int(sys.argv[3]))
PROGRAM
