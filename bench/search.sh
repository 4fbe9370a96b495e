#!/bin/bash
# bench/search.sh [N ..]: what indexing and searches cost the built program, in microseconds of processor time in user mode each, with N documents (10000 and 100000 by default).
#
# The documents are made here, the same for the same N: products of some 400 bytes with two texts, keywords, longs and a boolean, words and keywords drawn so that few are
# common and many are rare. Of each class of queries the same 20 are asked again and again for about a second. The first figure has the reading of the line and of its body
# and the answer's ids in it, and what the process spent in the kernel on its pipes; the second is what is left of it without what the same lines cost over an index without
# documents: the search and its ids. Beside them stands SQLite with FTS5 in memory, the total and the ten ids of the page by one statement each, where python3's sqlite3 has
# FTS5; a dash stands where a class has no such statement. Behind the classes stand changes with a refresh after each, a deep page over several segments, and memory; and last
# a `match` of 16,000 words, `terms` of 65,536 values, and 1,000,000 puts.
# INDEXD_PROGRAM=FILE measures the executable FILE in place of the one that ./indexd runs, which is built first where it has to be. Needs Linux and python3.
set -euo pipefail

. "$(dirname -- "$(readlink -f -- "${BASH_SOURCE[0]}")")/program.sh"
[ "$#" -gt 0 ] || set -- 10000 100000
for count in "$@"; do
    if ! [[ $count =~ ^[1-9][0-9]{3,6}$ ]]; then
        echo "bench/search.sh: 1000 documents or more are wanted, and not $count" >&2
        exit 2
    fi
done

exec python3 - "$program" "$@" <<'PROGRAM'
import itertools
import json
import os
import random
import resource
import sqlite3
import subprocess
import sys
import tempfile
import time

PROPERTIES = {"title": "text", "body": "text", "brand": "keyword", "tags": "keyword", "price": "long", "year": "long", "stock": "boolean", "note": "keyword"}
TICKS = os.sysconf("SC_CLK_TCK")


def words_of(draw, count):
    """Made-up words, each once: two to four syllables."""
    syllables, words = [a + b for a in "bdfgklmnprstvz" for b in "aeiou"], {}
    while len(words) < count:
        words["".join(draw.choices(syllables, k=draw.randint(2, 4)))] = True
    return list(words)


class Corpus:
    def __init__(self, count):
        draw = random.Random(count)
        self.words = words_of(draw, 20_000)
        weights = [1 / (rank + 10) for rank in range(len(self.words))]
        brands, brand_weights = [f"brand{n:03}" for n in range(1_000)], [1 / (n + 5) for n in range(1_000)]
        self.documents = []
        for number in range(count):
            drawn = draw.choices(self.words, weights, k=45)
            document = {
                "title": " ".join(drawn[:6]), "body": " ".join(drawn[6:]), "brand": draw.choices(brands, brand_weights)[0],
                "tags": sorted(set(draw.choices(brands, brand_weights, k=3))), "price": draw.randrange(100_000), "year": draw.randrange(1990, 2030), "stock": draw.random() < 0.7,
            }
            if draw.random() < 0.1:
                document["note"] = f"n{draw.randrange(50)}"
            self.documents.append((f"p{number * 7_919 % count:07}", document))

    def queries(self):
        """By class, 20 queries each: the body, and for SQLite a condition with its values, or nothing."""
        draw = random.Random(2)
        rare, common = self.words[4_000:8_000], self.words[:50]
        classes = {}

        def add(name, body, condition=None, values=(), **page):
            classes.setdefault(name, []).append(({"query": body, **page}, condition, values))

        text = "rowid IN (SELECT rowid FROM texts WHERE texts MATCH ?)"
        for _ in range(20):
            one, two, few = draw.choice(common), draw.choice(common), draw.choice(rare)
            low = draw.randrange(90_000)
            brand, seldom = f"brand{draw.randrange(5):03}", f"brand{draw.randrange(500, 1_000):03}"
            ten = [f"brand{n:03}" for n in draw.sample(range(1_000), 10)]
            add("term_rare", {"term": {"brand": seldom}}, "brand = ?", (seldom,))
            add("term_common", {"term": {"brand": brand}}, "brand = ?", (brand,))
            add("match_rare", {"match": {"body": few}}, text, (f"body:{few}",))
            add("match_common", {"match": {"body": one}}, text, (f"body:{one}",))
            add("match_or", {"match": {"body": f"{few} {two}"}}, text, (f"body:({few} OR {two})",))
            add("match_and", {"match": {"body": {"query": f"{one} {two}", "operator": "and"}}}, text, (f"body:({one} AND {two})",))
            add("prefix_narrow", {"prefix": {"brand": "brand1" + str(draw.randrange(10))}}, None)
            add("prefix_wide", {"prefix": {"title": one[:2]}}, text, (f"title:{one[:2]}*",))
            add("range_narrow", {"range": {"price": {"gte": low, "lt": low + 100}}}, "price >= ? AND price < ?", (low, low + 100))
            add("range_wide", {"range": {"price": {"gte": low // 2, "lt": low // 2 + 50_000}}}, "price >= ? AND price < ?", (low // 2, low // 2 + 50_000))
            add("terms", {"terms": {"brand": ten}}, f"brand IN ({','.join('?' * 10)})", tuple(ten))
            add("bool_filter", {"bool": {"filter": [{"term": {"stock": True}}, {"range": {"year": {"gte": 2000}}}, {"term": {"brand": brand}}]}}, "stock = 1 AND year >= 2000 AND brand = ?", (brand,))
            add("bool_mixed", {"bool": {"must": [{"match": {"body": one}}], "must_not": [{"term": {"brand": brand}}], "should": [{"match": {"title": two}}, {"range": {"price": {"lt": 50_000}}}], "minimum_should_match": 1}},
                f"{text} AND NOT brand = ? AND ({text} OR price < 50000)", (f"body:{one}", brand, f"title:{two}"))
            add("exists", {"exists": {"field": "note"}}, "note IS NOT NULL")
            add("match_all", {"match_all": {}}, "1")
            add("match_all_deep", {"match_all": {}}, "1", **{"from": min(9_990, len(self.documents) - 10)})
        return classes


def user_time():
    """The processor time of this process in user mode so far, in seconds."""
    return resource.getrusage(resource.RUSAGE_SELF).ru_utime


class Index:
    """The program, which answers each line before it reads the next."""

    def __init__(self, program):
        self.process = subprocess.Popen([program, "replay", "-"], stdin=subprocess.PIPE, stdout=subprocess.PIPE, stderr=subprocess.DEVNULL, bufsize=0)
        self.answers = os.fdopen(os.dup(self.process.stdout.fileno()), "rb")

    def cost(self):
        """Its processor time in user mode so far, in microseconds."""
        with open(f"/proc/{self.process.pid}/stat") as stat:
            fields = stat.read().rsplit(")", 1)[1].split()
        return int(fields[11]) * 1e6 / TICKS

    def memory(self):
        """What of its memory is there, in bytes."""
        with open(f"/proc/{self.process.pid}/statm") as sizes:
            return int(sizes.read().split()[1]) * os.sysconf("SC_PAGE_SIZE")

    def end(self):
        self.process.stdin.close()
        self.process.wait()

    def ask(self, lines, answers):
        """Hands over lines some at a time, and gives the last answer."""
        answer, per_line = b"", answers // len(lines)
        for at in range(0, len(lines), 20):
            some = lines[at:at + 20]
            self.process.stdin.write(b"".join(some))
            for _ in range(len(some) * per_line):
                answer = self.answers.readline()
        return answer

    def measured(self, lines, per_line=1):
        """Microseconds a line, of lines asked again and again."""
        begun, asked, ends = self.cost(), 0, time.monotonic() + 1
        while time.monotonic() < ends:
            self.ask(lines, len(lines) * per_line)
            asked += len(lines)
        return (self.cost() - begun) / asked


def sqlite_of(corpus):
    try:
        base = sqlite3.connect(":memory:")
        base.execute("CREATE VIRTUAL TABLE texts USING fts5(title, body)")
    except sqlite3.Error:
        return None, None
    begun = user_time()
    base.execute("CREATE TABLE products (rowid INTEGER PRIMARY KEY, id TEXT UNIQUE, brand TEXT, price INTEGER, year INTEGER, stock INTEGER, note TEXT, source TEXT)")
    for column in ("brand", "price", "note"):
        base.execute(f"CREATE INDEX by_{column} ON products ({column})")
    for row, (name, it) in enumerate(corpus.documents):
        base.execute("INSERT INTO texts (rowid, title, body) VALUES (?, ?, ?)", (row, it["title"], it["body"]))
        base.execute("INSERT INTO products VALUES (?, ?, ?, ?, ?, ?, ?, ?)", (row, name, it["brand"], it["price"], it["year"], it["stock"], it.get("note"), json.dumps(it)))
    return base, (user_time() - begun) * 1e6 / len(corpus.documents)


def sqlite_cost(base, queries):
    """Microseconds a query, and the totals."""
    begun, asked, ends, totals = user_time(), 0, time.monotonic() + 1, None
    while time.monotonic() < ends or totals is None:
        totals = []
        for body, condition, values in queries:
            totals.append(base.execute(f"SELECT count(*) FROM products WHERE {condition}", values).fetchone()[0])
            base.execute(f"SELECT id, source FROM products WHERE {condition} ORDER BY id LIMIT 10 OFFSET {body.get('from', 0)}", values).fetchall()
            asked += 1
    return (user_time() - begun) * 1e6 / asked, totals


MAPPING = b"open 1 " + json.dumps({"properties": {name: {"type": kind} for name, kind in PROPERTIES.items()}}).encode() + b"\nget 1 none\n"


def opened(program):
    """An index without documents."""
    index = Index(program)
    index.ask([MAPPING], 1)
    return index


def measured_with(index, empty, lines):
    """Microseconds a line, and those without what the lines cost over an index without documents."""
    cost = index.measured(lines)
    return f"{cost:.1f} | {max(cost - empty.measured(lines), 0):.1f}"


def searches(program, count):
    corpus = Corpus(count)
    index, empty = opened(program), opened(program)
    begun = index.cost()
    puts = [f"put 1 {name} {json.dumps(it)}\n".encode() for name, it in corpus.documents]
    index.ask(puts, 2 * len(puts))
    put, begun = (index.cost() - begun) / count, index.cost()
    index.ask([b"refresh 1\n"], 1)
    refresh = (index.cost() - begun) / count
    base, inserted = sqlite_of(corpus)
    text = sum(len(json.dumps(it)) for _, it in corpus.documents)
    print(f"\n{count:,} documents of {text // count} bytes; microseconds\n\n| | indexd | the search alone | SQLite |\n|---|---|---|---|")
    print(f"| put | {put:.1f} | | |\n| first refresh, a document | {refresh:.1f} | | {inserted and round(inserted, 1) or '-'} (with the put) |")
    print(f"| memory, times the text | {index.memory() / text:.1f} | {(index.memory() - empty.memory()) / text:.1f} | |", flush=True)
    for name, queries in corpus.queries().items():
        lines = [b"search 1 " + json.dumps(body).encode() + b"\n" for body, _, _ in queries]
        totals = [int(index.ask([line], 1).split()[1]) for line in lines]
        cost, beside = measured_with(index, empty, lines), "-"
        if base and queries[0][1]:
            theirs, wanted = sqlite_cost(base, queries)
            beside = f"{theirs:.1f}" + ("" if wanted == totals else " (other totals)")
        print(f"| {name} | {cost} | {beside} |", flush=True)
    gets = [f"get 1 {name}\n".encode() for name, _ in corpus.documents[:20]]
    print(f"| get | {measured_with(index, empty, gets)} | |")
    changed(index, empty, corpus)


def changed(index, empty, corpus):
    """Changes with a refresh after each, the first ones and many, and searches behind them."""
    some = corpus.documents[::max(len(corpus.documents) // 1_000, 1)]
    lines = [f"put 1 {name} {json.dumps(it)}\nrefresh 1\n".encode() for name, it in some]
    begun = index.cost()
    index.ask(lines[:8], 3 * 8)
    deep = json.dumps({"query": {"match_all": {}}, "from": min(9_990, len(corpus.documents) - 10)})
    print(f"| deep page, behind 8 changes | {measured_with(index, empty, [f'search 1 {deep}{chr(10)}'.encode()] * 20)} | |", flush=True)
    begun = index.cost()
    index.ask(lines, 3 * len(lines))
    print(f"| put and refresh, 1,000 documents | {(index.cost() - begun) / len(lines):.1f} | | |")
    print(f"| put and refresh of 20 documents, again and again | {index.measured(lines[:20], 3):.1f} | | |", flush=True)
    all_of = [b'search 1 {"query":{"match_all":{}}}\n'] * 20
    print(f"| match_all behind these | {measured_with(index, empty, all_of)} | |", flush=True)
    index.end()
    empty.end()


def large_queries(program):
    """A `match` of 16,000 words over one document that has them, and `terms` of 65,536 values over 80,000 keywords."""
    text = " ".join("".join(letters) for letters in itertools.islice(itertools.product("abcdefghijklmnopqrstuvwxyz", repeat=3), 16_000))
    index = Index(program)
    index.ask([b'open 1 {"properties":{"t":{"type":"text"},"k":{"type":"keyword"}}}\nget 1 none\n'], 1)
    index.ask([f'put 1 all {json.dumps({"t": text})}\n'.encode()], 2)
    index.ask([b"refresh 1\n"], 1)
    line = f'search 1 {json.dumps({"query": {"match": {"t": {"query": text, "operator": "and"}}}})}\n'.encode()
    found = index.ask([line], 1).split()[:3]
    print(f"\n`match` of {len(text.split()):,} words with `and` over one document of {len(text):,} bytes ({b' '.join(found).decode()}): {index.measured([line]) / 1_000:.1f} ms", flush=True)
    index.ask([f'put 1 d{number} {{"k":"k{number}"}}\n'.encode() for number in range(80_000)], 160_000)
    index.ask([b"refresh 1\n"], 1)
    line = f'search 1 {json.dumps({"query": {"terms": {"k": [f"k{number}" for number in range(65_536)]}}})}\n'.encode()
    found = index.ask([line], 1).split()[:2]
    print(f"`terms` of 65,536 values over 80,000 keywords ({b' '.join(found).decode()}): {index.measured([line]) / 1_000:.1f} ms", flush=True)
    index.end()


def many_puts(program, count=1_000_000):
    """Puts of small documents, read from a file."""
    with tempfile.TemporaryDirectory() as folder:
        parts = []
        for lines in (count // 10, count):
            with open(f"{folder}/{lines}", "w") as script:
                script.write('open 1 {"properties":{"k":{"type":"keyword"},"n":{"type":"long"}}}\n')
                script.writelines(f'put 1 d{number} {{"k":"v{number % 50}","n":{number}}}\n' for number in range(lines))
            with open(f"{folder}/out", "wb") as out:
                begun, before = time.monotonic(), resource.getrusage(resource.RUSAGE_CHILDREN)
                subprocess.run([program, "replay", f"{folder}/{lines}"], stdout=out, check=True)
                spent = resource.getrusage(resource.RUSAGE_CHILDREN)
                parts.append((lines, time.monotonic() - begun, spent.ru_utime + spent.ru_stime - before.ru_utime - before.ru_stime, spent.ru_maxrss / 1_024))
        (few, few_clock, few_cost, _), (all_of, clock, cost, peak) = parts
        print(f"{all_of:,} puts: {all_of / clock:,.0f} lines a second by the clock, {cost * 1e6 / all_of:.1f} us of the processor a line; the first {few:,} {few_cost * 1e6 / few:.1f} us, "
            f"the others {(cost - few_cost) * 1e6 / (all_of - few):.1f} us; peak memory {peak:,.0f} MiB", flush=True)


def main(program, counts):
    print(f"{os.uname().nodename}, {os.cpu_count()} processors, load {os.getloadavg()[0]:.1f}; SQLite {sqlite3.sqlite_version}", flush=True)
    for count in counts:
        searches(program, count)
    large_queries(program)
    many_puts(program)


main(sys.argv[1], [int(it) for it in sys.argv[2:]])
PROGRAM
