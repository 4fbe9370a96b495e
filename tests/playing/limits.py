"""The greatest of everything that has a limit, the first that is too large, and what has no limit."""
import itertools
import tempfile
import time
from pathlib import Path

from checking import check, program
from playing.program import LONG_SECONDS, check_rows, lines_of, not_all_right, run


def sizes():
    def mapping(fields):
        keywords = [f'"k{it}":{{"type":"keyword"}}' for it in range(fields - 1)]
        return '{"properties":{' + ",".join([*keywords, '"t":{"type":"text"}']) + "}}"

    def keyword(length):
        return '{"k7":"' + "x" * length + '"}'

    source = '{"n":"' + "x" * (65_536 - 8) + '"}'
    rows = [
        (f"open 1 {mapping(1_001)}", ["refused TooManyFields"]),
        (f"open 1 {mapping(1_000)}", []),
        (f"put 1 a {source}", ["wrote 0 1 1 created", "ack 0 1"]),
        (f"put 1 a {source} ", ["refused TooLarge"]),
        ("put 1 a " + "x" * 65_536, ["refused NotJson"]),
        ("put 1 a " + "x" * 65_537, ["refused TooLarge"]),
        ("get 1 a", [f"found 0 1 1 {source}"]),
        (f"put 1 b {keyword(32_766)}", ["wrote 1 1 1 created", "ack 1 1"]),
        (f"put 1 c {keyword(32_767)}", ["refused WrongValue"]),
        ('put 1 c {"k7":[1,"' + "x" * 32_767 + '"]}', ["refused WrongValue"]),
        ('put 1 c {"t":"' + "x" * (65_536 - 8) + '"}', ["wrote 2 1 1 created", "ack 2 1"]),
        ("refresh 1", ["point 3"]),
        ('search 1 {"query":{"term":' + keyword(32_766) + "}}", ["hits 1 b"]),
    ]
    check_rows("sizes", rows)


def objects():
    """Fields are counted and objects aren't; a path is measured whole; a document of 127 levels is read, and refused for its depth."""
    def mapping(fields, empty):
        def in_one(at):
            keywords = [f'"k{it}":{{"type":"keyword"}}' for it in range(at, fields, 10)]
            return f'"o{at}":{{"properties":{{{",".join(keywords)}}}}}'

        bare = [f'"e{it}":{{"properties":{{}}}}' for it in range(empty)]
        return '{"properties":{' + ",".join([*map(in_one, range(10)), *bare]) + "}}"

    def path(first, second):
        return f'{{"properties":{{"{"a" * first}":{{"properties":{{"{"b" * second}":{{"type":"long"}}}}}}}}}}'

    def deep(levels):
        return '{"x":' * (levels - 1) + "{}" + "}" * (levels - 1)

    put, taken = 'put 1 a {"o7":[{"k7":"x"},{"k17":"y"}]}', ["wrote 0 1 1 created", "ack 0 1"]
    for empty in (0, 50):
        lines = [f"open 1 {mapping(1_001, empty)}", f"open 1 {mapping(1_000, empty)}", put, "refresh 1", 'search 1 {"query":{"term":{"o7.k17":"y"}}}']
        ran = run(["replay", "-"], input=lines_of(lines))
        check(f"1,001 and 1,000 fields beside {empty} empty objects", not_all_right(ran, lines_of(["refused TooManyFields", *taken, "point 1", "hits 1 a"])))

    name = f"{'a' * 127}.{'b' * 127}"
    lines = [f"open 1 {path(127, 128)}", f"open 1 {path(127, 127)}", f'put 1 a {{"{"a" * 127}":{{"{"b" * 127}":5}}}}', "refresh 1", f'search 1 {{"query":{{"term":{{"{name}":5}}}}}}']
    check("a path of 256 and of 255 bytes", not_all_right(run(["replay", "-"], input=lines_of(lines)), lines_of(["refused BadName", *taken, "point 1", "hits 1 a"])))

    depths = {20: taken, 21: ["refused TooDeep"], 127: ["refused TooDeep"], 128: ["refused NotJson"]}
    for levels, wanted in depths.items():
        check(f"{levels} objects in one another", not_all_right(run(["replay", "-"], input=lines_of(["open 1 {}", f"put 1 a {deep(levels)}"])), lines_of(wanted)))


def search(query):
    return 'search 1 {"query":' + query + "}"


def queries():
    greatest_queries()
    hostile_bodies()


def greatest_queries():
    def clauses(count):
        return '{"bool":{"should":[' + ",".join(['{"match_all":{}}'] * (count - 1)) + "]}}"

    def nested(depth):
        return '{"bool":{"must":' * (depth - 1) + '{"match_all":{}}' + "}}" * (depth - 1)

    def terms(count):
        return '{"terms":{"k":[' + ",".join(['"x"'] * count) + "]}}"

    rows = [
        ('open 1 {"properties":{"k":{"type":"keyword"}}}', []),
        ('put 1 a {"k":"x"}', ["wrote 0 1 1 created", "ack 0 1"]),
        ("refresh 1", ["point 1"]),
        (search(clauses(1_024)), ["hits 1 a"]),
        (search(clauses(1_025)), ["refused TooManyClauses"]),
        (search(nested(20)), ["hits 1 a"]),
        (search(nested(21)), ["refused TooDeep"]),
        (search(nested(60)), ["refused TooDeep"]),
        (search(nested(70)), ["refused Parsing"]),
        (search(terms(65_536)), ["hits 1 a"]),
        (search(terms(65_537)), ["refused TooManyClauses"]),
        ('search 1 {"from":9990,"size":10}', ["hits 1"]),
        ('search 1 {"from":9990,"size":11}', ["refused WindowTooLarge"]),
        (f'search 1 {{"query":{{"prefix":{{"k":"{"x" * 32_766}"}}}}}}', ["hits 0"]),
        (f'search 1 {{"query":{{"prefix":{{"k":"{"x" * 32_767}"}}}}}}', ["refused WrongKind"]),
    ]
    check_rows("the greatest queries", rows)


def hostile_bodies():
    """A body of 1 MiB is refused, and one four times as long takes at most eight times as long."""
    def beside(size):
        return '{"bool":{"should":[' + '{"bool":{}},' * (size // 12) + '{"bool":{}}]}}'

    for name, body_of, fault in [
        ("bools in one another", lambda size: '{"bool":{"must":' * (size // 16), "Parsing"),
        ("bools beside one another", beside, "TooManyClauses"),
    ]:
        times = []
        for size in (1 << 20, 1 << 22):
            script = lines_of(["open 1 {}", search(body_of(size))])
            start = time.monotonic()
            ran = run(["replay", "-"], input=script)
            times.append(time.monotonic() - start)
            check(f"{name}, {size >> 20} MiB", not_all_right(ran, f"refused {fault}\n".encode()))
        check(f"{name} in linear time", "" if times[1] <= 8 * times[0] + 0.5 else f"{times[0]:.3f} s, then {times[1]:.3f} s")


def limits():
    # (of two digits each, since a document has at most 65,536 bytes)
    source = '{"n":[' + ",".join(str(it * 7_919 % 88 + 12) for it in range(20_000)) + "]}"
    rows = [
        ('open 1 {"properties":{"n":{"type":"long"},"k":{"type":"keyword"}}}', []),
        (f"put 1 many {source}", ["wrote 0 1 1 created", "ack 0 1"]),
        ("get 1 many", [f"found 0 1 1 {source}"]),
    ]
    rows += [line for at in range(12) for line in number_row(at)]
    rows.append(("refresh 1", ["point 13"]))
    rows += [(f'search 1 {{"query":{{"term":{{"n":{it}}}}}}}', ["hits 1 many"]) for it in range(12, 100)]
    rows += [(f'search 1 {{"query":{{"range":{{"n":{{"gte":{it},"lte":{it}}}}}}}}}', ["hits 1 many"]) for it in (12, 57, 99)]
    rows += [('search 1 {"query":{"term":{"n":100}}}', ["hits 0"]), ('search 1 {"query":{"exists":{"field":"n"}},"size":0}', ["hits 13"])]
    rows += [bounds_row(*it) for it in itertools.product((None, 2, 5), (None, 3, 4), (None, 8, 6), (None, 7, 9))]
    rows += [row for minimum in range(6) for row in minimum_rows(minimum)]
    check_rows("limits that aren't there", rows)
    script = ["open 1 {}", "put 1 a {}", *(["get 1 a", "# a comment", "get 1 b"] * 100_000), "put 1 a {}"]
    wanted = ["wrote 0 1 1 created", "ack 0 1", *(["found 0 1 1 {}", "missing"] * 100_000), "wrote 1 1 2 updated", "ack 1 1"]
    with tempfile.TemporaryDirectory() as folder:
        file = Path(folder) / "long.script"
        file.write_bytes(lines_of(script))
        check(f"a script of {len(script):,} lines", not_all_right(run(["replay", file], timeout=LONG_SECONDS), lines_of(wanted)))


def number_row(at):
    """Document dAT has the number AT, and as keywords all of a to e of which AT has a bit, or is the last of all."""
    keys = ",".join(f'"{key}"' for bit, key in enumerate("abcd") if at >> bit & 1)
    yield f'put 1 d{at:02} {{"n":{at},"k":[{keys}]}}', [f"wrote {at + 1} 1 1 created", f"ack {at + 1} 1"]


def hits_row(query, found):
    return f'search 1 {{"query":{query},"size":20}}', [" ".join(["hits", str(len(found)), *found])]


def bounds_row(above, least, below, most):
    """A range with up to four bounds finds the numbers that meet each."""
    bounds = {"gt": above, "gte": least, "lt": below, "lte": most}
    text = ",".join(f'"{name}":{"null" if it is None else it}' for name, it in bounds.items())
    meets = [lambda n: above is None or n > above, lambda n: least is None or n >= least, lambda n: below is None or n < below, lambda n: most is None or n <= most]
    found = [f"d{n:02}" for n in range(12) if all(it(n) for it in meets)]
    # The document of many numbers has one that meets all, where there is no bound above: 12 and more.
    return hits_row('{"range":{"n":{' + text + "}}}", found + ["many"] * (below is None and most is None))


def minimum_rows(minimum):
    """At least so many of four clauses, alone and beside a filter."""
    should = ",".join(f'{{"term":{{"k":"{key}"}}}}' for key in "abcd")
    for filters in (False, True):
        least = minimum if filters else max(minimum, 1)
        found = [f"d{n:02}" for n in range(12) if bin(n).count("1") >= least and (not filters or n >= 2)]
        text = f'"minimum_should_match":{minimum},"should":[{should}]' + (',"filter":{"range":{"n":{"gte":2,"lt":12}}}' if filters else "")
        yield hits_row('{"bool":{' + text + "}}", found)


def little_stack():
    """Documents of 127 levels, and one of 20 objects, on a stack of 256 KiB."""
    documents = [b'{"a":' + b"[" * 126 + b"]" * 126 + b"}", *(b'{"a":' * (levels - 1) + b"{}" + b"}" * (levels - 1) for levels in (127, 20))]
    script = b"open 1 {}\n" + b"".join(b"put 1 a " + it + b"\n" for it in documents)
    ran = run(["-c", 'ulimit -s 256 && exec "$0" replay -', program()], program="sh", input=script)
    check("nested documents on a little stack", not_all_right(ran, b"refused WrongValue\nrefused TooDeep\nwrote 0 1 1 created\nack 0 1\n"))
