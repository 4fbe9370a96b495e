"""Command lines, the texts of help, why lines are refused, how far a script is, and answers before the next line."""
import os
import pty
import re
import select
import shutil
import subprocess
import tempfile
import time
from pathlib import Path

from checking import ROOT, check, program
from playing.program import SECONDS, front_of, not_all_right, other_output, run

# Command lines: the words, the exit status, and the stream that gets a text (the other gets none).
COMMAND_LINES = [
    ([], 2, "stderr"),
    (["again", "-"], 2, "stderr"),
    ([b"replay", b"\xff.script"], 2, "stderr"),
    (["replay"], 2, "stderr"),
    (["replay", "-", "-"], 2, "stderr"),
    (["replay", "--again", "-"], 2, "stderr"),
    (["inspect"], 2, "stderr"),
    (["inspect", "--again"], 2, "stderr"),
    (["inspect", "--help"], 0, "stdout"),
    (["--help"], 0, "stdout"),
    (["replay", "--help"], 0, "stdout"),
    (["--version"], 0, "stdout"),
    (["--man"], 0, "stdout"),
    (["--man", "again"], 2, "stderr"),
    (["draw"], 2, "stderr"),
    (["draw", "--help"], 0, "stdout"),
    (["load", "--help"], 0, "stdout"),
    (["load", "a.ndjson"], 2, "stderr"),
    (["load", "--port", "1"], 2, "stderr"),
    (["load", "--port", "1", "--data", "a", "a.ndjson"], 2, "stderr"),
    (["load", "--port", "1", "--mapping", "a.json", "a.ndjson"], 2, "stderr"),
]

# What each text of help has.
HELP = [b"putif C SEQ TERM ID JSON", b"deliver K", b"tornput C 0 ID JSON", b"Example:", b"Exit status:", b"README.md", b"--version"]

# The lines of a script, and what is said of each that is refused, behind its place.
REASONS = [
    (b'open 1 {"properties":{"n":{"type":"float"}}}', b"UnknownType: field n must have a type of keyword, text, long or boolean, or else properties"),
    (b'open 1 {"properties":{"who":{"properties":{"n":{"type":"object"}}}}}', b"UnknownType: field who.n must have a type of keyword, text, long or boolean, or else properties"),
    (b'open 1 {"properties":{"n":{"type":"long","index":false}}}', b"BadName: the key index isn't allowed in a mapping"),
    (b'open 1 {"properties":{"n":{"type":"long"},"who":{"properties":{"born":{"properties":{"year":{"type":"long"}}},"name":{"type":"keyword"}}}}}', b""),
    (b"put 1 a {}", b""),
    (b'put 1 a {"n":"cheap"}', b'WrongValue: field n: "cheap" is no long (a whole number within 64 bits)'),
    (b'put 1 a {"n":1', b"NotJson: not JSON: EOF while parsing at line 1 column 6 (byte 6 of the JSON)"),
    (b'put 1 a {"n":[1,null,"dear",{}]}', b'WrongValue: field n: "dear" is no long (a whole number within 64 bits)'),
    (b'put 1 a {"n":{"x":1}}', b'WrongValue: field n: {"x":1} is no long (a whole number within 64 bits)'),
    (b'put 1 a {"m":[[1]]}', b"WrongValue: m: [1] is an array within an array"),
    (b'put 1 a {"a\\nb":{"x":[{"y":[1,[]]}]}}', b"WrongValue: a\\u{a}b.x.y: [] is an array within an array"),
    (b'put 1 a {"who":[{"name":"x"},null,"z"]}', b'WrongValue: who: "z" stands where an object is wanted'),
    (b'put 1 a {"who":[{"name":"x"},[{}]]}', b"WrongValue: who: [{}] is an array within an array"),
    (b'put 1 a {"who":[{"born":{"year":1}},{"born":[{"year":[2,"then"]}]}]}', b'WrongValue: field who.born.year: "then" is no long (a whole number within 64 bits)'),
    (b'put 1 a {"who":{"born.year":"x"},"who.born":{"year":"y"},"who.born.year":"z"}', b'WrongValue: field who.born.year: "x" is no long (a whole number within 64 bits)'),
    (b'put 1 a {"who.born":{"year":"y"},"who.born.year":"z","who":{"born":{"year":1}}}', b'WrongValue: field who.born.year: "y" is no long (a whole number within 64 bits)'),
    (b'put 1 a {"who.born":{"year":null},"who.born.year":"z"}', b'WrongValue: field who.born.year: "z" is no long (a whole number within 64 bits)'),
    (b'put 1 a {"who.born":["x"]}', b'WrongValue: who.born: "x" stands where an object is wanted'),
    (b'put 1 a {"who":{"name":{"first":"x"}}}', b'WrongValue: field who.name: {"first":"x"} is no keyword (a text, a whole number or a truth value, of at most 32,766 bytes)'),
    (b"put 1 a " + b'{"x":' * 20 + b"{}" + b"}" * 20, b"TooDeep: more than 20 objects or levels of properties nest in one another"),
    (b"create 1 a {}", b"VersionConflict: the document is there already; its last change has number 0 of term 1"),
    (b"delif 1 7 1 a", b"VersionConflict: the document's last change has number 0 of term 1, and not 7 of term 1"),
    (b"putif 1 0 1 b {}", b"VersionConflict: the document isn't there"),
    (b"search 1 {", b"Parsing: the body isn't JSON: EOF while parsing at line 1 column 1 (byte 1 of it)"),
    (b'search 1 {"query":{"fuzzy":{"n":1}}}', b"Parsing: bad query: fuzzy: this query isn't known"),
    (b'search 1 {"query":{"term":{"n":{"value":1,"fuzzy":2}}}}', b"Parsing: bad query: fuzzy: this key isn't known here"),
    (b'search 1 {"size":"x"}', b"Parsing: bad query: size: a whole number from 0 up is wanted"),
    (b'search 1 {"query":{"range":{"n":{"gt":"x"}}}}', b"WrongKind: a value doesn't fit the type of field n"),
    (b'search 1 {"size":10001}', b"WindowTooLarge: `from` plus `size` is above 10,000"),
    (b"find 1", b'BadLine: "find" is no word of a script; a line begins with open, put, create, del, putif, delif, bulk, get, refresh, restart, merge, swap, search, deliver, promote, allocate, fail, torn, tornput or tornbulk'),
    (b"bulk 1", b"BadLine: the line isn't of the form `bulk COPY ID ..` with 1 to 100 ids, as `bulk 1 a b`, with one space between words"),
    (b"bulk 1 a" + b" a" * 100, b"BadLine: the line isn't of the form `bulk COPY ID ..` with 1 to 100 ids, as `bulk 1 a b`, with one space between words"),
    (b"get 1", b"BadLine: the line isn't of the form `get COPY ID`, with one space between words"),
    (b"refresh 1\r", b"BadLine: the line ends in a carriage return; save the file with line ends of Unix"),
    (b"\xef\xbb\xbfrefresh 1", b"BadLine: the line begins with a byte order mark; save the file as UTF-8 without one"),
    (b"get 1 \xff", b"BadLine: byte 6 of the line isn't UTF-8"),
    (b"put 1  {}", b"IdEmpty: an id is empty"),
    (b"get 2 a", b"NoSuchCopy: there is no such copy"),
    (b"open 1 {}", b"AlreadyOpen: an index is open already"),
    (b"deliver one", b"BadLine: the line isn't of the form `deliver MESSAGE`, with one space between words"),
    (b"allocate 2", b"BadLine: the line isn't of the form `allocate`, with one space between words"),
    (b"torn 1 2", b"BadLine: the line isn't of the form `torn MESSAGE 0` or `torn MESSAGE 1`, with one space between words"),
    (b"deliver 1", b"NoSuchMessage: no message has that number yet"),
    (b"promote 2", b"NotInSync: the copy isn't in sync"),
    (b"fail 1", b"Mismatch: the primary doesn't wait for that copy; it reports another copy that it waits for"),
]

# The same under a strict mapping.
STRICT_REASONS = [
    (b'open 1 {"dynamic":"strict","properties":{"who":{"properties":{"name":{"type":"keyword"}}}}}', b""),
    (b'put 1 a {"who":[{"name":"x"},{"age":1}]}', b"Unmapped: field who.age isn't mapped, and the mapping is strict"),
    (b'put 1 a {"who":[5,{"age":1}]}', b"WrongValue: who: 5 stands where an object is wanted"),
    (b'put 1 a {"who.age":1}', b"Unmapped: field who.age isn't mapped, and the mapping is strict"),
]


def words():
    for given, status, stream in COMMAND_LINES:
        ran, why = run(given), ""
        text, other = (ran.stdout, ran.stderr) if stream == "stdout" else (ran.stderr, ran.stdout)
        if ran.returncode != status:
            why = f"wanted status {status}, got {ran.returncode}"
        elif not text or other:
            why = f"wanted a text on {stream} alone, got {front_of(ran.stdout)} and on standard error {front_of(ran.stderr)}"
        check(f"the command line {' '.join(['indexd', *map(str, given)])}", why)
    for given in (["--help"], ["replay", "--help"]):
        text = run(given).stdout
        lacks = [it for it in HELP if it not in text and (it != b"--version" or given == ["--help"])]
        check(f"what {' '.join(given)} says", f"it lacks {lacks}" if lacks else "")
    check_manual()


def check_manual():
    """The manual page is the one in docs/, and has each option of each command."""
    page = run(["--man"]).stdout
    check("docs/indexd.1", other_output((ROOT / "docs/indexd.1").read_bytes(), page))
    if not shutil.which("groff"):
        print("skipped how the manual page looks: groff isn't installed")
        return
    shown = run(["-man", "-Tutf8", "-ww", "-P", "-c"], program="groff", input=page)
    check("groff takes the manual page", front_of(shown.stderr) if shown.stderr or shown.returncode else "")
    text = re.sub(rb"\x1b\[[0-9;]*m|.\x08", b"", shown.stdout)
    lacks = [it for it in (b"--request-mb <N>", b"--explain", b"load --data new", b"putif C SEQ TERM ID JSON", b"indexd inspect") if it not in text]
    check("what the manual page says", f"it lacks {lacks}" if lacks else "")


def told():
    """Why each line of a script is refused, where that is wanted; and how far a script is, at a terminal."""
    with tempfile.TemporaryDirectory() as folder:
        for reasons in (REASONS, STRICT_REASONS):
            file = Path(folder) / "refused.script"
            file.write_bytes(b"".join(line + b"\n" for line, _ in reasons))
            silent, explained = run(["replay", file]), run(["replay", "--explain", file])
            refused = [(at, why) for at, (_, why) in enumerate(reasons, 1) if why]
            wanted = b"".join(f"indexd: {file}:{at}: ".encode() + why + b"\n" for at, why in refused)
            wanted += f"indexd: {len(refused)} of {len(reasons)} lines were refused\n".encode()
            check("why lines are refused", other_output(explained.stderr, wanted))
            check("the output beside it", not_all_right(silent, explained.stdout))
        strange = Path(folder) / "a\nb\x1b.script"
        strange.write_bytes(b"get 1 a\n")
        said = run(["replay", "--explain", strange]).stderr.splitlines()
        check("a name with a newline", "" if len(said) == 2 and b"\\n" in said[0] and b"\x1b" not in said[0] else f"said {said}")
    check("how far a script is", no_progress())


def no_progress():
    """Says what is wrong with the line of progress at a terminal, or nothing: it comes while a script runs for some seconds, and is gone at its end."""
    reads, writes = pty.openpty()
    how = {"stdin": subprocess.PIPE, "stdout": subprocess.DEVNULL, "stderr": writes, "bufsize": 0}
    with subprocess.Popen([program(), "replay", "-"], **how) as started:
        os.close(writes)
        for lines in (b"open 1 {}\n" + b"get 1 a\n" * 300, b"get 1 a\n" * 300, b"get 1 a\n" * 300):
            started.stdin.write(lines)
            time.sleep(2.2)
        started.stdin.close()
        got = b""
        while select.select([reads], [], [], 5)[0]:
            try:
                got += os.read(reads, 1 << 16)
            except OSError:
                break
        started.kill()
    os.close(reads)
    if len(re.findall(rb"\r\x1b\[Kindexd: \d+ lines, \d+ a second", got)) < 2:
        return f"no lines of progress: {front_of(got)}"
    return "" if got.endswith(b"\r\x1b[K") else f"it isn't gone at the end: {front_of(got[-100:])}"


def answers():
    """Whoever types lines gets the answer to one before the next: through pipes, and at a terminal."""
    check("an answer through pipes before the next line", not_answered(*os.pipe()))
    check("an answer at a terminal before the next line", not_answered(*pty.openpty()))
    with tempfile.TemporaryDirectory() as folder:
        output = Path(folder) / "output"
        with open(output, "wb") as written:
            why = not_answered(os.open(output, os.O_RDONLY), os.dup(written.fileno()))
        check("an answer in a file before the next line", why)


def not_answered(reads, writes):
    """Says which line had no answer before the next one was written, or nothing. The program's output is written to `writes`, and read from `reads`."""
    lines = [(b"open 1 {}\nput 1 a {}\n", b"wrote 0 1 1 created\nack 0 1\n"), (b"get 1 a\n", b"found 0 1 1 {}\n"), (b"refresh 1\n", b"point 1\n")]
    with subprocess.Popen([program(), "replay", "-"], stdin=subprocess.PIPE, stdout=writes, stderr=subprocess.PIPE, bufsize=0) as started:
        os.close(writes)
        try:
            for line, wanted in lines:
                started.stdin.write(line)
                got, until = b"", time.monotonic() + 10
                while len(got) < len(wanted) and time.monotonic() < until:
                    if select.select([reads], [], [], 0.1)[0]:
                        got += os.read(reads, 1 << 16).replace(b"\r\n", b"\n")
                    time.sleep(0.01)
                if got != wanted:
                    return f"after {front_of(line)} wanted {front_of(wanted)}, got {front_of(got)}"
            started.stdin.close()
            return "" if started.wait(SECONDS) == 0 else f"status {started.returncode}"
        finally:
            started.kill()
            os.close(reads)
