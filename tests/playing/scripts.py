"""Scripts with their outputs: those of files, long ones, and one that comes a byte at a time."""
import subprocess
import time

from checking import ROOT, TESTS, check, program
from playing.program import FIRST_RUN, LONG_SECONDS, SECONDS, lines_of, not_all_right, run, wanted_of

SCRIPTS = sorted([*TESTS.glob("scripts/*.script"), *ROOT.glob("examples/*.script")])


def scripts():
    for script in SCRIPTS:
        name, wanted = script.relative_to(ROOT), wanted_of(script)
        check(f"{name} from a file", not_all_right(run(["replay", script]), wanted))
        check(f"{name} from standard input", not_all_right(run(["replay", "-"], input=script.read_bytes()), wanted))


def pipes():
    lines, wanted, documents = ["open 1 {}"], [], 50
    for number in range(2_000):
        at, version = number % documents, number // documents + 1
        lines.append(f'put 1 d{at:02} {{"n":{number}}}')
        wanted += [f"wrote {number} 1 {version} {'updated' if version > 1 else 'created'}", f"ack {number} 1"]
        lines += [f"get 1 d{at:02}"] * 9
        wanted += [f'found {number} 1 {version} {{"n":{number}}}'] * 9
    lines += ["refresh 1", "search 1 {}"]
    wanted += ["point 2000", f"hits {documents} " + " ".join(f"d{at:02}" for at in range(10))]
    check(f"{len(lines)} lines through a pipe", not_all_right(run(["replay", "-"], input=lines_of(lines)), lines_of(wanted)))
    check("the first run a byte at a time", not_all_right(run_by_bytes(FIRST_RUN.read_bytes()), wanted_of(FIRST_RUN)))


def refreshes():
    """A refresh after each write: one that reads all documents each time doesn't end here."""
    lines, wanted, versions, documents = ['open 1 {"properties":{"k":{"type":"keyword"}}}'], [], {}, 70_000
    for number in range(100_000):
        at = number * 7_919 % documents
        versions[at] = version = versions.get(at, 0) + 1
        lines += [f'put 1 d{at:05} {{"k":"v{number % 1_000}"}}', "refresh 1"]
        wanted += [f"wrote {number} 1 {version} {'updated' if version > 1 else 'created'}", f"ack {number} 1", f"point {number + 1}"]
        if number % 10_000 == 9_999:
            lines += ["search 1 {}", f'search 1 {{"query":{{"term":{{"k":"v{number % 1_000}"}}}},"size":0}}']
            latest = {at * 7_919 % documents: at for at in range(number + 1)}
            wanted.append(f"hits {len(versions)} " + " ".join(f"d{at:05}" for at in sorted(versions)[:10]))
            wanted.append(f"hits {sum(it % 1_000 == number % 1_000 for it in latest.values())}")
    check(f"{len(lines)} lines, each second one a refresh", not_all_right(run(["replay", "-"], input=lines_of(lines), timeout=LONG_SECONDS), lines_of(wanted)))


def run_by_bytes(script):
    """Hands over the script a byte at a time. (What it prints fits into a pipe.)"""
    how = {"stdin": subprocess.PIPE, "stdout": subprocess.PIPE, "stderr": subprocess.PIPE}
    with subprocess.Popen([program(), "replay", "-"], bufsize=0, **how) as started:
        try:
            for it in script:
                started.stdin.write(bytes([it]))
                time.sleep(0.0005)
        except BrokenPipeError:
            pass
        try:
            output, errors = started.communicate(timeout=SECONDS)
        except subprocess.TimeoutExpired:
            started.kill()
            output, errors = started.communicate()
    return subprocess.CompletedProcess(started.args, started.returncode, output, errors)
