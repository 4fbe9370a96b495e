"""Copies over files, audited: clients that write at the same time while a disk fails once, and copies that step beside one another."""
import json
import time
from pathlib import Path

from checking import Told, check, shim_of, shown
from serving.pages import Client, bodies, get_of, promote_of, put_of, sources
from serving.server import MOST_BAD_RUNS, SECONDS, Server, at_once, complains, free_port, is_kept, ran, scratch

CLIENTS, WRITES, MOST_CALLS = 3, 4, 100


def audited():
    """What copies over files did is audited as of those in memory; also while each call on each of their files fails in turn, and while one waits for another."""
    folders_audited()
    with scratch() as top:
        if shim := shim_of("fail_file", top):
            for file in ("master.log", "copy-1.rsx", "copy-2.rsx", "copy-3.rsx"):
                for call in ("write", "half", "sync"):
                    fails_in_turn(shim, file, call)
            for file in ("master.log", "copy-1.rsx", "copy-3.rsx"):
                fails_while_one_joins(shim, file)
        if shim := shim_of("step_files", top):
            for held, first in ((2, 3), (3, 2)):
                steps_beside(shim, held, first)


def folders_audited():
    """An index in a new folder is audited, over one copy and three, with journals under its mapping; one that is kept already isn't."""
    for copies in (1, 3):
        with scratch() as top:
            folder, journals, mapping = Path(top, "books"), Path(top, "journals"), Path(top, "mapping.json")
            mapping.write_text('{"properties":{"n":{"type":"long"}}}')
            words = ["--data", folder, "--copies", copies, "--connections", 1, "--audit", "--mapping", mapping, "--journals", journals]
            with Server(*words, "--sync", "together" if copies == 3 else "each") as server:
                got = server.ask(*(put_of(b"%d" % it, b'{"n":%d}' % it) for it in range(3)), put_of(b"0", b'{"n":"x"}'), b"POST /books/_refresh HTTP/1.1\r\n\r\n")
                check(f"{copies} copies of a folder are asked", "" if [it.get("_seq_no") for it in bodies(got)[:3]] == [0, 1, 2] else repr(bodies(got)))
                out, err = server.process.communicate(timeout=SECONDS)
                check(f"{copies} copies of a folder are audited", "" if (out, err, server.process.returncode) == (b"audit ok\n", b"", 0) else f"{out} {err} {server.process.returncode}")
            is_kept(f"the journals of {copies} copies", len([*journals.iterdir()]), copies + 1)
            kept = {it.name: it.read_bytes() for it in folder.iterdir()}
            complains("an audit of a kept index", ran("--port", free_port(), "--data", folder, "--connections", 1, "--audit"), 1, "--audit", "another folder")
            check("and it is as it was", "" if {it.name: it.read_bytes() for it in folder.iterdir()} == kept else "it has changed")
            with Server("--data", folder) as server:
                is_kept(f"what {copies} copies were told", sources(server, [b"0", b"1", b"2"]), [{"n": it} for it in range(3)])


def written(server, promoted):
    """Clients at once write documents, each again until it is confirmed, and the first has a copy promoted in the middle. Says what wasn't confirmed or found in time."""
    late, end = [], time.monotonic() + SECONDS

    def write(client):
        with Client(server) as asks:
            for number in range(WRITES):
                name = b"%d-%d" % (client, number)
                while "error" in (page := asks.ask(put_of(name, b'{"by":%d,"n":%d}' % (client, number)))) and time.monotonic() < end:
                    time.sleep(0.002)
                if "error" in page:
                    late.append(f"{name}: {page}")
                if promoted and (client, number) == (0, WRITES // 2):
                    asks.ask(promote_of(promoted))

    at_once(CLIENTS, write)
    names = [(client, number) for client in range(CLIENTS) for number in range(WRITES)]
    found = sources(server, [b"%d-%d" % it for it in names])
    lost = [f"{it} is {source}" for it, source in zip(names, found) if source != {"by": it[0], "n": it[1]}]
    return (late + lost or [""])[0]


def said_at_end(process):
    """What is wrong with the end of a server that was to audit, nothing where all is well."""
    out, err = process.communicate(timeout=SECONDS)
    return "" if (out, err, process.returncode) == (b"audit ok\n", b"", 0) else f"{shown(out)} {shown(err)} {process.returncode}"


def fails_in_turn(shim, file, call):
    """A call of a run fails on one file, each in turn, while clients write and another copy becomes the primary: each confirmed write is found, and all is audited."""
    name, bad, number, failed = f"each {call} of {file} failing beside clients", [], 0, True
    while failed and len(bad) < MOST_BAD_RUNS and number < MOST_CALLS:
        number += 1
        with scratch() as top, Told() as told:
            env = told.settings(shim, FAIL_CALL=call, FAIL_NAME=file, FAIL_AT=number)
            words = ["--data", Path(top, "books"), "--copies", 3, "--connections", CLIENTS + 1, "--audit"]
            with Server(*words, env=env, pass_fds=[told.writes]) as server:
                if server.listens:
                    why = written(server, b"2") or said_at_end(server.process)
                    failed = told.heard()
                else:
                    said = server.process.communicate(timeout=SECONDS)[1]
                    failed = told.heard()
                    why = "" if failed and said.startswith(b"indexd: ") and said.count(b"\n") == 1 else f"no start: {shown(said)}"
            if why:
                bad.append(f"at call {number}: {why}")
    print(f"{name}: {number - 1} calls failed, each in a run of its own", flush=True)
    check(name, bad[0] if bad else "" if 1 < number < MOST_CALLS else f"{number} runs")


def fails_while_one_joins(shim, file):
    """Each append to one file fails in turn, while a third copy joins two and clients write: each confirmed write is found, also after the next start."""
    name, bad, number, failed = f"each append of {file} failing while a copy joins", [], 0, True
    while failed and len(bad) < MOST_BAD_RUNS and number < MOST_CALLS:
        number += 1
        with scratch() as top, Told() as told:
            folder = Path(top, "books")
            with Server("--data", folder, "--copies", 2) as server:
                server.ask(*(put_of(b"before-%d" % it, b"{}") for it in range(5)))
            env = told.settings(shim, FAIL_CALL="half", FAIL_NAME=file, FAIL_AT=number)
            with Server("--data", folder, "--copies", 3, env=env, pass_fds=[told.writes]) as server:
                listens = server.listens
                why = written(server, None) if listens else ""
                failed = told.heard()
            why = why or ("" if listens or failed else "no start, and nothing failed")
            with Server("--data", folder, "--copies", 3) as server:
                names = [b"before-%d" % it for it in range(5)] + [b"%d-%d" % (client, it) for client in range(CLIENTS) for it in range(WRITES)] * listens
                why = why or ("" if server.listens and None not in sources(server, names) else "a confirmed write isn't found after the next start")
            if why:
                bad.append(f"at append {number}: {why}")
    print(f"{name}: {number - 1} appends failed, each in a run of its own", flush=True)
    check(name, bad[0] if bad else "" if 1 < number < MOST_CALLS else f"{number} runs")


def steps_beside(shim, held, first):
    """One copy of three syncs each of its appends only once another has begun as many. Copies that step one after the other, as by one thread, would wait for good in
    one of the two orders."""
    with scratch() as top, Told() as told:
        gate = Path(top, "gate")
        env = told.settings(shim, STEP_GATE=gate, STEP_HELD=f"copy-{held}.rsx", STEP_FIRST=f"copy-{first}.rsx")
        with Server("--data", Path(top, "books"), "--copies", 3, "--connections", 1, "--audit", env=env, pass_fds=[told.writes]) as server:
            gate.touch()
            got = bodies(server.ask(*(put_of(b"%d" % it, b"{}") for it in range(10))))
            holders = [it.get("_shards") for it in got]
            check(f"copy {held} syncs behind copy {first}: writes are confirmed", "" if holders == [{"failed": 0, "successful": 3, "total": 3}] * 10 else repr(got))
            check(f"copy {held} syncs behind copy {first}: and they step beside one another", "it waited for good" if told.heard() else "")
            check(f"copy {held} syncs behind copy {first}: what they did is audited", said_at_end(server.process))
