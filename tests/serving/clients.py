"""Many clients: thousands of connections that wait, pools that write and read, more connections than files, and one thread for all."""
import contextlib
import resource
import select
import socket
import threading
import time

from checking import check, shown
from serving.pages import PUT, Client, bodies, get_of, page_names, put_of
from serving.server import SECONDS, Server, at_once, other

IDLE, DRIPPING, ASKING, POOLED = 5_000, 100, 20, 200
PROMPT_SECONDS = 1
POOL_SECONDS = 10
FEW_FILES = 64
MOST_FILES = 2 * (IDLE + DRIPPING + ASKING)


def clients():
    beside_waiting_ones()
    pooled("200 pooled clients", POOL_SECONDS)
    pooled("200 pooled clients of three copies", 3, "--copies", 3)
    one_thread()
    few_files()


class Slow:
    """How long the longest answer took, and what went wrong."""

    def __init__(self):
        self.longest, self.faults = 0, []

    def time(self, client, request):
        begun = time.monotonic()
        page = said_to(client, request)
        self.longest = max(self.longest, time.monotonic() - begun)
        if "none" in page:
            self.faults.append(page["none"])
        return page

    def why(self):
        if self.faults:
            return self.faults[0]
        return "" if self.longest < PROMPT_SECONDS else f"the longest took {self.longest:.1f} s"


@contextlib.contextmanager
def many_files():
    """Lets this process and the servers that it starts have a file for each of many connections."""
    before = resource.getrlimit(resource.RLIMIT_NOFILE)
    wanted = max(before[0], MOST_FILES)
    if before[1] != resource.RLIM_INFINITY:
        wanted = min(wanted, before[1])
    resource.setrlimit(resource.RLIMIT_NOFILE, (wanted, before[1]))
    try:
        yield wanted >= MOST_FILES
    finally:
        resource.setrlimit(resource.RLIMIT_NOFILE, before)


def beside_waiting_ones():
    """Idle connections and those that send a byte a second, beside clients that ask: each of these is answered at once, and the others once they ask."""
    with many_files() as has_files, contextlib.ExitStack() as opened:
        check(f"{MOST_FILES} files may be open", "" if has_files else "the limit of open files is lower: see ulimit -Hn")
        if not has_files:
            return
        server = opened.enter_context(Server())
        try:
            waiting = [opened.enter_context(server.connect()) for _ in range(IDLE + DRIPPING)]
        except OSError as fault:
            check(f"{IDLE + DRIPPING} connections at once", repr(fault))
            return
        idle, dripping = waiting[:IDLE], waiting[IDLE:]
        ended, slow = threading.Event(), Slow()
        drip = threading.Thread(target=drip_until, args=(ended, dripping, get_of(b"0-0")))
        drip.start()
        at_once(ASKING, lambda client: write_and_read(server, client, 50, slow))
        ended.set()
        drip.join()
        check(f"{ASKING} clients beside {IDLE} idle and {DRIPPING} dripping connections", slow.why())
        rests = [answer_of(it, b"") for it in dripping]
        check("the dripping connections, once their requests are whole", "" if rests == [(200, "")] * DRIPPING else repr(rests[:3]))
        late = [answer_of(it, get_of(b"0-0")) for it in idle]
        check("the idle connections, once they ask", "" if late == [(200, "")] * IDLE else repr([it for it in late if it != (200, "")][:3]))


def drip_until(ended, connections, request):
    """Sends a byte a second over each connection, some of the request, and the rest of it at the end."""
    sent = 0
    while sent < len(request) - 1 and not (sent >= 5 and ended.is_set()):
        for it in connections:
            it.sendall(request[sent:sent + 1])
        sent += 1
        ended.wait(1) if sent < 5 else time.sleep(1)
    ended.wait(SECONDS)
    for it in connections:
        it.sendall(request[sent:])


def answer_of(connection, request):
    """The name of the page that answers a request over a connection."""
    try:
        connection.sendall(request)
        got = b""
        while not (got and got.endswith(b"}")) and (some := connection.recv(65536)):
            got += some
        return page_names(got)[0] if got else "the connection ended"
    except OSError as fault:
        return repr(fault)


def write_and_read(server, name, count, slow):
    """Writes documents over a connection, and reads each of them before the next."""
    try:
        with Client(server) as client:
            for number in range(count):
                document = b"%d-%d" % (name, number)
                wrote = slow.time(client, put_of(document, b'{"n":%d}' % number))
                found = slow.time(client, get_of(document))
                assert found["_source"] == {"n": number} and found["_seq_no"] == wrote["_seq_no"], found
    except (AssertionError, OSError, ValueError, KeyError) as fault:
        slow.faults.append(f"client {name}: {fault!r}"[:200])


def pooled(name, seconds, *words):
    """Clients that each keep a connection, and write and read what they wrote for some seconds; what was acknowledged is found afterwards."""
    with Server(*words) as server:
        wrote, faults, all_begun = {}, [], threading.Barrier(POOLED, timeout=SECONDS)

        def run_client(client):
            try:
                with Client(server) as it:
                    # (else the last ones may not have begun when the time is over)
                    all_begun.wait()
                    number, end = 0, time.monotonic() + seconds
                    while time.monotonic() < end:
                        document = b"%d-%d" % (client, number)
                        page = it.ask(put_of(document, b'{"n":%d}' % number))
                        wrote[document] = page["_seq_no"]
                        found = it.ask(get_of(document))
                        assert found["_seq_no"] == page["_seq_no"] and found["_source"] == {"n": number}, found
                        number += 1
                    assert number, "nothing was answered"
            except (AssertionError, OSError, ValueError, KeyError, threading.BrokenBarrierError) as fault:
                faults.append(f"client {client}: {fault!r}"[:200])

        at_once(POOLED, run_client)
        check(f"{name} write and read their own writes", f"{len(faults)} faults: {faults[0]}" if faults else "")
        lost = lost_of(server, wrote)
        check(f"{name}: their {len(wrote)} acknowledged writes are found", f"{len(lost)} aren't: {lost[:3]}" if lost else "" if wrote else "there are none")
        numbers = sorted(wrote.values())
        check(f"{name}: each write has a number of its own", "" if numbers == [*range(len(numbers))] else f"{len(numbers)} up to {numbers[-1:]}")


def lost_of(server, wrote):
    """The documents that a get doesn't find with their sequence numbers."""
    names, lost = [*wrote], []
    for at in range(0, len(names), 500):
        some = names[at:at + 500]
        found = [it.get("_seq_no") for it in bodies(server.ask(*map(get_of, some)))]
        lost += [it for it, seq in zip(some, found + [None] * len(some)) if seq != wrote[it]]
    return lost


def one_thread():
    """One working thread serves all connections, and none of them is held up by one that always has a request."""
    with Server("--threads", 1) as server, contextlib.ExitStack() as opened:
        kept = [opened.enter_context(Client(server)) for _ in range(50)]
        wrote = [said_to(it, put_of(b"%d" % at, b'{"n":%d}' % at)) for at, it in enumerate(kept)]
        check("--threads 1: 50 connections write", "" if [it.get("result") for it in wrote] == ["created"] * 50 else repr(wrote[:6]))
        found = [said_to(it, get_of(b"%d" % at)) for at, it in enumerate(kept)]
        check("--threads 1: and read", "" if [it.get("_source") for it in found] == [{"n": at} for at in range(50)] else repr(found[:6]))
        busy = opened.enter_context(server.connect())
        many = threading.Thread(target=send_and_read, args=(busy, get_of(b"0"), 10_000))
        many.start()
        slow = Slow()
        for at, it in enumerate(kept):
            slow.time(it, get_of(b"%d" % at))
        many.join()
        check("--threads 1: 50 connections beside one that pipelines", slow.why())


def send_and_read(connection, request, count):
    """Sends a request many times, and reads what comes meanwhile."""
    connection.setblocking(False)
    left, got, end = request * count, 0, time.monotonic() + SECONDS
    with contextlib.suppress(OSError):
        while time.monotonic() < end:
            reads, writes, _ = select.select([connection], [connection] if left else [], [], 1)
            if writes:
                left = left[connection.send(left[:65536]):]
            if reads and not (some := connection.recv(1 << 20)):
                return got
            elif reads:
                got += some.count(b"HTTP/1.1 ")
            elif not left:
                return got
    return got


def few_files():
    """More connections than the server may have files: those over the limit wait, are served once others end, and one line says so."""
    with Server(most_files=FEW_FILES) as server, contextlib.ExitStack() as opened:
        server.ask(PUT)
        connections = [opened.enter_context(server.connect()) for _ in range(100)]
        for it in connections:
            it.sendall(get_of(b"1"))
        time.sleep(2)
        ready = {*select.select(connections, [], [], 0)[0]}
        check(f"of 100 connections some are served with {FEW_FILES} files", "" if FEW_FILES // 2 <= len(ready) < FEW_FILES else str(len(ready)))
        first = [answer_of(it, b"") for it in ready]
        check("each of them has its page", "" if {*first} == {(200, "")} else repr(first[:3]))
        again = [answer_of(it, get_of(b"1")) for it in ready]
        check("and goes on", "" if {*again} == {(200, "")} else repr(again[:3]))
        for it in ready:
            it.close()
        late = [answer_of(it, b"") for it in connections if it not in ready]
        check("the others are served once these have ended", "" if {*late} == {(200, "")} else repr(late[:3]))
        said = server.errors_said()
        check("one line says that there are no more files", "" if len(said) == 1 and said[0].startswith("indexd: ") and "file" in said[0] else repr(said[:3]))


def patience():
    """What a server waits for: idle connections for as long as it is told, requests and pages for thirty seconds."""
    idle_ones()
    with Server() as server:
        server.ask(put_of(b"1", b'{"s":"%s"}' % (b"x" * 60_000)), PUT.replace(b"_doc/1 ", b"_doc/2 "))
        tries = {it.__name__: it for it in (half_a_request, a_request_that_never_ends, a_request_of_twenty_seconds, a_head_of_twenty_seconds, pages_that_nobody_reads)}
        said = {}
        ran = [threading.Thread(target=lambda name=name, it=it: said.update({name: it(server)})) for name, it in tries.items()]
        for it in ran:
            it.start()
        time.sleep(1)
        slow = Slow()
        while any(it.is_alive() for it in ran):
            write_and_read(server, len(said), 1, slow)
            time.sleep(0.5)
        check("a client beside connections that are waited for", slow.why())
        for name in tries:
            check(name.replace("_", " "), said.get(name, "it didn't end"))


def idle_ones():
    with Server("--idle-s", 1) as server:
        with server.connect() as silent, server.connect() as one, Client(server) as busy:
            begun = time.monotonic()
            one.sendall(PUT)
            answer = answer_of(one, b"")
            for _ in range(8):
                time.sleep(0.4)
                found = said_to(busy, get_of(b"1"))
            check("--idle-s 1: a connection that asks again goes on", "" if found.get("found") else repr(found))
            check("--idle-s 1: one that asked once was answered", "" if answer == (201, "") else repr(answer))
            for name, it in (("one that asks nothing", silent), ("one that asked once", one)):
                why = ended_within(it, 5, begun)
                check(f"--idle-s 1: {name} ends", why)
    with Server("--idle-s", 30) as server, Client(server) as client:
        client.ask(PUT)
        time.sleep(6)
        found = said_to(client, get_of(b"1"))
        check("--idle-s 30: a connection is kept for six seconds", "" if found.get("found") else repr(found))


def said_to(client, request):
    """The page of a request, or why there is none."""
    try:
        return client.ask(request)
    except (OSError, ValueError) as fault:
        return {"none": repr(fault)}


def ended_within(connection, seconds, begun):
    """Why a connection hasn't ended, with nothing more said on it, within so many seconds."""
    connection.settimeout(max(0.1, begun + seconds - time.monotonic()))
    try:
        got = connection.recv(65536)
        return other(got, b"")
    except TimeoutError:
        return f"it is there after {seconds} s"
    except OSError:
        return ""


def half_a_request(server):
    with server.connect() as connection:
        connection.sendall(PUT[:-1])
        time.sleep(20)
        if select.select([connection], [], [], 0)[0]:
            return "it ended within 20 s"
        return ended_within(connection, 25, time.monotonic())


def a_request_that_never_ends(server):
    """A byte a second: each comes in time, and the request doesn't."""
    with server.connect() as connection:
        begun = time.monotonic()
        connection.sendall(PUT[:20])
        try:
            while time.monotonic() < begun + 45 and not select.select([connection], [], [], 1)[0]:
                connection.sendall(b"x")
        except OSError:
            pass
        took = time.monotonic() - begun
        return "" if 25 < took < 40 else f"it took {took:.0f} s"


def a_request_of_twenty_seconds(server):
    with server.connect() as connection:
        for at in (0, 1):
            connection.sendall(PUT[at * 60:(at + 1) * 60])
            time.sleep(20 * (1 - at))
        answer = answer_of(connection, b"")
        return "" if answer == (200, "") else repr(answer)


def a_head_of_twenty_seconds(server):
    with server.connect() as connection:
        for byte in get_of(b"1")[:20]:
            connection.sendall(bytes([byte]))
            time.sleep(1)
        answer = answer_of(connection, get_of(b"1")[20:])
        return "" if answer == (200, "") else repr(answer)


def pages_that_nobody_reads(server):
    """Requests whose pages are more than a socket holds: what is read of them after thirty seconds isn't all."""
    asked_for = 2_000
    with server.connect() as connection:
        connection.setblocking(False)
        left = get_of(b"1") * asked_for
        end = time.monotonic() + 36
        while time.monotonic() < end:
            with contextlib.suppress(BlockingIOError):
                try:
                    left = left[connection.send(left):] if left else left
                except OSError:
                    break
            time.sleep(0.1)
        connection.settimeout(SECONDS)
        got = 0
        with contextlib.suppress(OSError):
            while some := connection.recv(1 << 20):
                got += len(some)
        return "" if 60_000 < got < 60_000 * asked_for else f"{got} bytes were read"
