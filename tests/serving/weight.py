"""What writes take of memory for good."""
from checking import check
from serving.pages import put_of
from serving.server import Server

DOCUMENTS, TOGETHER = 6_000, 100
REFRESH = b"POST /books/_refresh HTTP/1.1\r\n\r\n"


def weight():
    """A copy of several keeps no more of a write than one alone, but where it is audited: then there is its journal too."""
    alone, together, audited = grown(1), grown(3), grown(3, "--audit", "--connections", DOCUMENTS)
    check("what a write of three copies takes of memory", "" if together < 4.5 * alone else f"{together:.0f} bytes, and {alone:.0f} over one copy")
    check("what it takes with journals", "" if together < audited else f"{audited:.0f} bytes, and {together:.0f} without them")


def memory_of(server):
    return next(int(it.split()[1]) * 1024 for it in open(f"/proc/{server.process.pid}/status") if it.startswith("VmRSS"))


def grown(copies, *words):
    """By how many bytes the server's memory grows with a write, each of another document of 140 bytes."""
    with Server("--copies", copies, *words) as server:
        server.ask(REFRESH)
        before = memory_of(server)
        for first in range(0, DOCUMENTS, TOGETHER):
            server.ask(*(put_of(b"%d" % it, b'{"n":%d,"note":"%s"}' % (it, b"x" * 120)) for it in range(first, first + TOGETHER)))
        server.ask(REFRESH)
        return (memory_of(server) - before) / DOCUMENTS
