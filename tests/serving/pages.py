"""Requests, the pages that answer them, and what is done over one connection."""
import json
import socket

PUT = b'PUT /books/_doc/1 HTTP/1.1\r\nhost: x\r\ncontent-length: 7\r\n\r\n{"n":1}'


def put_of(name, text):
    return b"PUT /books/_doc/%s HTTP/1.1\r\ncontent-length: %d\r\n\r\n%s" % (name, len(text), text)


def get_of(name):
    return b"GET /books/_doc/%s HTTP/1.1\r\n\r\n" % name


def promote_of(copy, method=b"POST"):
    return method + b" /books/_promote/" + copy + b" HTTP/1.1\r\n\r\n"


def length_in(head):
    return int(head.split(b"content-length: ")[1].split(b"\r\n")[0])


def pages_of(got):
    """The head and the JSON of each page in the bytes."""
    while got:
        head, _, rest = got.partition(b"\r\n\r\n")
        length = length_in(head)
        yield head, json.loads(rest[:length])
        got = rest[length:]


def page_names(got):
    """The status of each page in the bytes, and the name of its fault ("" where it is none)."""
    return [(int(head.split()[1]), name_of(body.get("error", {}))) for head, body in pages_of(got)]


def name_of(error):
    """The short name of a fault: a server that greets has a sentence as its reason."""
    return error.get("name", error.get("reason", ""))


def bodies(got):
    """The JSON of each page in the bytes."""
    return [body for _, body in pages_of(got)]


def page_of(pages):
    """The JSON of the next page of a connection."""
    head = b""
    while not head.endswith(b"\r\n\r\n"):
        line = pages.readline()
        if not line:
            raise OSError("the connection ended")
        head += line
    return json.loads(pages.read(length_in(head)))


class Client:
    """A connection that is kept, over which one request follows another's page."""

    def __init__(self, server):
        self.connection = server.connect()
        self.connection.setsockopt(socket.IPPROTO_TCP, socket.TCP_NODELAY, 1)
        self.pages = self.connection.makefile("rb")

    def __enter__(self):
        return self

    def __exit__(self, *_):
        self.pages.close()
        self.connection.close()

    def ask(self, request):
        return asked(self.connection, self.pages, request)


def asked(connection, pages, request):
    connection.sendall(request)
    return page_of(pages)


def sources(server, names):
    """The source of each document, nothing for one that is missing."""
    return [it.get("_source") for it in bodies(server.ask(*map(get_of, names)))]


def request_of(deed):
    what, name, *source = deed
    if what == "put":
        return put_of(name, *source)
    return {"get": get_of, "promote": promote_of, "delete": lambda it: b"DELETE /books/_doc/%s HTTP/1.1\r\n\r\n" % it}[what](name)


def write_by(deed):
    """The id and the source that a deed writes, no source where it deletes, nothing where it is no write."""
    return {"put": deed[1:], "delete": (deed[1], None)}.get(deed[0])


def do_in_turn(server, deeds, then=lambda: None):
    """The page of each deed, over one connection, which has the page of one before the next is sent; and what `then` gives behind each."""
    with server.connect() as connection:
        connection.setsockopt(socket.IPPROTO_TCP, socket.TCP_NODELAY, 1)
        pages = connection.makefile("rb")
        return [(asked(connection, pages, request_of(it)), then()) for it in deeds]


def puts(first, end, size=0):
    return [("put", b"%d" % it, b'{"n":%d%s}' % (it, b',"s":"%s"' % (b"x" * size) if size else b"")) for it in range(first, end)]
