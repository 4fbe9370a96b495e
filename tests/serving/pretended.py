"""A server that answers bulks as it is told, in place of the real one."""
import json
import socket
import threading


class Pretended:
    """Answers each request in turn by one of the answers, and later ones by `written`. An answer takes the lines of the request, and gives
    its page, the ids that it wrote, and whether the connection ends. Behind a page it ends as soon as the other side ends it too."""

    def __init__(self, *answers):
        self.answers, self.ids = [*answers], []
        self.listener = socket.create_server(("127.0.0.1", 0))
        self.port = self.listener.getsockname()[1]
        self.thread = threading.Thread(target=self.serve, daemon=True)
        self.thread.start()

    def __enter__(self):
        return self

    def __exit__(self, *_):
        self.listener.shutdown(socket.SHUT_RDWR)
        self.listener.close()
        self.thread.join()

    def serve(self):
        while True:
            try:
                connection, _ = self.listener.accept()
            except OSError:
                return
            with connection, connection.makefile("rb") as requests:
                try:
                    self.answer_all(connection, requests)
                except OSError:
                    pass

    def answer_all(self, connection, requests):
        while lines := lines_of(requests):
            answer = self.answers.pop(0) if self.answers else written
            text, ids, ends = answer(lines)
            self.ids += ids
            connection.sendall(text)
            if ends and text:
                connection.shutdown(socket.SHUT_WR)
                requests.read()
            if ends:
                return


def lines_of(requests):
    """The lines of the next request's body, nothing at the end."""
    length = 0
    while (line := requests.readline()) not in (b"\r\n", b""):
        name, _, value = line.partition(b":")
        if name.lower() == b"content-length":
            length = int(value)
    return requests.read(length).splitlines()


def page_of_json(status, body):
    text = json.dumps(body, separators=(",", ":")).encode()
    return b"HTTP/1.1 %d X\r\nContent-Length: %d\r\n\r\n%s" % (status, len(text), text)


def written(lines, is_full=lambda at: False):
    """Writes each document, but for those for whose place there is no room."""
    names = [json.loads(it)["index"]["_id"] for it in lines[::2]]
    items = [{"index": {"_id": it, "error": {"reason": "WindowFull", "type": "window_full"}, "status": 429} if is_full(at) else {"_id": it, "status": 201}} for at, it in enumerate(names)]
    return page_of_json(200, {"errors": any("error" in it["index"] for it in items), "items": items, "took": 0}), [it for at, it in enumerate(names) if not is_full(at)], False


def closed(lines):
    """Ends the connection without a page."""
    return b"", [], True


def page(text):
    return lambda lines: (text, [], False)


def refused_page(status, reason):
    """Refuses the request whole; behind a body that is too large the connection ends."""
    return lambda lines: (page_of_json(status, {"error": {"reason": reason, "type": "x"}, "status": status}), [], status == 413)
