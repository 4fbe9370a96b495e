"""What a browser lets a page of another origin do with a server, where chromium is installed."""
import json
import os
import shutil
import signal
import subprocess
import tempfile
import threading
from http.server import BaseHTTPRequestHandler, ThreadingHTTPServer

from serving.pages import put_of, sources
from serving.server import SECONDS, Server, is_kept

# What it does ends in a POST to its own server, which has what it found.
PAGE = """<!doctype html><script>
async function got(ask) { try { return await ask(); } catch (fault) { return fault.name; } }
async function all() {
  const server = "http://127.0.0.1:%d/books/";
  const text = JSON.stringify({n: 2});
  const read = await got(async () => (await (await fetch(server + "_doc/kept")).json())._source);
  const sent = await got(async () => (await fetch(server + "_doc/sent", {mode: "no-cors", method: "POST", body: text})).type);
  const bulk = '{"delete":{"_id":"kept"}}\\n{"index":{"_id":"bulk"}}\\n{}\\n';
  const posted = await got(async () => (await fetch(server + "_bulk", {mode: "no-cors", method: "POST", body: bulk})).type);
  const put = await got(async () => (await fetch(server + "_doc/put", {method: "PUT", headers: {"content-type": "application/json"}, body: text})).status);
  await fetch("/found", {method: "POST", body: JSON.stringify([read, sent, posted, put])});
}
all();
</script>"""


class Site:
    """A web server of another origin, with one page, and what that page found."""

    def __init__(self):
        self.port, self.found, self.has_found = None, None, threading.Event()
        site = self

        class Handler(BaseHTTPRequestHandler):
            def do_GET(self):
                self.send_page(PAGE.encode() % site.port)

            def do_POST(self):
                site.found = json.loads(self.rfile.read(int(self.headers["content-length"])))
                self.send_page(b"")
                site.has_found.set()

            def send_page(self, page):
                self.send_response(200)
                self.send_header("content-type", "text/html")
                self.send_header("content-length", str(len(page)))
                self.end_headers()
                self.wfile.write(page)

            def log_message(self, *_):
                pass

        self.server = ThreadingHTTPServer(("127.0.0.1", 0), Handler)
        self.origin = f"http://127.0.0.1:{self.server.server_address[1]}"
        threading.Thread(target=self.server.serve_forever, daemon=True).start()

    def __enter__(self):
        return self

    def __exit__(self, *_):
        self.server.shutdown()
        self.server.server_close()


def found_by(chromium, site):
    """What the page of a site found, once a browser has shown it."""
    with tempfile.TemporaryDirectory(ignore_cleanup_errors=True) as folder:
        words = [chromium, "--headless", "--no-sandbox", "--disable-gpu", "--no-first-run", "--disable-background-networking", f"--user-data-dir={folder}",
                 "--remote-debugging-port=0", site.origin]
        browser = subprocess.Popen(words, stdin=subprocess.DEVNULL, stdout=subprocess.DEVNULL, stderr=subprocess.DEVNULL, start_new_session=True)
        site.has_found.wait(SECONDS)
        os.killpg(browser.pid, signal.SIGKILL)
        browser.wait()
    return site.found


def browsed():
    """A page of another origin writes nothing and reads nothing, and one of an allowed origin does both."""
    chromium = shutil.which("chromium")
    if not chromium:
        print("skipped the pages of a browser: chromium isn't installed")
        return
    with Site() as site, Server() as server:
        server.ask(put_of(b"kept", b'{"n":1}'))
        site.port = server.port
        is_kept("what a page finds", found_by(chromium, site), ["TypeError", "opaque", "opaque", "TypeError"])
        is_kept("what is there after it", sources(server, [b"kept", b"sent", b"bulk", b"put"]), [{"n": 1}, None, None, None])
    with Site() as site, Server("--cors", site.origin) as server:
        server.ask(put_of(b"kept", b'{"n":1}'))
        site.port = server.port
        is_kept("what a page of an allowed origin finds", found_by(chromium, site), [{"n": 1}, "opaque", "opaque", 201])
        is_kept("what is there after it", sources(server, [b"kept", b"sent", b"bulk", b"put"]), [None, {"n": 2}, {}, {"n": 2}])
