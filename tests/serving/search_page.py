"""examples/search.html in a browser, over the books of examples/, where chromium is installed."""
import functools
import html
import re
import shutil
import subprocess
import tempfile
import threading
from http.server import SimpleHTTPRequestHandler, ThreadingHTTPServer
from urllib.parse import urlencode

from checking import ROOT, check, shown
from serving.pages import page_names
from serving.server import SECONDS, Server, is_kept

EXAMPLES = ROOT / "examples"


class Quiet(SimpleHTTPRequestHandler):
    def log_message(self, *_):
        pass


class Examples:
    """A web server of the files in examples/."""

    def __enter__(self):
        self.server = ThreadingHTTPServer(("127.0.0.1", 0), functools.partial(Quiet, directory=EXAMPLES))
        threading.Thread(target=self.server.serve_forever, daemon=True).start()
        return f"http://127.0.0.1:{self.server.server_address[1]}"

    def __exit__(self, *_):
        self.server.shutdown()
        self.server.server_close()


def page_of(chromium, site, port, *asked, wait=SECONDS):
    """The page once it has its answers."""
    address = f"{site}/search.html?{urlencode({'server': f'http://127.0.0.1:{port}/shop'})}#{urlencode(asked)}"
    with tempfile.TemporaryDirectory(ignore_cleanup_errors=True) as folder:
        words = [chromium, "--headless", "--no-sandbox", "--disable-gpu", "--no-first-run", "--disable-background-networking", f"--user-data-dir={folder}",
                 "--virtual-time-budget=5000", "--dump-dom", address]
        return subprocess.run(words, stdin=subprocess.DEVNULL, capture_output=True, timeout=wait).stdout.decode()


def text_of(part):
    return html.unescape(re.sub("<[^>]*>", "", part))


def titles_of(page):
    return [text_of(it) for it in re.findall("<h2>(.*?)</h2>", page)]


def marks_of(page):
    return [text_of(it) for it in re.findall("<mark>(.*?)</mark>", page)]


def said_by(page):
    return text_of(re.search('id="said"[^>]*>(.*?)</p>', page).group(1))


def counts_of(page):
    """How many books each shelf has, of those that have some."""
    found = re.findall('value="([^"]*)"><span>[^<]*</span><span class="quiet">([0-9]+)</span>', page)
    return [(shelf, int(count)) for shelf, count in found if count != "0"]


def searched():
    """What is searched is found, marked and counted by shelf; a page leads to the next; and without leave nothing is shown."""
    chromium = shutil.which("chromium")
    if not chromium:
        print("skipped examples/search.html: chromium isn't installed")
        return
    with Examples() as site, Server("--cors", site, "--mapping", EXAMPLES / "shop.json", index="shop") as server:
        books = (EXAMPLES / "shop.ndjson").read_bytes()
        got = server.ask(b"POST /shop/_bulk?refresh HTTP/1.1\r\ncontent-length: %d\r\n\r\n%s" % (len(books), books))
        is_kept("the books are written", page_names(got), [(200, "")])
        check_pages(functools.partial(page_of, chromium, site, server.port))
    with Examples() as site, Server(index="shop") as server:
        said = said_by(page_of(chromium, site, server.port))
        check("a page that isn't allowed says so", "" if said.startswith("No answer from ") else said)


def check_pages(page_of):
    first = page_of()
    is_kept("all books, and the first ten of them", (said_by(first), len(titles_of(first)), titles_of(first)[0]), ("40 books", 10, "Alice's Adventures in Wonderland"))
    check("all books have a next page", "" if "1 to 10 of 40" in first else shown(first.encode()))
    last = page_of(("from", 30))
    is_kept("the last ten", (len(titles_of(last)), titles_of(last)[-1]), (10, "Wuthering Heights"))
    london = page_of(("q", "LONDON"))
    is_kept("a word of the summaries", titles_of(london), ["Around the World in Eighty Days", "Black Beauty", "Dracula", "The Adventures of Sherlock Holmes", "The War of the Worlds"])
    is_kept("its marks", marks_of(london), ["London"] * 5)
    is_kept("its shelves", counts_of(london), [("adventure", 1), ("children", 1), ("crime", 1), ("horror", 1), ("science fiction", 1)])
    both = page_of(("q", "world london"))
    is_kept("two words, one in the title and one in the summary", (said_by(both), titles_of(both), marks_of(both)), ("1 book", ["Around the World in Eighty Days"], ["World", "London", "world"]))
    shelves = page_of(("q", "london"), ("shelf", "crime"), ("shelf", "horror"))
    is_kept("two shelves", titles_of(shelves), ["Dracula", "The Adventures of Sherlock Holmes"])
    is_kept("shelves that aren't chosen are counted too", counts_of(shelves), counts_of(london))
    none = page_of(("q", "london submarine"))
    is_kept("words that no book has", (said_by(none), titles_of(none), counts_of(none)), ("0 books", [], []))
    odd = page_of(("q", "<b>brontë\" OR *"))
    is_kept("what isn't a word changes nothing", said_by(odd), "0 books")
