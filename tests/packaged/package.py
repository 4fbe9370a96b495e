"""The package, which is built once, what is unpacked of it, and a service that is started as the unit does it."""
import functools
import json
import os
import shlex
import subprocess
import tempfile
import urllib.error
import urllib.request
from pathlib import Path

from checking import ROOT, check
from serving.server import SECONDS, START_SECONDS, Server

UNIT = "lib/systemd/system/indexd.service"
OPTIONS = "etc/indexd/options"


def ran(*words, seconds=SECONDS, **more):
    return subprocess.run([*map(str, words)], stdin=subprocess.DEVNULL, capture_output=True, text=True, errors="replace", timeout=seconds, **more)


def failure(ran):
    """What a command said that failed, nothing where it didn't."""
    return f"status {ran.returncode}: {(ran.stderr + ran.stdout)[-600:]!r}" if ran.returncode else ""


def build(folder, mask=-1, **settings):
    """The package that packaging/deb makes in a new folder, nothing where it fails."""
    folder.mkdir()
    built = ran(ROOT / "packaging/deb", folder, env={**os.environ, **settings}, umask=mask)
    why, files = failure(built), [*folder.iterdir()]
    if not why and built.stdout != "".join(f"{it}\n" for it in files):
        why = f"it prints {built.stdout!r}, and there is {files}"
    check("packaging/deb makes one package, and prints its path", why)
    return None if why else files[0]


@functools.cache
def scratch():
    """A folder that is removed at the end."""
    return tempfile.TemporaryDirectory(prefix="indexd-packaging-")


@functools.cache
def package():
    return build(Path(scratch().name, "package"))


@functools.cache
def unpacked():
    """The folder of what is in the package, nothing where there is no package."""
    tree = Path(scratch().name, "tree")
    why = failure(ran("dpkg-deb", "-x", package(), tree)) if package() else "there is no package"
    check("the package is unpacked", why)
    return None if why else tree


def command_line(tree, port, places):
    """The words of ExecStart in an unpacked package, with those of its options. Their port is another one, and `places` says where to find what the unit names."""
    options, line = (next(it.partition("=")[2] for it in (tree / file).read_text().splitlines() if it.startswith(name))
                     for file, name in ((OPTIONS, "INDEXD_OPTIONS="), (UNIT, "ExecStart=")))
    line = line.replace("$INDEXD_OPTIONS", shlex.split(options)[0]).replace("--port 9200", f"--port {port}")
    return [str(places.get(it, it)) for it in line.split()]


class Service(Server):
    """A server that is started by the words of a command line."""

    def __init__(self, words, port, **more):
        self.port = port
        self.process = subprocess.Popen(words, stdin=subprocess.DEVNULL, stdout=subprocess.PIPE, stderr=subprocess.PIPE, **more)
        self.hear(START_SECONDS)

    def answer(self, method, path, body=None):
        """The status and the JSON of a page, status 0 where there is none."""
        asked = urllib.request.Request(f"http://127.0.0.1:{self.port}{path}", body, {"content-type": "application/json"}, method=method)
        try:
            with urllib.request.build_opener(urllib.request.ProxyHandler({})).open(asked, timeout=SECONDS) as page:
                return page.status, json.load(page)
        except urllib.error.HTTPError as fault:
            return fault.code, json.load(fault)
        except OSError as fault:
            return 0, {"error": str(fault)}

