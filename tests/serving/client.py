"""Clients as users have them: the example of a shell, and the classes of Debian's python3-elasticsearch."""
import os
import shutil
import subprocess
import tempfile
from pathlib import Path

from checking import ROOT, check, program
from serving.pages import page_names
from serving.server import SECONDS, Server, free_port, other


def example():
    if not shutil.which("curl"):
        print("curl isn't installed: example skipped", flush=True)
        return
    script, port = ROOT / "examples/books.sh", str(free_port())
    ran = subprocess.run([script, port], stdin=subprocess.DEVNULL, capture_output=True, timeout=SECONDS, env={**os.environ, "INDEXD_PROGRAM": program()})
    wanted = script.with_suffix(".out").read_bytes().replace(b":9200", b":" + port.encode(), 1)
    check("examples/books.sh", other(ran.stdout + ran.stderr, wanted))


CLIENT = """
import sys
from elasticsearch.connection import Urllib3HttpConnection
from elasticsearch.exceptions import ConflictError, NotFoundError
c = Urllib3HttpConnection(host="127.0.0.1", port=int(sys.argv[1]))
def ask(method, url, params=None, body=None):
    status, headers, text = c.perform_request(method, url, params=params, body=body)
    return status, text
def fails(kind, *words, **more):
    try:
        c.perform_request(*words, **more)
    except kind as fault:
        return fault.status_code, fault.error
print(ask("PUT", "/books/_doc/1", {"refresh": "true"}, b'{"title":"Faust"}'))
print(ask("GET", "/books/_doc/1"))
print(ask("POST", "/books/_search", None, b'{"query":{"match_all":{}}}'))
print(ask("POST", "/_bulk", {"refresh": "true"}, b'{"index":{"_index":"books","_id":"2"}}\\n{}\\n'))
print(ask("GET", "/books/_count"))
print(fails(ConflictError, "PUT", "/books/_create/1", body=b"{}"))
print(fails(NotFoundError, "GET", "/other/_doc/1"))
print(ask("DELETE", "/books/_doc/1"))
"""
CLIENT_OUTPUT = b"""(201, '{"_id":"1","_index":"books","_primary_term":1,"_seq_no":0,"_shards":{"failed":0,"successful":1,"total":1},"_version":1,"result":"created"}')
(200, '{"_id":"1","_index":"books","_primary_term":1,"_seq_no":0,"_source":{"title":"Faust"},"_version":1,"found":true}')
(200, '{"_shards":{"failed":0,"skipped":0,"successful":1,"total":1},"hits":{"hits":[{"_id":"1","_index":"books","_score":null,"_source":{"title":"Faust"}}],"max_score":null,"total":{"relation":"eq","value":1}},"timed_out":false,"took":0}')
(200, '{"errors":false,"items":[{"index":{"_id":"2","_index":"books","_primary_term":1,"_seq_no":1,"_shards":{"failed":0,"successful":1,"total":1},"_version":1,"result":"created","status":201}}],"took":0}')
(200, '{"_shards":{"failed":0,"skipped":0,"successful":1,"total":1},"count":2}')
(409, 'version_conflict_engine_exception')
(404, 'index_not_found_exception')
(200, '{"_id":"1","_index":"books","_primary_term":1,"_seq_no":2,"_shards":{"failed":0,"successful":1,"total":1},"_version":2,"result":"deleted"}')
"""


def client():
    python = "/usr/bin/python3"
    has = os.access(python, os.X_OK) and subprocess.run([python, "-c", "import elasticsearch.connection"], capture_output=True).returncode == 0
    if not has:
        print("python3-elasticsearch isn't installed: client skipped", flush=True)
        return
    with Server() as server:
        ran = subprocess.run([python, "-", str(server.port)], input=CLIENT.encode(), capture_output=True, timeout=SECONDS)
        check("the connection class of elasticsearch", other(ran.stdout + ran.stderr[-300:], CLIENT_OUTPUT))
