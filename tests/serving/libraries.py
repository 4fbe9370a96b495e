"""Programs of other languages, and a log shipper, that ask a server with `--greet` by what they send by default. One that isn't installed is passed over."""
import json
import shutil
import subprocess
import tempfile
import time
from pathlib import Path

from checking import check, shown
from serving.pages import bodies
from serving.server import SECONDS, Server, other

RUBY = r"""
require "elasticsearch"
es = Elasticsearch::Client.new(url: "http://127.0.0.1:#{ARGV[0]}")
def fault
  yield
  "none"
rescue => why
  why.class.name[/\w+$/]
end
at = {index: "books"}
puts [es.ping, es.info["version"]["number"], es.indices.exists(index: "books"), es.indices.exists(index: "other")].join(" ")
puts es.index(**at, id: "1", body: {title: "Faust", year: 1808}, refresh: "wait_for")["result"]
puts es.get(**at, id: "1")["_source"]["title"]
puts es.exists(**at, id: "1"), es.exists(**at, id: "2")
puts fault { es.create(**at, id: "1", body: {}) }, fault { es.get(**at, id: "2") }, fault { es.search(**at, body: {query: {nothing: {}}}) }
puts es.bulk(**at, refresh: true, body: (1..300).map { |it| {index: {_id: "m#{it}", data: {year: it}}} })["errors"]
puts es.search(**at, size: 5, body: {query: {range: {year: {gte: 1}}}})["hits"]["hits"].length, es.count(**at)["count"]
puts es.indices.get_mapping(**at)["books"]["mappings"]["properties"]["year"]["type"], es.cluster.health["status"]
puts es.delete(**at, id: "1")["result"]
"""
RUBY_OUTPUT = "true 7.10.2 true false\ncreated\nFaust\ntrue\nfalse\nConflict\nNotFound\nBadRequest\nfalse\n5\n301\nlong\ngreen\ndeleted\n"

# One connection is kept, through pauses around the time for which it may be.
NODE = r"""
const http = require("http");
const port = +process.argv[2], agent = new http.Agent({ keepAlive: true, maxSockets: 1 });
const ask = (method, path, body, headers = {}) => new Promise((good, bad) => {
    const sent = http.request({ agent, port, method, path, headers: { ...(body ? { "content-length": Buffer.byteLength(body) } : {}), ...headers } }, got => {
        let text = "";
        got.on("data", it => text += it).on("end", () => good([got.statusCode, text.length]));
    }).on("error", bad);
    if (headers.expect) sent.on("continue", () => { console.log("asked to go on"); sent.end(body); }); else sent.end(body);
});
(async () => {
    console.log((await ask("PUT", "/books/_doc/1?refresh=wait_for", "{\"n\":1}", { expect: "100-continue" }))[0]);
    for (let it = 0; it < 3; it++) console.log(...await ask("HEAD", "/books/_doc/" + it));
    for (let it = 0; it < 4; it++) {
        await new Promise(on => setTimeout(on, 1700 + 100 * it));
        console.log((await ask("PUT", "/books/_doc/" + it, "{}"))[0]);
    }
    console.log((await fetch(`http://127.0.0.1:${port}/books/_count`)).status);
    agent.destroy();
})();
"""
NODE_OUTPUT = "asked to go on\n201\n404 0\n200 0\n404 0\n201\n200\n201\n201\n200\n"

JAVA = r"""
import java.net.URI;
import java.net.http.*;
import java.time.Duration;
public class Asking {
    public static void main(String[] words) throws Exception {
        HttpClient client = HttpClient.newHttpClient();
        String top = "http://127.0.0.1:" + words[0] + "/books/";
        for (boolean waits : new boolean[] {false, true}) {
            HttpRequest put = HttpRequest.newBuilder(URI.create(top + "_doc/" + waits)).timeout(Duration.ofSeconds(20)).expectContinue(waits)
                .PUT(HttpRequest.BodyPublishers.ofString("{\"n\":1}")).build();
            System.out.println(client.send(put, HttpResponse.BodyHandlers.ofString()).statusCode());
        }
        HttpRequest head = HttpRequest.newBuilder(URI.create(top + "_doc/true")).method("HEAD", HttpRequest.BodyPublishers.noBody()).build();
        HttpResponse<String> got = client.send(head, HttpResponse.BodyHandlers.ofString());
        System.out.println(got.statusCode() + " " + got.body().length());
        System.out.println(client.send(HttpRequest.newBuilder(URI.create(top + "_doc/9")).build(), HttpResponse.BodyHandlers.ofString()).statusCode());
    }
}
"""
JAVA_OUTPUT = "201\n201\n200 0\n404\n"

SHIPPER = """
global(workDirectory="%s")
module(load="imfile")
module(load="omelasticsearch")
template(name="line" type="list" option.jsonf="on") {
  property(outname="message" name="msg" format="jsonf")
  property(outname="host" name="hostname" format="jsonf")
}
template(name="id" type="string" string="%%uuid%%")
input(type="imfile" file="%s" tag="t" ruleset="all")
ruleset(name="all") {
  action(type="omelasticsearch" server="127.0.0.1" serverport="%d" searchIndex="books" searchType="_doc" template="line" bulkmode="on" dynbulkid="on" bulkid="id" errorFile="%s"
         queue.type="LinkedList" queue.dequeuebatchsize="200" action.resumeretrycount="3")
}
"""
MAPPING = {"dynamic": False, "properties": {"title": {"type": "text"}, "year": {"type": "long"}}}


def said(language, wanted, command, server_words=()):
    """What a program prints that asks a server."""
    if not shutil.which(command[0]) or subprocess.run(command[:1] + ["--version"], capture_output=True).returncode:
        print(f"skipped {language}: {command[0]} isn't installed")
        return
    with tempfile.TemporaryDirectory() as folder:
        Path(folder, "mapping.json").write_text(json.dumps(MAPPING))
        with Server("--greet", "--mapping", Path(folder, "mapping.json"), *server_words) as server:
            ran = subprocess.run([*command, str(server.port)], cwd=folder, capture_output=True, timeout=2 * SECONDS)
    check(language, other(ran.stdout + ran.stderr[-300:], wanted.encode()))


def shipped():
    """Lines of a log that rsyslog sends as it does by default, with the type in each action and an empty line behind each document."""
    if not shutil.which("rsyslogd") or not list(Path("/usr/lib").glob("*/rsyslog/omelasticsearch.so")):
        print("skipped rsyslog: rsyslog-elasticsearch isn't installed")
        return
    with tempfile.TemporaryDirectory() as top, Server("--greet") as server:
        folder = Path(top)
        (folder / "log").write_text("".join(f'line {it} ü "quoted"\n' for it in range(1000)))
        (folder / "conf").write_text(SHIPPER % (folder, folder / "log", server.port, folder / "errors"))
        shipper = subprocess.Popen(["rsyslogd", "-n", "-f", folder / "conf", "-i", folder / "pid"], stdout=subprocess.DEVNULL, stderr=subprocess.DEVNULL)
        for _ in range(SECONDS * 2):
            server.ask(b"POST /books/_refresh HTTP/1.1\r\n\r\n")
            got = server.ask(b"GET /books/_count HTTP/1.1\r\n\r\n")
            if bodies(got)[0].get("count") == 1000:
                break
            time.sleep(0.5)
        shipper.terminate()
        shipper.wait()
        errors = (folder / "errors").read_bytes() if (folder / "errors").exists() else b""
        check("the lines that rsyslog sends", "" if bodies(got)[0].get("count") == 1000 and not errors else shown(got + errors))


def libraries():
    with tempfile.TemporaryDirectory() as top:
        programs = {}
        for name, text in (("a.rb", RUBY), ("a.js", NODE), ("Asking.java", JAVA)):
            programs[name] = Path(top, name)
            programs[name].write_text(text)
        has_ruby = shutil.which("ruby") and subprocess.run(["ruby", "-e", 'require "elasticsearch"'], capture_output=True).returncode == 0
        if has_ruby:
            said("the library for Ruby", RUBY_OUTPUT, ["ruby", programs["a.rb"]])
        else:
            print("skipped the library for Ruby: ruby-elasticsearch isn't installed")
        said("http.Agent and fetch of node", NODE_OUTPUT, ["node", programs["a.js"]], ("--idle-s", 2))
        said("HttpClient of Java", JAVA_OUTPUT, ["java", programs["Asking.java"]])
    shipped()
