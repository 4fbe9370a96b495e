"""Pictures of scripts and of journals, read as XML, and shown in a browser where chromium is installed."""
import html
import json
import re
import shutil
import subprocess
import tempfile
import xml.etree.ElementTree as xml
from collections import Counter, namedtuple
from pathlib import Path

from checking import ROOT, check
from playing.program import SECONDS, front_of, not_one_complaint, run
from serving.pages import promote_of, put_of
from serving.server import Server

EXAMPLES = ("failover", "recovery")
# The class of an arrow for an answer to its delivery.
CLASSES = {b"taken": {"sent", "late"}, b"stale": {"sent", "late"}, b"repeated": {"again"}, b"torn": {"sent", "late", "again"}, b"refused": {"refused"}}
# Of each picture how many texts it has, then what lies on what, and what is cut off.
SCRIPT = """
const told = [];
for (const svg of document.querySelectorAll("svg")) {
  const whole = svg.getBoundingClientRect(), texts = [...svg.querySelectorAll("text")].map(it => [it.textContent, it.getBoundingClientRect()]);
  const lines = [String(texts.length)];
  texts.forEach(([text, box], at) => {
    if (box.left < whole.left || box.top < whole.top || box.right > whole.right || box.bottom > whole.bottom) lines.push(text + " is cut off");
    for (const [other, its] of texts.slice(at + 1))
      if (box.left < its.right - 1 && its.left < box.right - 1 && box.top < its.bottom - 3 && its.top < box.bottom - 3) lines.push(text + " lies on " + other);
  });
  told.push(lines.slice(0, 6));
}
document.body.textContent = "";
document.body.appendChild(document.createElement("pre")).textContent = JSON.stringify(told);
"""
Played = namedtuple("Played", "sent delivered refused")


def named(element):
    return element.tag.rpartition("}")[2]


def arrows_of(picture):
    """The classes of the arrows of a picture, by the number of the message."""
    arrows = {}
    for element in xml.fromstring(picture).iter():
        if "data-message" in element.attrib:
            arrows.setdefault(int(element.get("data-message")), []).append(element.get("class"))
    return arrows


def played(script):
    """What a script that prints each answer before the next line is read says of its messages: those that are sent, and the answer to each delivery."""
    sent, delivered, refused = [], {}, 0
    for line, printed in answers_of(script):
        words = line.split(b" ")
        first = printed[0].split(b" ")[0] if printed else b""
        refused += first == b"refused" and len(printed) == 1
        if words[0] in (b"deliver", b"torn") and words[1:] and words[1].isdigit():
            delivered.setdefault(int(words[1]), []).append(first)
        sent += [int(it.split(b" ")[1]) for it in printed if it.startswith(b"msg ")]
    return Played(sent, delivered, refused)


def answers_of(script):
    """Each line of a script that isn't passed over, with the lines that it prints: those by which the output of one line more is longer."""
    lines = [it for it in script.read_bytes().split(b"\n") if it and not it.startswith(b"#")]
    printed = 0
    for at in range(len(lines)):
        out = run(["replay", "-"], input=b"".join(it + b"\n" for it in lines[: at + 1])).stdout.splitlines()
        yield lines[at], out[printed:]
        printed = len(out)


def check_script(script):
    """Each message of a script has its arrows, and each refusal its cross."""
    name = script.stem
    ran = run(["draw", script])
    if ran.returncode or ran.stderr:
        return check(f"{name} is drawn", f"status {ran.returncode}, {front_of(ran.stderr)}")
    want, arrows = played(script), arrows_of(ran.stdout)
    check(f"{name}: each message has an arrow", f"{sorted(set(want.sent) ^ set(arrows))} differ" if sorted(arrows) != want.sent else "")
    for number, classes in arrows.items():
        answers = want.delivered.get(number, [])
        wrong = classes != ["lost"] if not answers else len(classes) != len(answers) or not all(one in CLASSES[it] or one == "again" and at for at, (one, it) in enumerate(zip(classes, answers)))
        check(f"{name}: message {number}", f"its arrows are {classes}, and it was answered {answers}" if wrong else "")
    bad = sum(it.get("class") == "bad" for it in xml.fromstring(ran.stdout).iter() if (it.text or "").startswith("refused"))
    check(f"{name}: what was refused", f"{bad} of {want.refused} refusals are red" if bad != want.refused else "")
    return ran.stdout.decode()


def check_lanes():
    """The lines of the nodes: a term has a colour, the primary is thick, and whoever was taken out is pale."""
    picture = xml.fromstring(run(["draw", ROOT / "examples/failover.script"]).stdout)
    lanes = Counter((it.get("stroke"), it.get("stroke-width"), it.get("opacity")) for it in picture.iter() if named(it) == "line" and it.get("x1") == it.get("x2"))
    wanted = {("#0072b2", "7", "1"): 1, ("#0072b2", "7", "0.35"): 1, ("#0072b2", "2", "1"): 2, ("#d55e00", "7", "1"): 1, ("#d55e00", "2", "1"): 1, ("#8c8c8c", "2", "1"): 1}
    check("the lines of a failover", f"{dict(lanes)}" if lanes != wanted else "")


def check_shown(pictures):
    """What a browser says of the texts of pictures."""
    chromium = shutil.which("chromium")
    if not chromium:
        print("skipped the texts of the pictures: chromium isn't installed")
        return
    with tempfile.TemporaryDirectory(ignore_cleanup_errors=True) as folder:
        page = Path(folder) / "page.html"
        page.write_text(f"<!doctype html><meta charset=utf-8><body>{''.join(pictures.values())}<script>{SCRIPT}</script>")
        words = [chromium, "--headless", "--no-sandbox", "--disable-gpu", "--no-first-run", "--disable-background-networking", f"--user-data-dir={folder}/user",
                 "--virtual-time-budget=5000", "--dump-dom", page.as_uri()]
        shown = subprocess.run(words, stdin=subprocess.DEVNULL, capture_output=True, timeout=SECONDS).stdout.decode()
    found = re.search("<pre>(.*?)</pre>", shown, re.S)
    check("chromium shows the pictures", "" if found else shown[:300])
    for name, (count, *lines) in zip(pictures, json.loads(html.unescape(found[1])) if found else []):
        check(f"{name}: there are texts", count if int(count) < 20 else "")
        check(f"{name}: nothing overlaps, nothing is cut off", "; ".join(lines))


def check_long():
    """A picture has 2,000 steps, and says how many it leaves out."""
    lines = [b"open 1 {}", *(b"put 1 %d {}" % it for it in range(2_400))]
    ran = run(["draw", "-"], input=b"".join(it + b"\n" for it in lines))
    texts = [it.text for it in xml.fromstring(ran.stdout).iter() if named(it) == "text"]
    check("a long script", "" if "401 more are not drawn." in texts and "put 1 1998 {}" in texts and "put 1 1999 {}" not in texts else f"{texts[-3:]}")


def check_journals():
    """The journals of an index of three copies: each entry has a row, each message that a copy took an arrow, and the entry at which the audit fails a ring."""
    with tempfile.TemporaryDirectory() as folder:
        folder = Path(folder)
        with Server("--copies", 3, "--connections", 1, "--audit", "--journals", folder) as server:
            server.ask(put_of(b"0", b'{"n":0}'), put_of(b"1", b'{"n":1}'), promote_of(b"3"), put_of(b"2", b'{"n":2}'), promote_of(b"1"))
            server.process.communicate(timeout=SECONDS)
        ran = run(["draw", folder])
        entries = {it.name: it.read_text().splitlines()[1:] for it in folder.glob("*.journal")}
        taken = sum(json.loads(it)["asked"][0] == "take" for lines in entries.values() for it in lines)
        picture = xml.fromstring(ran.stdout) if not ran.returncode else xml.fromstring("<svg/>")
        places = sum(bool(re.fullmatch(r"\d+:\d+", it.text or "")) for it in picture.iter() if it.get("class") == "place")
        arrows = sum(it != "lost" for its in arrows_of(ran.stdout or b"<svg/>").values() for it in its)
        total = sum(map(len, entries.values()))
        check("journals: each entry has a row", f"{places} of {total}, {front_of(ran.stderr)}" if places != total else "")
        check("journals: each message that was taken has an arrow", f"{arrows} for {taken}" if arrows < taken else "")
        check("journals: none is wrong", "one is" if b'class="wrong"' in ran.stdout else "")
        path = folder / "copy-1.journal"
        lines = path.read_bytes().splitlines(keepends=True)
        path.write_bytes(b"".join([*lines[:2], *lines[3:]]))
        check("journals: where the audit fails", "" if run(["draw", folder]).stdout.count(b'class="wrong"') == 1 else "no entry is marked")
        return ran.stdout.decode()


def check_faults():
    """What can't be drawn is named."""
    for name, words in (("a file that isn't there", ["draw", "/nowhere.script"]), ("a folder without journals", ["draw", ROOT / "examples"])):
        check(name, not_one_complaint(run(words)))
    check("no place for the picture", not_one_complaint(run(["draw", ROOT / "examples/failover.script"], stdout=open("/dev/full", "wb"))))


def drawn():
    pictures = {}
    for script in (*(ROOT / f"examples/{it}.script" for it in EXAMPLES), ROOT / "tests/scripts/torn-steps-restart-and-promote-again.script"):
        pictures[script.stem] = check_script(script)
    for name in EXAMPLES:
        there = (ROOT / f"docs/{name}.svg").read_text()
        check(f"docs/{name}.svg", "" if there == drawn_for_docs(name) else f"it isn't what indexd draws of examples/{name}.script")
    check_lanes()
    check_long()
    check_faults()
    pictures["journals"] = check_journals()
    check_shown({name: it for name, it in pictures.items() if it})


def drawn_for_docs(name):
    """The picture of a script of examples/, drawn from the repository's folder, so that its title is the path there."""
    return run(["draw", f"examples/{name}.script"], cwd=ROOT).stdout.decode()
