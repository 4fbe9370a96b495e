"""A folder of an index with the record of what servers did in it, and whether what they confirmed is kept."""
import bisect
import json
import os
import time
from copy import deepcopy
from pathlib import Path

from checking import shim_of, shown
from disk import crashes, logs
from serving.pages import do_in_turn, page_names, put_of, sources, write_by
from serving.server import SECONDS, Server


def shims_of(folder, *names):
    """What is to be preloaded for some libraries, the first of which is called first."""
    made = [shim_of(name, folder) for name in names]
    return " ".join(made) if all(made) else None


class Recorded:
    """A folder of an index, what was asked of it, and the record of what its servers did in it."""

    def __init__(self, top, shim, **settings):
        self.top, self.folder, self.record, self.deeds = Path(top), Path(top, "books"), Path(top, "record"), []
        self.disk, self.env = crashes.Disk(self.folder), {**os.environ, "LD_PRELOAD": shim, "RECORD": str(self.record), "RECORD_FOLDER": str(self.folder), **settings}
        self.record.touch()

    def server(self, *words, **how):
        return Server("--data", self.folder, *words, env=self.env, **how)

    def do(self, server, deeds, then=lambda: None):
        self.deeds += deeds
        return do_in_turn(server, deeds, then)

    def mark(self, copies):
        """Notes that a run begins."""
        with open(self.record, "ab") as record:
            record.write(b"run %d\n" % copies)

    def tear(self, name, bytes_):
        """Adds to a file what a crash left of a write, which isn't synced."""
        file = self.folder / name
        with open(file, "ab") as held, open(self.record, "ab") as record:
            record.write(b"write %d %d %d\n" % (file.stat().st_ino, file.stat().st_size, len(bytes_)) + bytes_)
            held.write(bytes_)

    def places(self):
        """After each entry of the record the disk, and how many deeds were answered by then."""
        record = self.record.read_bytes()
        begun = [place for place, _ in crashes.pages_in(record)]
        disk = deepcopy(self.disk)
        for place, (words, bytes_) in enumerate(crashes.entries(record)):
            disk.do(words, bytes_)
            yield words, disk, bisect.bisect_right(begun, place)


def unkept(recorded):
    """Says which confirmed write, when its page was sent, wasn't on the disk of a copy in sync, or which promotion wasn't on that of the master. Gives beside
    it how many copies each confirmed write was on the disk of."""
    pages, counts, why, seen = [it for _, it in crashes.pages_in(recorded.record.read_bytes())], [], "", 0
    for _, disk, answered in recorded.places():
        for at in range(seen, min(answered, len(recorded.deeds))):
            deed, page, kept = recorded.deeds[at], pages[at], disk.kept()
            if "error" in page or deed[0] == "get":
                continue
            term, primary, in_sync, _ = logs.ruled(kept.get("master.log", b""))
            if deed[0] == "promote":
                why = why or ("" if (term, primary) == (page["primary_term"], page["primary"]) else f"{deed}: {page}, and the master has {term}, {primary}")
                continue
            found = [it for it in range(1, 6) if logs.held(kept.get(f"copy-{it}.rsx", b"")).get(page["_seq_no"]) == write_by(deed)]
            counts.append(len(found))
            if not in_sync or not {*in_sync} <= {*found}:
                why = why or f"{shown(deed[1])} is confirmed, copies {in_sync} are in sync, and those that have it are {found}"
        seen = answered
    return why, counts


def found_again(recorded, answered, *words):
    """Starts again over the folder, by a disk without a fault, and says which document isn't what was confirmed last, or sent since."""
    with Server("--data", recorded.folder, *words) as server:
        if not server.listens:
            return f"no start: {shown(server.process.stderr.read())}"
        may = {}
        for deed, page in zip(recorded.deeds, answered):
            if write := write_by(deed):
                name, source = write[0], write[1] and json.loads(write[1])
                may[name] = may.get(name, [None]) + [source] if "error" in page else [source]
        lost = [f"{shown(name)} is {found}" for name, found in zip(may, sources(server, may)) if found not in may[name]]
        end = time.monotonic() + SECONDS
        while (got := page_names(server.ask(put_of(b"more", b"{}")))) not in ([(201, "")], [(200, "")]) and time.monotonic() < end:
            time.sleep(0.05)
        return lost[0] if lost else "" if got[0][0] in (200, 201) else f"no more is written: {got}"
