"""What a crash can leave of a folder, by the record that record_files.c makes of what a program did there.

What was done to a file before it was synced is on the disk. Each later write is there, or not, or its front up to a sector's end; each later cut is there
or not. A name that was given, changed or taken is so on the disk once the folder was synced, and may be before."""
import itertools
import json
import math

SECTOR = 512
# Of so many changes that aren't on the disk yet each choice is made; of more, that each is there from some place on, or is missing alone.
MOST_CHANGES = 4
# Up to so many folders each choice of the contents of all files is made.
MOST_FOLDERS = 100
# The file that is locked; it is empty, and each start makes it.
LOCK = "lock"


def entries(record):
    """The words and the bytes of each entry."""
    at = 0
    while at < len(record):
        end = record.index(b"\n", at)
        words = record[at:end].decode().split()
        size = int(words[-1]) if words[0] in ("write", "sent") else 0
        yield words, record[end + 1:end + 1 + size]
        at = end + 1 + size


def pages_in(record):
    """The place at which the first byte of each page was sent, and the JSON of its body."""
    begun, found = {}, []
    for place, (words, sent) in enumerate(entries(record)):
        if words[0] != "sent":
            continue
        first, held = begun.pop(words[1], (place, b""))
        held += sent
        while b"\r\n\r\n" in held:
            head, _, rest = held.partition(b"\r\n\r\n")
            length = int(head.split(b"content-length: ")[1].split(b"\r\n")[0])
            if len(rest) < length:
                break
            found.append((first, json.loads(rest[:length])))
            first, held = place, rest[length:]
        if held:
            begun[words[1]] = (first, held)
    return sorted(found, key=lambda it: it[0])


def changed(held, at, bytes_):
    """The bytes of a file after a write, or after a cut where there are no bytes to write."""
    front = held[:at].ljust(at, b"\0")
    return front if bytes_ is None else front + bytes_ + held[at + len(bytes_):]


def choices(changes):
    """Which of some changes may be there."""
    count = len(changes)
    if count <= MOST_CHANGES:
        return [some for size in range(count + 1) for some in itertools.combinations(changes, size)]
    return [*(changes[:size] for size in range(count + 1)), *(changes[:at] + changes[at + 1:] for at in range(count))]


def ends_of_sectors(at, size):
    return range(at - at % SECTOR + SECTOR, at + size, SECTOR)


def mixed(contents):
    """Choices of one content of each file: all of them, or where those are many all of the first and last ones, and each other one beside both."""
    if math.prod(map(len, contents)) <= MOST_FOLDERS:
        yield from itertools.product(*contents)
        return
    yield from itertools.product(*((it[0], it[-1]) for it in contents))
    for at, those in enumerate(contents):
        for one, end in itertools.product(those, (0, -1)):
            yield (*(it[end] for it in contents[:at]), one, *(it[end] for it in contents[at + 1:]))


class Disk:
    """The files of a folder by their inodes, each with what is on the disk and what was done to it since; and the names in the same way."""

    def __init__(self, folder):
        """A folder as it is on the disk now."""
        found = {it.name: it for it in folder.iterdir() if it.name != LOCK} if folder.exists() else {}
        self.names = {name: str(it.stat().st_ino) for name, it in found.items()}
        self.files = {str(it.stat().st_ino): (it.read_bytes(), []) for it in found.values()}
        self.renamed = []

    def do(self, words, bytes_):
        what = words[0]
        if what in ("write", "cut", "sync"):
            held, since = self.files.setdefault(words[1], (b"", []))
            if what == "sync":
                self.files[words[1]] = (self.now(words[1]), [])
            else:
                since.append((int(words[2]), bytes_ if what == "write" else None))
        elif what == "names":
            self.names, self.renamed = named(self.names, self.renamed), []
        elif what == "name" and words[2] != LOCK:
            self.files.setdefault(words[1], (b"", []))
            if named(self.names, self.renamed).get(words[2]) != words[1]:
                self.renamed.append((None, words[2], words[1]))
        elif what == "rename":
            self.renamed.append((words[1], words[2], named(self.names, self.renamed)[words[1]]))
        elif what == "remove":
            self.renamed.append((words[1], None, None))

    def now(self, inode):
        """What a program reads of a file."""
        held, since = self.files[inode]
        for at, bytes_ in since:
            held = changed(held, at, bytes_)
        return held

    def contents(self, inode):
        """All that a crash can leave of a file: first what is on the disk, and last what a program reads."""
        held, since = self.files[inode]
        found = set()
        for some in choices(since):
            some_held = {held}
            for at, bytes_ in some:
                ends = [*ends_of_sectors(at, len(bytes_ or b"")), at + len(bytes_ or b"")]
                some_held = {changed(it, at, bytes_ and bytes_[:end - at]) for it in some_held for end in ends}
            found |= some_held
        now = self.now(inode)
        return [held, *sorted(found - {held, now}), now]

    def folders(self):
        """Each folder that a crash can leave: its names with their bytes."""
        for some in choices(self.renamed):
            names = named(self.names, some)
            for bytes_ in mixed([self.contents(it) for it in names.values()]):
                yield dict(zip(names, bytes_))

    def kept(self):
        """What is on the disk for sure: the names with their bytes."""
        return {name: self.files[it][0] for name, it in self.names.items()}


def named(names, changes):
    names = dict(names)
    for old, new, inode in changes:
        names.pop(old, None)
        if new is not None:
            names[new] = inode
    return names
