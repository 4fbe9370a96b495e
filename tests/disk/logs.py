"""The logs of a folder as docs/FORMATS.md has them: what they hold, and how they are spelt."""


def number(value, size=8):
    return (value % 2 ** (8 * size)).to_bytes(size, "little")


def frame(content):
    return number(len(content), 4) + content


def frames(log):
    """The contents of a log's whole frames."""
    at = 4
    while len(log) - at >= 4:
        end = at + 4 + int.from_bytes(log[at:at + 4], "little")
        if end > len(log):
            return
        yield log[at + 4:end]
        at = end


def index(seq, term, version, name, source):
    return number(seq) + number(term) + number(version) + b"\1" + number(len(name), 2) + name + number(len(source), 4) + source


def delete(seq, term, version, name):
    return number(seq) + number(term) + number(version) + b"\2" + number(len(name), 2) + name


def nothing(seq, term):
    return number(seq) + number(term) + number(0) + b"\0"


def written(known, operation):
    """The frame of a record of one operation."""
    return frame(b"\1" + number(known) + operation)


def resync(term, known, *operations):
    return frame(b"\2" + number(term) + number(known) + number(len(operations), 4) + b"".join(operations))


def operations(bytes_):
    """The number, the term, the id (None where nothing is done) and the source (None for a delete) of each operation."""
    at = 0
    while at < len(bytes_):
        seq, term = (int.from_bytes(bytes_[at + it:at + it + 8], "little") for it in (0, 8))
        kind, at = bytes_[at + 24], at + 25
        name = source = None
        if kind:
            size = int.from_bytes(bytes_[at:at + 2], "little")
            name, at = bytes_[at + 2:at + 2 + size], at + 2 + size
        if kind == 1:
            size = int.from_bytes(bytes_[at:at + 4], "little")
            source, at = bytes_[at + 4:at + 4 + size], at + 4 + size
        yield seq, term, name, source


def held(log):
    """The operations of a copy's log by their numbers: id and source each."""
    found = {}
    for content in frames(log):
        tag = content[0]
        if tag == 2:
            known = int.from_bytes(content[9:17], "little", signed=True)
            found = {seq: it for seq, it in found.items() if seq <= known}
        elif tag == 3:
            found = {}
        for seq, _, name, source in kept_by(content):
            found[seq] = (name, source)
    return found


def kept_by(content):
    """The operations of a frame; an upgrade has none, and in a group each stands behind how many were known to be everywhere."""
    tag = content[0]
    if tag == 4:
        return grouped(content[5:])
    return () if tag == 5 else operations(content[{1: 9, 2: 21, 3: 13}[tag]:])


def grouped(bytes_):
    while bytes_:
        one = next(operations(bytes_[8:]))
        _, _, name, source = one
        bytes_ = bytes_[8 + 25 + (0 if name is None else 2 + len(name)) + (0 if source is None else 4 + len(source)):]
        yield one


def documents(log):
    """The documents of a copy's log, in the order of the numbers of their last writes."""
    found = {}
    for _, (name, source) in sorted(held(log).items()):
        if name is not None:
            found.pop(name, None)
            if source is not None:
                found[name] = source
    return found


def ruled(log):
    """The term, the primary, the copies in sync, and how many ids were given, as a master's log has them."""
    term, primary, in_sync, given = 0, 0, [], 0
    for content in frames(log):
        tag, copy = content[0], int.from_bytes(content[1:], "little")
        if tag == 1:
            term, primary, in_sync, given = 1, 1, [*range(1, copy + 1)], copy
        elif tag == 2:
            in_sync = [it for it in in_sync if it == copy or it != primary]
            term, primary = term + 1, copy
        elif tag == 3:
            given += 1
        elif tag == 4:
            in_sync = sorted({*in_sync, copy})
        elif tag == 5:
            in_sync = [it for it in in_sync if it != copy]
    return term, primary, in_sync, given


def master(copies, *entries):
    """A master's log: its index begins with so many copies; an entry is a tag and a copy's id."""
    return b"RSM1" + frame(b"\1" + number(copies, 1)) + b"".join(frame(number(tag, 1) + (number(copy, 4) if copy else b"")) for tag, copy in entries)


def copy(*records):
    return b"RSX1" + b"".join(records)
