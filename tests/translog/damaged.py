"""Translogs that are cut or changed, and what opening each of them gives, by docs/FORMATS.md alone."""
HEADER, FIRST = b"RSX2", b"RSX1"
GREATEST = 2 ** 63 - 1
# How far past those before it a number may be, and how long a frame is at most that isn't a recovery's.
WINDOW, LONGEST = 1_024, 67_673_093


def number(value, size=8):
    return (value % 2 ** (8 * size)).to_bytes(size, "little")


def operation(seq, term, version, name=None, source=None):
    """An operation: an index, a delete where there is no source, or nothing where there is no id."""
    numbers = number(seq) + number(term) + number(version)
    if name is None:
        return numbers + b"\0"
    name = number(len(name), 2) + name
    return numbers + (b"\2" + name if source is None else b"\1" + name + number(len(source), 4) + source)


def frame(content):
    return number(len(content), 4) + content


# An index, a delete, a resync with an operation that does nothing, and a recovery.
RECORDS = b"".join(map(frame, [
    b"\1" + number(-1) + operation(0, 1, 1, "é".encode(), b'{"n":1}'),
    b"\1" + number(0) + operation(1, 1, 2, b"a"),
    b"\2" + number(2) + number(0) + number(2, 4) + operation(1, 2, 0) + operation(2, 1, 3, b"b", b"{}"),
    b"\3" + number(3) + number(2, 4) + operation(0, 1, 1, b"a", b"{}") + operation(1, 3, 0),
]))
UPGRADE = frame(b"\5")
GROUP = frame(b"\4" + number(2, 4) + number(-1) + operation(0, 1, 1, b"a", b"{}") + number(0) + operation(1, 1, 2, b"a"))
# The first form, the same with the upgrade and a group, and the second form.
WHOLE = [FIRST + RECORDS, FIRST + frame(b"\1" + number(0) + operation(1, 1, 2, b"a")) + UPGRADE + GROUP, HEADER + GROUP + frame(b"\1" + number(0) + operation(1, 1, 2, b"a"))]


class NoRecord(Exception):
    pass


class Fields:
    """The fields of a frame, from left to right."""

    def __init__(self, content):
        self.left = content

    def bytes(self, size):
        if len(self.left) < size:
            raise NoRecord
        taken, self.left = self.left[:size], self.left[size:]
        return taken

    def number(self, size=8, least=0, greatest=GREATEST):
        value = int.from_bytes(self.bytes(size), "little")
        if not least <= value <= greatest:
            raise NoRecord
        return value

    def checkpoint(self):
        value = int.from_bytes(self.bytes(8), "little", signed=True)
        if value < -1:
            raise NoRecord
        return value

    def text(self, size, least, greatest):
        try:
            self.bytes(self.number(size, least, greatest)).decode()
        except UnicodeDecodeError:
            raise NoRecord from None

    def operation(self):
        """The number and the term of an operation, and whether it does something."""
        seq, term, version, kind = self.number(), self.number(least=1), self.number(), self.number(1)
        if kind > 2 or (version == 0) != (kind == 0):
            raise NoRecord
        if kind:
            self.text(2, 1, 512)
        if kind == 1:
            self.text(4, 2, 65_536)
        return seq, term, kind > 0

    def history(self, term, first):
        """The number behind the last."""
        count = self.number(4)
        for at in range(count):
            seq, older, _ = self.operation()
            if seq != first + at or older > term:
                raise NoRecord
        return first + count

    def kept(self):
        """The fields of an operation's record: how many are known to be everywhere, and its number."""
        known = self.checkpoint() + 1
        seq, _, does_something = self.operation()
        if not does_something:
            raise NoRecord
        return known, seq

    def next_number(self, before):
        """The number behind those of a frame that stands behind numbers below another one; None where it is too far past them."""
        tag = self.number(1)
        if tag in (1, 4):
            for _ in range(1 if tag == 1 else self.number(4)):
                known, seq = self.kept()
                if seq >= before + WINDOW or known > max(before, seq + 1) + WINDOW:
                    return None
                before = max(before, seq + 1)
            return before
        if tag == 2:
            self.number()
            known = self.checkpoint()
            return None if known + 1 > before + WINDOW else max(before, self.history(GREATEST, known + 1))
        return before if tag == 5 else max(before, self.history(self.number(), 0))

    def piece(self, groups):
        """How many records a frame has, and whether groups may stand behind it, where they may stand there or don't yet."""
        tag, count = self.number(1), 1
        if tag == 1:
            self.kept()
        elif tag == 2:
            term, known = self.number(least=1), self.checkpoint()
            self.history(term, known + 1)
        elif tag == 3:
            self.history(self.number(least=1), 0)
        elif tag == 4 and groups:
            count = self.number(4, 2, 1_024)
            for _ in range(count):
                self.kept()
        elif tag == 5 and not groups:
            count, groups = 0, True
        else:
            raise NoRecord
        if self.left:
            raise NoRecord
        return count, groups


def opened(log):
    """The number of records that opening gives, BadMagic, or an offset behind Damaged, Far (a number is too far past those before it) or Untorn (no crash leaves
    what stands there)."""
    if log[:4] not in (HEADER[:len(log)], FIRST[:len(log)]):
        return "BadMagic"
    at, records, groups, following, far = 4, 0, log[:4] == HEADER, 0, None
    while len(log) - at >= 4:
        end = at + 4 + int.from_bytes(log[at:at + 4], "little")
        if end > len(log):
            break
        try:
            count, groups = Fields(log[at + 4:end]).piece(groups)
        except NoRecord:
            return f"Damaged {at}"
        following = None if following is None else Fields(log[at + 4:end]).next_number(following)
        far = at if following is None and far is None else far
        at, records = end, records + count
    if far is not None:
        return f"Far {far}"
    return str(records) if can_be_torn(log[at:]) else f"Untorn {at}"


def is_record(content):
    try:
        return Fields(content).piece(True)[0] > 0
    except NoRecord:
        return False


def can_be_torn(rest):
    """Whether a crash can have left these bytes behind whole frames."""
    length, tag = int.from_bytes(rest[:4], "little"), rest[4:5]
    if len(rest) < 4:
        return True
    if tag and (tag[0] not in (1, 2, 3, 4) or tag[0] != 3 and length > LONGEST) or is_record(rest[4:]):
        return False
    return not any(is_record(rest[at + 4:end]) for at in range(1, len(rest) - 4) if (end := at + 4 + int.from_bytes(rest[at:at + 4], "little")) <= len(rest))


def torn_at(log):
    """The byte behind a log's header and whole frames, where more stands there or the header isn't whole; else None."""
    if len(log) < 4:
        return 0
    at = 4
    while len(log) - at >= 4:
        end = at + 4 + int.from_bytes(log[at:at + 4], "little")
        if end > len(log):
            break
        at = end
    return None if at == len(log) else at


def logs():
    """Each log cut after each of its bytes, and with each of its bytes changed to every other value."""
    for whole in WHOLE:
        yield from (whole[:size] for size in range(len(whole) + 1))
        for at, byte in enumerate(whole):
            yield from (whole[:at] + bytes([other]) + whole[at + 1:] for other in range(256) if other != byte)
