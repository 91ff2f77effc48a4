"""Histories, frames and statements as values, read by what docs/FORMATS.md says of their bytes. It shares no code with the program."""
import collections
import functools

Report = collections.namedtuple("Report", "height phase signer all initial proper locked")
Lock = collections.namedtuple("Lock", "height phase signer value proof")
Ack = collections.namedtuple("Ack", "height phase signer value")
# A statement with its signature; the proof of a lock has such reports.
Signed = collections.namedtuple("Signed", "statement signature")
# What happened: the name of the event, what it was given, the number of the refusal or 0, and what an event that happened replied.
Entry = collections.namedtuple("Entry", "kind given why reply")
# The reply to a round end: whether the replica is mute, and the frames, each with its addressee (255 is all).
Ended = collections.namedtuple("Ended", "mute frames")
Block = collections.namedtuple("Block", "height codes hash")
Found = collections.namedtuple("Found", "height value")


class Reader:
    """Bytes, and a place in them."""

    def __init__(self, data):
        self.data, self.place = data, 0

    def take(self, count):
        piece = self.data[self.place:self.place + count]
        assert len(piece) == count, "the bytes end early"
        self.place += count
        return piece

    def number(self, size):
        return int.from_bytes(self.take(size), "big")

    def short(self, size=1):
        """Bytes after their own length."""
        return self.take(self.number(size))

    def batch(self):
        return tuple(self.short() for _ in range(self.number(1)))

    def batches(self):
        return tuple(self.batch() for _ in range(self.number(1)))

    def ends(self):
        return self.place == len(self.data)


def read_kind(reader):
    """1 of a report, 2 of a lock, 3 of an acknowledgement, in either version."""
    version, kind = divmod(reader.number(1), 16)
    assert version in (0, 1) and kind in (1, 2, 3)
    return kind


def read_report(reader):
    assert read_kind(reader) == 1
    height, phase, signer, says_all = reader.number(4), reader.number(4), reader.number(1), reader.number(1)
    return Report(height, phase, signer, says_all == 1, reader.batch(), reader.batches(), reader.batches())


def read_signed_report(reader):
    return Signed(read_report(reader), reader.short(2))


def read_statement(reader):
    if reader.data[reader.place] % 16 == 1:
        return read_report(reader)
    kind = read_kind(reader)
    height, phase, signer, value = reader.number(4), reader.number(4), reader.number(1), reader.batch()
    if kind == 3:
        return Ack(height, phase, signer, value)
    return Lock(height, phase, signer, value, tuple(read_signed_report(reader) for _ in range(reader.number(1))))


@functools.lru_cache(maxsize=20000)
def read_frame(frame):
    """The signed statement of a whole frame that is known to be one."""
    reader = Reader(frame)
    assert reader.number(4) == len(frame) - 4
    signed = Signed(read_statement(reader), reader.short(2))
    assert reader.ends()
    return signed


def read_event(reader):
    kind = reader.number(1)
    if kind == 1:
        return "submit", reader.short(4)
    if kind == 2:
        return "propose", reader.number(4)
    if kind == 3:
        return "deliver", reader.short(4)
    if kind == 4:
        return "end", None
    if kind == 5:
        return "execute", None
    if kind == 6:
        return "query", (reader.number(4), reader.short())
    assert kind == 7
    return "retire", reader.number(4)


KINDS = {"submit": 1, "propose": 2, "deliver": 3, "end": 4, "execute": 5, "query": 6, "retire": 7}


def read_sent(reader):
    addressee, length = reader.number(1), reader.number(4)
    return addressee, length.to_bytes(4, "big") + reader.take(length)


def read_reply(reader, kind):
    """The number of the refusal and what the event replied, or what a refusal says besides."""
    assert reader.number(1) == KINDS[kind], "the reply is to another event"
    why = reader.number(1)
    if why != 0:
        return why, reader.number(4) if (kind, why) == ("submit", 5) else None
    if kind == "propose":
        return why, reader.batch()
    if kind == "end":
        return why, Ended(reader.number(1) == 1, tuple(read_sent(reader) for _ in range(reader.number(2))))
    if kind == "execute":
        return why, Block(reader.number(4), tuple(reader.number(4) for _ in range(reader.number(1))), reader.take(32))
    if kind == "query":
        return why, Found(reader.number(4), reader.short() if reader.number(1) == 1 else None)
    return why, reader.number(4) if kind == "retire" else None


def read_histories(data):
    """The entries of each replica."""
    reader, found = Reader(data), {}
    while not reader.ends():
        replica, entries = reader.number(1), []
        assert replica not in found
        for _ in range(reader.number(4)):
            kind, given = read_event(reader)
            entries.append(Entry(kind, given, *read_reply(reader, kind)))
        found[replica] = entries
    return found


def spell(transaction):
    """A transaction as scenario texts spell it."""
    return "".join(chr(byte) if 0x21 <= byte <= 0x7e and byte not in b",[]\\" else f"\\{byte:02x}" for byte in transaction)


def spell_batch(batch):
    return "[" + ",".join(map(spell, batch)) + "]"
