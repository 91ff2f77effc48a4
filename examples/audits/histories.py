"""Histories as bytes, split into their entries and put together again. docs/FORMATS.md has the bytes."""
import struct


class Reader:
    """The bytes of histories, and a place in them."""

    def __init__(self, data):
        self.data, self.place = data, 0

    def take(self, count):
        self.place += count
        return self.data[self.place - count:self.place]

    def number(self, size):
        return int.from_bytes(self.take(size), "big")

    def skip_event(self):
        kind = self.number(1)
        if kind in (1, 3):
            self.take(self.number(4))
        elif kind in (2, 7):
            self.take(4)
        elif kind == 6:
            self.take(4)
            self.take(self.number(1))

    def skip_reply(self):
        kind, why = self.number(1), self.number(1)
        if (kind, why) == (1, 5):
            self.take(4)
        if why != 0:
            return
        if kind == 2:
            for _ in range(self.number(1)):
                self.take(self.number(1))
        elif kind == 4:
            self.take(1)
            for _ in range(self.number(2)):
                self.take(1)
                self.take(self.number(4))
        elif kind == 5:
            self.take(4)
            self.take(4 * self.number(1))
            self.take(32)
        elif kind == 6:
            self.take(4)
            if self.number(1) == 1:
                self.take(self.number(1))
        elif kind == 7:
            self.take(4)

    def part(self, skip):
        start = self.place
        skip()
        return self.data[start:self.place]


def histories(data):
    """For each history its entries, each an event and a reply."""
    reader, found = Reader(data), {}
    while reader.place < len(data):
        replica = reader.number(1)
        found[replica] = [(reader.part(reader.skip_event), reader.part(reader.skip_reply)) for _ in range(reader.number(4))]
    return found


def spell(replica, entries):
    return bytes([replica]) + struct.pack(">I", len(entries)) + b"".join(event + reply for event, reply in entries)
