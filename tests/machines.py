"""The three applications, written once more from docs/FORMATS.md, "Application kinds"."""
import hashlib
import struct


class Machine:
    """An application that ran some blocks."""

    def run(self, batch):
        """Runs a block, and returns a code for each transaction."""
        return tuple(self.deliver(transaction) for transaction in batch)

    def hash(self):
        return hashlib.sha256(self.encoding()).digest()


class KvStore(Machine):
    def __init__(self):
        self.pairs = {}

    def check(self, transaction):
        return 0

    def deliver(self, transaction):
        key, _, value = transaction.partition(b"=")
        self.pairs[key] = value if b"=" in transaction else transaction
        return 0

    def query(self, key):
        return self.pairs.get(key)

    def encoding(self):
        pairs = b"".join(bytes([len(key)]) + key + bytes([len(value)]) + value for key, value in sorted(self.pairs.items()))
        return b"\1" + struct.pack(">Q", len(self.pairs)) + pairs


class Counter(Machine):
    def __init__(self):
        self.count = 0

    def check(self, transaction):
        if len(transaction) > 8:
            return 1
        return 2 if int.from_bytes(transaction, "big") < self.count else 0

    def deliver(self, transaction):
        if len(transaction) > 8:
            return 1
        if int.from_bytes(transaction, "big") != self.count or self.count == 2**64 - 1:
            return 2
        self.count += 1
        return 0

    def query(self, key):
        return struct.pack(">Q", self.count) if key == b"count" else None

    def encoding(self):
        return b"\2" + struct.pack(">Q", self.count)


class Purse(Machine):
    def __init__(self):
        self.balances, self.nonces = [1000] * 256, [0] * 256

    def check(self, transaction):
        if len(transaction) != 10:
            return 1
        sender, to, _, nonce = struct.unpack(">BBII", transaction)
        if nonce < self.nonces[sender]:
            return 2
        return 4 if sender == to else 0

    def deliver(self, transaction):
        if len(transaction) != 10:
            return 1
        sender, to, amount, nonce = struct.unpack(">BBII", transaction)
        if nonce != self.nonces[sender] or nonce == 2**32 - 1:
            return 2
        if self.balances[sender] < amount:
            return 3
        if sender == to:
            return 4
        self.balances[sender] -= amount
        self.balances[to] += amount
        self.nonces[sender] += 1
        return 0

    def query(self, key):
        return struct.pack(">II", self.balances[key[0]], self.nonces[key[0]]) if len(key) == 1 else None

    def encoding(self):
        return b"\3" + b"".join(struct.pack(">II", *account) for account in zip(self.balances, self.nonces))


def machine(kind):
    """An application of a kind in its opening state."""
    return {1: KvStore, 2: Counter, 3: Purse}[kind]()
