"""An independent implementation of the RFC 8554 signatures (`keys 4 5`) and of the statements and frames in docs/FORMATS.md.
The seed is 32 zero bytes."""
import functools
import hashlib
import struct

SEED, CHAINS, LEAVES = bytes(32), 67, 32


def sha(*parts):
    return hashlib.sha256(b"".join(parts)).digest()


def u16(n):
    return struct.pack(">H", n)


def u32(n):
    return struct.pack(">I", n)


class Key:
    """The key pair of a replica."""

    def __init__(self, replica):
        self.identifier = sha(SEED, bytes([replica, 0]))[:16]
        self.seed = sha(SEED, bytes([replica, 1]))
        self.nodes = {LEAVES + q: self.leaf(q) for q in range(LEAVES)}
        for r in range(LEAVES - 1, 0, -1):
            self.nodes[r] = sha(self.identifier, u32(r), u16(0x8383), self.nodes[2 * r], self.nodes[2 * r + 1])

    def chain(self, q, i, steps):
        value = sha(self.identifier, u32(q), u16(i), b"\xff", self.seed)
        for j in range(steps):
            value = sha(self.identifier, u32(q), u16(i), bytes([j]), value)
        return value

    def leaf(self, q):
        ends = [self.chain(q, i, 15) for i in range(CHAINS)]
        return sha(self.identifier, u32(LEAVES + q), u16(0x8282), sha(self.identifier, u32(q), u16(0x8080), *ends))

    def sign(self, q, message):
        random = sha(self.identifier, u32(q), u16(0xFFFD), b"\xff", self.seed)
        digest = sha(self.identifier, u32(q), u16(0x8181), random, message)
        digits = [d for b in digest for d in (b >> 4, b & 15)]
        check = u16(sum(15 - d for d in digits) << 4)
        digits += [d for b in check for d in (b >> 4, b & 15)]
        chains = [self.chain(q, i, d) for i, d in enumerate(digits[:CHAINS])]
        path = [self.nodes[((LEAVES + q) >> k) ^ 1] for k in range(5)]
        return b"".join([u32(q), u32(3), random, *chains, u32(5), *path])


def batch(transactions):
    return bytes([len(transactions)]) + b"".join(bytes([len(t)]) + t for t in transactions)


def place(kind, version, height, phase, signer):
    return bytes([16 * (version - 1) + kind]) + u32(height) + u32(phase) + bytes([signer])


def signed(statement, key, leaf):
    signature = key.sign(leaf, statement)
    return statement + u16(len(signature)) + signature


def batches(values):
    """A list of values, ascending by their bytes."""
    return bytes([len(values)]) + b"".join(sorted(map(batch, values)))


def report(height, phase, signer, value, proper=None, locked=(), says_all=False, version=1):
    """A report; without `proper` the initial value is the only proper one."""
    return place(1, version, height, phase, signer) + bytes([says_all]) + batch(value) + batches(proper or [value]) + batches(locked)


def lock(height, phase, signer, value, proof, version=1):
    return place(2, version, height, phase, signer) + batch(value) + bytes([len(proof)]) + b"".join(proof)


def ack(height, phase, signer, value, version=1):
    return place(3, version, height, phase, signer) + batch(value)


def frame(body):
    return (u32(len(body)) + body).hex()


@functools.lru_cache(maxsize=None)
def key_of(replica):
    return Key(replica)
