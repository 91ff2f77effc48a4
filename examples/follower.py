#!/usr/bin/env python3
"""An application outside of the ledger: it follows the blocks of `abft serve --http PORT` and runs their transactions by itself.

    examples/follower.py PORT LAST [FAULTS]

This one is a register of documents. A transaction is 32 bytes, the SHA-256 of a document, and the register numbers documents from 0 on,
in the order of their first registration. It prints a line for each transaction, `HEIGHT CODE NUMBER DIGEST`: code 0 if the document was
new, 1 if the transaction doesn't have 32 bytes, 2 if the document was there already. After the block at height LAST it prints the SHA-256
of its state, and ends. The key-value store (`--kind 1`) accepts each transaction of 1 to 64 bytes, so it orders those of any application.

What it may rely on: it takes a block once FAULTS + 1 replicas (2 without the option) show the same one, so a correct replica is among
them, and the blocks of correct replicas are prefixes of one ledger. Followers of one ledger that run one deterministic application agree
on each code, each number and each hash. What it can't: the ledger checks no transaction for it, so blocks also have those that it
refuses; no replica answers for its state; and whoever changes the replies on their way to it is believed.

docs/HTTP.md has the requests."""
import base64
import hashlib
import json
import sys
import time
import urllib.error
import urllib.request


class Register:
    """The application: the documents that were registered, in order."""

    def __init__(self):
        self.numbers = {}

    def run(self, transaction):
        """The code of a transaction, and the number of its document if it has one."""
        if len(transaction) != 32:
            return 1, None
        if transaction in self.numbers:
            return 2, self.numbers[transaction]
        self.numbers[transaction] = len(self.numbers)
        return 0, self.numbers[transaction]

    def digest(self):
        """The SHA-256 of the state: the byte 128, the number of documents in eight bytes, and their digests in order."""
        return hashlib.sha256(b"\x80" + len(self.numbers).to_bytes(8, "big") + b"".join(self.numbers)).hexdigest()


def ask(port, path):
    """The result of a request, or None if it is refused."""
    try:
        with urllib.request.urlopen(f"http://127.0.0.1:{port}{path}", timeout=10) as reply:
            return json.load(reply)["result"]
    except urllib.error.HTTPError:
        return None


def replicas_of(port):
    """The number of the cluster's replicas."""
    count = 0
    while ask(port, f"/status?replica={count}") is not None:
        count += 1
    return count


def block_at(port, height, replicas, wanted):
    """The transactions of the block at a height, once this many replicas show the same ones. Waits for that."""
    while True:
        shown = {}
        for replica in range(replicas):
            result = ask(port, f"/block?height={height}&replica={replica}")
            if result is not None:
                transactions = tuple(result["block"]["data"]["txs"] or [])
                shown[transactions] = shown.get(transactions, 0) + 1
                if shown[transactions] >= wanted:
                    return [base64.b64decode(it) for it in transactions]
        time.sleep(0.2)


def main(words):
    if len(words) not in (2, 3):
        sys.exit("usage: follower.py PORT LAST [FAULTS]")
    port, last, faults = words[0], int(words[1]), int(words[2]) if len(words) == 3 else 1
    register, replicas = Register(), replicas_of(port)
    for height in range(1, last + 1):
        for transaction in block_at(port, height, replicas, faults + 1):
            code, number = register.run(transaction)
            print(height, code, "-" if number is None else number, transaction.hex(), flush=True)
    print("state", register.digest(), flush=True)


if __name__ == "__main__":
    main(sys.argv[1:])
