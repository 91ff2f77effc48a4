#!/usr/bin/env python3
"""A client that was written for CometBFT 0.34: tests/comet_client.py PORT. It makes each URI call that docs/HTTP.md lists, reads each field
as CometBFT's own types have it, and checks its type and form. What a result leaves out must be what docs/HTTP.md lists as left out, and what
CometBFT doesn't have must be under `abft`. The first difference ends it with status 1; otherwise it prints how many calls it made."""
import base64
import hashlib
import json
import os
import re
import sys
import urllib.error
import urllib.parse
import urllib.request

PAGE = os.path.join(os.path.dirname(__file__), "../docs/HTTP.md")


def matches(pattern):
    """Text of this form."""
    return lambda value: isinstance(value, str) and re.fullmatch(pattern, value) is not None


def is_base64(value):
    """Bytes, or null for none, as in CometBFT's JSON of ABCI."""
    return value is None or isinstance(value, str) and base64.b64encode(base64.b64decode(value, validate=True)).decode() == value


def is_integer(value):
    return isinstance(value, int) and not isinstance(value, bool)


# The forms of values. Go's int64 and uint64 are decimal strings in CometBFT's JSON, int and uint32 are numbers.
INT64 = matches("0|-?[1-9][0-9]{0,18}")
HEX = matches("([0-9A-F]{2})*")
HASH = matches("([0-9A-F]{64})?")
TIME = matches(r"\d{4}-\d\d-\d\dT\d\d:\d\d:\d\d(\.\d+)?Z")
TEXT = matches(r"(?s).*")
UINT32 = lambda value: is_integer(value) and 0 <= value < 2**32
INT = is_integer
BOOL = lambda value: isinstance(value, bool)
BYTES = is_base64
EVENTS = lambda value: value == []
TXS = lambda value: isinstance(value, list) and all(isinstance(tx, str) and is_base64(tx) for tx in value)
NO_TXS = lambda value: value is None
PROOF = lambda value: value is None

# The types of CometBFT 0.34's results, by the names of their fields: rpc/core/types/responses.go and what it uses.
PROTOCOL = {"p2p": INT64, "block": INT64, "app": INT64}
BLOCK_ID = {"hash": HASH, "parts": {"total": INT, "hash": HASH}}
NODE_INFO = {"protocol_version": PROTOCOL, "id": TEXT, "listen_addr": TEXT, "network": TEXT, "version": TEXT, "channels": HEX,
             "moniker": TEXT, "other": {"tx_index": TEXT, "rpc_address": TEXT}}
SYNC_INFO = {"latest_block_hash": HASH, "latest_app_hash": HEX, "latest_block_height": INT64, "latest_block_time": TIME,
             "earliest_block_hash": HASH, "earliest_app_hash": HEX, "earliest_block_height": INT64, "earliest_block_time": TIME,
             "catching_up": BOOL}
VALIDATOR_INFO = {"address": HEX, "pub_key": {"type": TEXT, "value": BYTES}, "voting_power": INT64}
HEADER = {"version": {"block": INT64, "app": INT64}, "chain_id": TEXT, "height": INT64, "time": TIME, "last_block_id": BLOCK_ID,
          "last_commit_hash": HASH, "data_hash": HASH, "validators_hash": HASH, "next_validators_hash": HASH, "consensus_hash": HASH,
          "app_hash": HEX, "last_results_hash": HASH, "evidence_hash": HASH, "proposer_address": HEX}
BLOCK = {"header": HEADER, "data": {"txs": TXS}, "evidence": {"evidence": EVENTS},
         "last_commit": {"height": INT64, "round": INT, "block_id": BLOCK_ID, "signatures": EVENTS}}
DELIVERED = {"code": UINT32, "data": BYTES, "log": TEXT, "info": TEXT, "gas_wanted": INT64, "gas_used": INT64, "events": EVENTS,
             "codespace": TEXT}
CHECKED = {**DELIVERED, "sender": TEXT, "priority": INT64, "mempoolError": TEXT}
RESULTS = {
    "/health": {},
    "/status": {"node_info": NODE_INFO, "sync_info": SYNC_INFO, "validator_info": VALIDATOR_INFO},
    "/abci_info": {"response": {"data": TEXT, "version": TEXT, "app_version": INT64, "last_block_height": INT64,
                                "last_block_app_hash": BYTES}},
    "/abci_query": {"response": {"code": UINT32, "log": TEXT, "info": TEXT, "index": INT64, "key": BYTES, "value": BYTES,
                                 "proofOps": PROOF, "height": INT64, "codespace": TEXT}},
    "/block": {"block_id": BLOCK_ID, "block": BLOCK},
    "/num_unconfirmed_txs": {"n_txs": INT64, "total": INT64, "total_bytes": INT64, "txs": NO_TXS},
    "/broadcast_tx_sync": {"code": UINT32, "data": HEX, "log": TEXT, "codespace": TEXT, "hash": HASH},
    "/broadcast_tx_commit": {"check_tx": CHECKED, "deliver_tx": DELIVERED, "hash": HASH, "height": INT64},
}
# The paths that aren't calls of CometBFT's RPC with a result: a page, and what CometBFT answers at a port of its own.
OTHER_PATHS = {"/", "/metrics"}


def rows_of(section):
    """The rows of the tables in a section of the page: for each path, the names in the last column."""
    with open(PAGE, encoding="utf-8") as file:
        text = re.split(r"(?m)^##+ ", file.read())
    [body] = [part for part in text if part.split("\n")[0] == section]
    return {row[1]: re.findall("`([^`]+)`", row[2]) for row in re.finditer(r"(?m)^`(/[^`]*)` \|(.*)$", body)}


def left_out(schema, value, where=""):
    """The names of fields that are left out. Each field that is there is checked."""
    missing = []
    for name, kind in schema.items():
        path = where + name
        if name not in value:
            missing.append(path)
        elif isinstance(kind, dict):
            assert isinstance(value[name], dict), f"{path} is no object: {value[name]!r}"
            missing += left_out(kind, value[name], path + ".")
        else:
            assert kind(value[name]), f"{path} isn't of CometBFT's form: {value[name]!r}"
    extra = set(value) - set(schema) - ({"abft"} if not where else set())
    assert not extra, f"fields that CometBFT doesn't have: {extra}"
    return missing


class Comet:
    """The URI calls of one node."""

    def __init__(self, port):
        self.root = f"http://127.0.0.1:{port}"
        self.left_out = rows_of("What is left out")
        self.calls = 0

    def reply(self, path, /, **parameters):
        """The status and the body of a reply, in the envelope of JSON-RPC 2.0 with the id of URI calls."""
        self.calls += 1
        url = self.root + path + ("?" + urllib.parse.urlencode(parameters) if parameters else "")
        try:
            with urllib.request.urlopen(url, timeout=100) as reply:
                status, kind, body = reply.status, reply.headers["Content-Type"], reply.read()
        except urllib.error.HTTPError as error:
            status, kind, body = error.code, error.headers["Content-Type"], error.read()
        assert kind.split(";")[0] == "application/json", kind
        body = json.loads(body)
        assert body["jsonrpc"] == "2.0" and body["id"] == -1 and is_integer(body["id"]), body
        assert set(body) in ({"jsonrpc", "id", "result"}, {"jsonrpc", "id", "error"}), body
        return status, body

    def call(self, path, /, **parameters):
        status, body = self.reply(path, **parameters)
        assert status == 200 and "result" in body, (path, status, body)
        missing = left_out(RESULTS[path], body["result"])
        wanted = self.left_out.get(path, [])
        assert missing == wanted, f"{path}: left out are {missing}, the page lists {wanted}"
        return body["result"]

    def fault(self, path, /, **parameters):
        """The error of a call, as CometBFT's RPCError has it."""
        status, body = self.reply(path, **parameters)
        error = body["error"]
        assert status != 200 and set(error) == {"code", "message", "data"}, (path, status, body)
        assert INT(error["code"]) and isinstance(error["message"], str) and isinstance(error["data"], str), error
        return error

    def health(self):
        return self.call("/health")

    def status(self):
        return self.call("/status")

    def abci_info(self):
        return self.call("/abci_info")["response"]

    def abci_query(self, key, **parameters):
        """CometBFT's clients name each parameter, also those that they leave empty."""
        return self.call("/abci_query", path='""', data="0x" + key.hex(), prove="false", **parameters)["response"]

    def block(self, height=None):
        return self.call("/block", **({} if height is None else {"height": f'"{height}"'}))

    def num_unconfirmed_txs(self):
        return self.call("/num_unconfirmed_txs")

    def broadcast_tx_sync(self, tx):
        return self.call("/broadcast_tx_sync", tx="0x" + tx.hex())

    def broadcast_tx_commit(self, tx):
        return self.call("/broadcast_tx_commit", tx="0x" + tx.hex())


def hash_of(tx):
    return hashlib.sha256(tx).hexdigest().upper()


def read_all(node):
    """Each call, as clients use them: what one answer says, another says again."""
    assert set(rows_of("Requests")) == set(RESULTS) | OTHER_PATHS, "the page lists other calls"
    node.health()
    before = int(node.status()["sync_info"]["latest_block_height"])
    tx = b"comet=\x00\xff"
    done = node.broadcast_tx_commit(tx)
    assert (done["check_tx"]["code"], done["deliver_tx"]["code"], done["hash"]) == (0, 0, hash_of(tx)), done
    height = int(done["height"])
    assert height > before, (height, before)
    block = node.block(height)["block"]
    assert block["header"]["height"] == done["height"] and tx in map(base64.b64decode, block["data"]["txs"]), block
    found = node.abci_query(b"comet")
    assert (found["code"], found["log"]) == (0, "exists"), found
    assert base64.b64decode(found["key"]) == b"comet" and base64.b64decode(found["value"]) == b"\x00\xff", found
    assert int(found["height"]) >= height, found
    nothing = node.abci_query(b"no such key", height='"0"')
    assert (nothing["code"], nothing["log"], nothing["value"]) == (0, "does not exist", None), nothing
    info = node.abci_info()
    assert int(info["last_block_height"]) >= height and len(base64.b64decode(info["last_block_app_hash"])) == 32, info
    assert int(node.block()["block"]["header"]["height"]) >= height
    sent = node.broadcast_tx_sync(b"comet=2")
    assert (sent["code"], sent["hash"]) == (0, hash_of(b"comet=2")), sent
    waiting = node.num_unconfirmed_txs()
    # A transaction has 1 to 64 bytes.
    count = int(waiting["n_txs"])
    assert waiting["n_txs"] == waiting["total"] and count <= int(waiting["total_bytes"]) <= 64 * count, waiting
    assert node.fault("/broadcast_tx_sync")["code"] == -32602
    assert node.fault("/block", height='"4096"')["code"] == -32603
    assert node.fault("/no_such_call")["code"] == -32601
    status = node.status()
    assert int(status["sync_info"]["latest_block_height"]) >= height and status["node_info"]["network"] == "abft", status


comet = Comet(int(sys.argv[1]))
try:
    read_all(comet)
except (AssertionError, KeyError, ValueError) as fault:
    sys.exit(f"CometBFT's client: {type(fault).__name__}: {fault}")
print(comet.calls, "calls")
