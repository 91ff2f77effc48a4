"""What `abft serve` must answer to the bytes of an HTTP request, by docs/HTTP.md and RFC 9112 alone, for tests/http_load.py."""
import re

TOKEN = rb"[!#$%&'*+\-.^_`|~0-9A-Za-z]+"
VALUE = rb"[\t\x20-\x7e\x80-\xff]*"
HEAD = re.compile(rb"(?s)(?:\r?\n)*(%s) ([^\x00-\x20\x7f]+) HTTP/1\.[01]\r?\n((?:%s:%s\r?\n)*)\r?\n" % (TOKEN, TOKEN, VALUE))
PATHS = {b"/", b"/health", b"/status", b"/abci_info", b"/abci_query", b"/block", b"/num_unconfirmed_txs", b"/broadcast_tx_sync",
         b"/broadcast_tx_commit", b"/metrics"}
MOST_BYTES, MOST_FIELDS, MOST_TX, REPLICAS = 8192, 64, 64, 4
NO_REQUEST = {"this is no HTTP/1.x request", "the request ends within its head"}


class Refused(Exception):
    """The status and the texts that the refusal may have."""

    def __init__(self, status, *texts):
        self.status, self.texts = status, texts


def decoded(text):
    text = text.replace(b"+", b" ")
    return re.sub(rb"%([0-9A-Fa-f]{2})", lambda m: bytes([int(m[1], 16)]), text)


def byte_string(text):
    if re.fullmatch(rb"0[xX]([0-9A-Fa-f]{2})*", text):
        return bytes.fromhex(text[2:].decode())
    match = re.fullmatch(rb'(?s)"([^"\\]*)"', text)
    return match[1] if match and text[:2].lower() != b"0x" else None


def number(text):
    match = re.fullmatch(rb'"?([0-9]+)"?', text)
    if not match or text.startswith(b'"') != text.endswith(b'"'):
        return None
    return int(match[1]) if int(match[1]) < 2**32 else None


def parameter(query, name, read, is_required=False):
    """The first value of this name."""
    for pair in query.split(b"&"):
        written, _, value = pair.partition(b"=")
        if pair and written == name:
            found = read(decoded(value))
            if found is None:
                raise Refused(400, f"the parameter {name.decode()} is missing or wrong")
            return found
    if is_required:
        raise Refused(400, f"the parameter {name.decode()} is missing or wrong")
    return None


def head_of(data):
    """The method and the target of the request that the bytes start with."""
    match = HEAD.match(data)
    if match and len(match[3].splitlines()) > MOST_FIELDS and match.end() <= MOST_BYTES:
        raise Refused(431, "the head of the request is too long")
    try:
        if match:
            match[2].decode()
    except UnicodeDecodeError:
        match = None
    if match and match.end() <= MOST_BYTES:
        return match[1], match[2]
    if len(data) > MOST_BYTES or data.count(b"\n") > MOST_FIELDS:
        raise Refused((400, 431), *NO_REQUEST, "the head of the request is too long")
    raise Refused(400, *NO_REQUEST)


def asked(data):
    """The path, the replica, and what a request's parameters are; `Refused` if the request asks nothing that is answered."""
    method, target = head_of(data)
    path, _, query = target.partition(b"?")
    if path not in PATHS:
        raise Refused(404, "no such path")
    if method != b"GET":
        raise Refused(405, "only GET is answered here")
    given = {}
    if path == b"/abci_query":
        given["data"] = parameter(query, b"data", byte_string, True)
    if path.startswith(b"/broadcast"):
        given["tx"] = parameter(query, b"tx", byte_string, True)
    if path in (b"/abci_query", b"/block"):
        given["height"] = parameter(query, b"height", number)
    replica = parameter(query, b"replica", number)
    if replica is not None and replica > 255:
        raise Refused(400, "the parameter replica is missing or wrong")
    if replica is not None and replica >= REPLICAS:
        raise Refused(400, "the cluster has no such replica")
    if "tx" in given and not given["tx"]:
        raise Refused(400, "the transaction has no byte")
    if "tx" in given and len(given["tx"]) > MOST_TX:
        raise Refused(400, "the transaction has more than 64 bytes")
    return path.decode(), replica, given
