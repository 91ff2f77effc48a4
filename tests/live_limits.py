#!/usr/bin/env python3
"""What a live cluster does at its limits: tests/live_limits.py ABFT [NAME..]. Each scenario starts a server of its own, and prints a line:
its name, and what came. Three are run at once; without names those that the gate runs."""
import concurrent.futures
import fcntl
import json
import os
import pty
import re
import resource
import select
import socket
import struct
import subprocess
import sys
import tempfile
import termios
import time
import urllib.error
import urllib.request

sys.dont_write_bytecode = True
from records import read_histories  # noqa: E402

ABFT = sys.argv[1]


class Server:
    """A running `abft serve`, whose standard input stays open."""

    def __init__(self, *words, files=None, errors=subprocess.DEVNULL, input=subprocess.PIPE):
        def limit():
            if files is not None:
                resource.setrlimit(resource.RLIMIT_NOFILE, (files, files))

        self.process = subprocess.Popen([ABFT, "serve", *words], stdin=input, stdout=subprocess.PIPE, stderr=errors,
                                        preexec_fn=limit)
        self.port = int(self.process.stdout.readline().split()[1])
        self.http = int(self.process.stdout.readline().split()[1]) if "--http" in words else None

    def connect(self):
        return Session(socket.create_connection(("127.0.0.1", self.port), timeout=60))

    def get(self, path, *fields):
        """What these fields of HTTP's answer have, or the number of the answer if it is an error."""
        try:
            with urllib.request.urlopen(f"http://127.0.0.1:{self.http}{path}", timeout=60) as answer:
                found = json.load(answer)["result"]
        except urllib.error.HTTPError as fault:
            return fault.code
        for field in fields:
            found = found[field]
        return found

    def peak_memory(self):
        """The most memory that it has had, in MB."""
        with open(f"/proc/{self.process.pid}/status") as status:
            return next(int(line.split()[1]) for line in status if line.startswith("VmHWM")) // 1024

    def processor_time(self):
        """What it has used of a processor, in hundredths of a second."""
        with open(f"/proc/{self.process.pid}/stat") as status:
            return sum(map(int, status.read().rsplit(")", 1)[1].split()[11:13]))

    def ends(self, seconds):
        """How many replicas committed a block, and the status, once it ends in time."""
        try:
            self.process.wait(seconds)
        except subprocess.TimeoutExpired:
            self.process.kill()
            return "doesn't end"
        heights = [int(line.split()[2]) for line in self.process.stdout.read().decode().splitlines() if line.startswith("commits ")]
        return f"{len(heights)} lines, status {self.process.returncode}", heights


class Session:
    """A session with a server."""

    def __init__(self, stream):
        self.stream = stream

    def exact(self, count):
        data = b""
        while len(data) < count:
            piece = self.stream.recv(count - len(data))
            if not piece:
                raise ConnectionError("the server ended the connection")
            data += piece
        return data

    def ask(self, body):
        """The reply to a request, as hexadecimal digits."""
        return self.ask_all([body])[0]

    def ask_all(self, bodies):
        """The replies to requests that are sent at once."""
        self.stream.sendall(b"".join(struct.pack(">H", len(body)) + body for body in bodies))
        return [self.exact(struct.unpack(">H", self.exact(2))[0]).hex() for _ in bodies]

    def ask_often(self, body, count):
        """How often each status came, of so many equal requests, a thousand at once."""
        counts = {}
        for _ in range(count // 1000):
            for reply in self.ask_all([body] * 1000):
                counts[reply[:2]] = counts.get(reply[:2], 0) + 1
        return " ".join(f"{status}: {number}" for status, number in sorted(counts.items()))


QUERY = b"\x02\0\0\0\0a"
HEIGHT = b"\x03"


def entries():
    """Clients use four entries of each history, and what the pool refuses by its bytes alone is none."""
    server = Server("--rounds", "0", "--client-entries", "4")
    session = server.connect()
    asked = [b"\x01", b"\x01" + 65 * b"x", b"\x01b=2", b"\x01b=2", QUERY, b"\x01c=3", QUERY, b"\x01d=4", b"\x01", HEIGHT]
    others = [b"\x05\x01", b"\x01b=2", b"\x01b=2", b"\x05\x02", b"\x01b=2"]
    bodies = asked + others
    replies = [session.ask(body) for body in bodies]
    session.stream.close()
    is_receipt = [body[0] == 1 and reply[:2] == "00" for body, reply in zip(bodies, replies)]
    # A receipt is told without its index, since the replica opens a height meanwhile.
    told = " ".join(reply[:4] if is_one else reply for is_one, reply in zip(is_receipt, replies))
    first, second, *_ = (int(reply[4:], 16) for is_one, reply in zip(is_receipt, replies) if is_one)
    # Between the two submits that replica 0 takes it takes one that it refuses, and a query.
    order = "in order" if 1 <= first and second - first in (3, 4) else f"{first} and {second}"
    return f"{told}, {order}; " + server.ends(30)[0]


def asked():
    """Each event of a client is in the history of the replica that the client asked, and in no other."""
    with tempfile.TemporaryDirectory() as room:
        saved = os.path.join(room, "histories")
        server = Server("--rounds", "0", "--http", "0", "--histories", saved)
        session = server.connect()
        for body in [b"\x05\x01", QUERY, QUERY, b"\x05\x03", QUERY, b"\x05\x02", b"\x01b=2"]:
            session.ask(body)
        server.get("/abci_query?data=%22a%22&replica=2")
        waiting = [str(server.get(f"/num_unconfirmed_txs?replica={replica}", "n_txs")) for replica in range(4)]
        session.stream.close()
        end = server.ends(30)[0]
        with open(saved, "rb") as file:
            histories = read_histories(file.read())
    told = [f"{kind} {' '.join(str(sum(entry.kind == kind for entry in histories[replica])) for replica in range(4))}"
            for kind in ("query", "submit")]
    return f"{', '.join(told)}, waiting {' '.join(waiting)}; {end}"


def left_behind():
    """Replica 0, whose history is full, commits nothing more. It answers with what it has committed, and the others with more."""
    server = Server("--rounds", "4000000000", "--base-ms", "150", "--tree", "10", "--http", "0", "--client-entries", "65536",
                    "--stop-at-eof")
    session = server.connect()
    session.ask_often(QUERY, 66_000)

    def height_of(replica):
        return int(server.get(f"/status?replica={replica}", "sync_info", "latest_block_height"))

    def compared(found):
        return found if isinstance(found, int) else "same" if int(found) == height else "more" if int(found) > height else "less"

    height, latest = height_of(0), time.monotonic() + 60
    while min(map(height_of, range(1, 4))) <= height and time.monotonic() < latest:
        time.sleep(0.05)
    told = []
    for replica in range(4):
        session.ask(bytes([5, replica]))
        block = session.ask(b"\x04" + struct.pack(">I", height + 1))[:2]
        heights = [server.get(f"/status?replica={replica}", "sync_info", "latest_block_height"),
                   server.get(f"/abci_info?replica={replica}", "response", "last_block_height"),
                   server.get(f"/block?replica={replica}&height={height + 1}", "block", "header", "height")]
        told.append(" ".join([block, *map(str, map(compared, heights))]))
    server.process.stdin.close()
    return ", ".join(told) + "; " + server.ends(30)[0]


def flood():
    """A client asks 200,000 times: its replica takes what is allowed, its memory is bounded, and the cluster goes on."""
    server = Server("--rounds", "24", "--base-ms", "400")
    session = server.connect()
    told = [session.ask_often(b"\x01" + 65 * b"x", 100_000), session.ask_often(QUERY, 100_000)]
    told.append("bounded" if server.peak_memory() < 200 else f"{server.peak_memory()} MB")
    session.stream.close()
    end, heights = server.ends(60)
    told.append("all commit" if all(heights) else f"committed {heights}")
    return "; ".join(told + [end])


def full(replicas):
    """Clients fill the histories of these replicas: the process ends when the rounds are over."""
    server = Server("--rounds", "16", "--base-ms", "150", "--client-entries", "65536", "--sessions", str(len(replicas)))

    def fill(replica):
        session = server.connect()
        session.ask(bytes([5, replica]))
        session.ask_often(QUERY, 66_000)
        last = session.ask(QUERY)
        session.stream.close()
        return last

    with concurrent.futures.ThreadPoolExecutor(len(replicas)) as pool:
        told = " ".join(pool.map(fill, replicas))
    return told + "; " + server.ends(30)[0]


def full_at(place):
    """A client fills the histories of all replicas at this place of the third phase: the process ends when the rounds are over."""
    base = 300
    server = Server("--rounds", "16", "--base-ms", str(base), "--client-entries", "65536")
    session = server.connect()
    session.ask(HEIGHT)
    began = time.monotonic()
    for replica in range(4):
        session.ask(bytes([5, replica]))
        session.ask_often(QUERY, 64_000)
    ended = 7 + place  # rounds before that place
    time.sleep(max(0, began + (ended * base + ended * (ended + 1) // 2 + base // 2) / 1000 - time.monotonic()))
    told = []
    for replica in range(4):
        session.ask(bytes([5, replica]))
        session.ask_often(QUERY, 2_000)
        told.append(session.ask(QUERY))
    session.stream.close()
    return " ".join(told) + "; " + server.ends(30)[0]


def descriptors():
    """Connections that find no descriptor wait, and use up no session."""
    server = Server("--rounds", "0", "--sessions", "40", files=20)
    sessions = [server.connect() for _ in range(40)]
    answered = 0
    for session in sessions:
        answered += session.ask(HEIGHT) == "0000000000"
        session.stream.close()
    return f"{answered} answered; " + server.ends(30)[0]


def last_session():
    """After the last session the listener is closed."""
    server = Server("--rounds", "0")
    session = server.connect()
    session.ask(HEIGHT)
    time.sleep(0.5)
    try:
        server.connect()
        told = "connects"
    except ConnectionRefusedError:
        told = "refused"
    session.stream.close()
    return told + "; " + server.ends(30)[0]


def stop():
    """The end of standard input ends the rounds, the listener and the sessions."""
    server = Server("--rounds", "4000000000", "--sessions", "1000", "--stop-at-eof")
    session = server.connect()
    session.ask(HEIGHT)
    server.process.stdin.close()
    told = server.ends(30)[0]
    return "idle client ended; " + told if session.stream.recv(1) == b"" else told


def full_pipe():
    """The ends of a pipe that takes no byte more."""
    reader, writer = os.pipe()
    os.write(writer, b"x" * fcntl.fcntl(writer, fcntl.F_SETPIPE_SZ, 4096))
    return reader, writer


def quiet_status(errors, output=subprocess.DEVNULL):
    """How a quiet cluster of no rounds ends beside this standard error."""
    process = subprocess.Popen([ABFT, "cluster", "--quiet", "--rounds", "0"], stdin=subprocess.DEVNULL, stdout=output, stderr=errors)
    try:
        return f"status {process.wait(20)}"
    except subprocess.TimeoutExpired:
        process.kill()
        return "doesn't end"


def unread():
    """Standard error is a full pipe that nobody reads: the cluster goes on, and ends when it is asked to."""
    reader, writer = full_pipe()
    server = Server("--rounds", "4000000000", "--base-ms", "100", "--stop-at-eof", errors=writer)
    os.close(writer)
    session = server.connect()
    end = time.monotonic() + 60
    while session.ask(HEIGHT) == "0000000000" and time.monotonic() < end:
        time.sleep(0.1)
    told = "commits" if session.ask(HEIGHT) != "0000000000" else "doesn't commit"
    server.process.stdin.close()
    told += "; " + server.ends(30)[0]
    os.close(reader)
    return told


def unread_fault():
    """The text of the last fault meets a full pipe: the process ends with its status."""
    reader, writer = full_pipe()
    with open("/dev/full", "wb") as full:
        told = quiet_status(writer, full)
    os.close(writer)
    os.close(reader)
    return told


def unread_datagrams():
    """Standard error is a socket that takes no datagram more, which holds up even a write of no byte."""
    reader, writer = socket.socketpair(socket.AF_UNIX, socket.SOCK_DGRAM)
    writer.setblocking(False)
    try:
        while True:
            writer.send(b"x")
    except BlockingIOError:
        writer.setblocking(True)
    told = quiet_status(writer)
    reader.close()
    return told


def stopped_terminal():
    """Standard error is a stopped terminal, which another process waits to write to."""
    master, terminal = pty.openpty()
    termios.tcflow(terminal, termios.TCOOFF)
    other = subprocess.Popen(["echo", "waits"], stdout=terminal)
    time.sleep(0.3)
    told = quiet_status(terminal)
    other.kill()
    other.wait()
    os.close(terminal)
    os.close(master)
    return told


def terminal_kinds():
    """Which kinds of terminals get a line of progress that is erased, and which get lines."""
    told = []
    for kind in ["xterm", "dumb", ""]:
        master, terminal = pty.openpty()
        subprocess.run([ABFT, "cluster", "--rounds", "0"], stdin=subprocess.DEVNULL, stdout=subprocess.DEVNULL, stderr=terminal,
                       env={"TERM": kind} if kind else {}, timeout=20)
        is_erased = b"\x1b[K" in os.read(master, 4096)
        told.append(f"{kind or 'none'} {'erased' if is_erased else 'lines'}")
        os.close(terminal)
        os.close(master)
    return ", ".join(told)


def terminal_warnings():
    """On a terminal a replica that becomes mute has a line of its own, and progress goes on below it."""
    master, terminal = pty.openpty()
    cluster = subprocess.Popen([ABFT, "cluster", "--rounds", "4000000000", "--base-ms", "10", "--stop-at-eof"], stdin=subprocess.PIPE,
                               stdout=subprocess.DEVNULL, stderr=terminal, env={"TERM": "xterm"})
    line = re.compile(rb"\rreplica (\d) is mute from round \d+ on: [^\r\n]*\x1b\[K\r*\n(?=\r)")
    told, latest = b"", time.monotonic() + 60
    while len(line.findall(told)) < 4 or told.rfind(b"\rround ") < told.rfind(b" is mute "):
        if not select.select([master], [], [], max(0, latest - time.monotonic()))[0]:
            break
        told += os.read(master, 4096)
    cluster.stdin.close()
    try:
        status = f"status {cluster.wait(20)}"
    except subprocess.TimeoutExpired:
        cluster.kill()
        status = "doesn't end"
    os.close(terminal)
    os.close(master)
    return f"mute {' '.join(sorted(number.decode() for number in line.findall(told)))}; {status}"


def background():
    """A job in the background of a terminal that stops such jobs where they write: a quiet one isn't stopped."""
    child, terminal = pty.fork()
    if child == 0:
        line = 'stty tostop; "$0" cluster --quiet --rounds 0 </dev/null >/dev/null & wait $!; echo "status $?"; kill -9 $! 2>/dev/null'
        os.execvp("bash", ["bash", "-mc", line, ABFT])
    told = b""
    try:
        while piece := os.read(terminal, 1000):
            told += piece
    except OSError:  # the terminal has no other end any more
        pass
    os.waitpid(child, 0)
    os.close(terminal)
    return told.decode().splitlines()[-1]


def zeros():
    """Standard input has no end: it is read now and then."""
    with open("/dev/zero", "rb") as endless:
        server = Server("--rounds", "4000000000", "--stop-at-eof", input=endless)
    time.sleep(1)
    with open(f"/proc/{server.process.pid}/io") as counts:
        count = int(counts.readline().split()[1])
    server.process.kill()
    server.process.wait()
    return "rests" if count < 1 << 20 else f"read {count} bytes in a second"


def control_d():
    """Standard input is a terminal: Ctrl-D ends the run, which prints its lines."""
    master, terminal = pty.openpty()
    cluster = subprocess.Popen([ABFT, "cluster", "--rounds", "4000000000", "--quiet"], stdin=terminal, stdout=subprocess.PIPE,
                               stderr=subprocess.DEVNULL)
    time.sleep(1)
    told = "ended early" if cluster.poll() is not None else "runs"
    os.write(master, b"\x04")
    try:
        lines = cluster.communicate(timeout=20)[0].splitlines()
        told += f"; {len([line for line in lines if line.startswith(b'commits ')])} lines, status {cluster.returncode}"
    except subprocess.TimeoutExpired:
        cluster.kill()
        told += "; doesn't end"
    os.close(terminal)
    os.close(master)
    return told


SCENARIOS = {
    "entries": entries,
    "asked": asked,
    "left behind": left_behind,
    "flood": flood,
    "one full": lambda: full([0]),
    "all full": lambda: full([0, 1, 2, 3]),
    "full at 1": lambda: full_at(1),
    "full at 2": lambda: full_at(2),
    "full at 3": lambda: full_at(3),
    "full at 4": lambda: full_at(4),
    "descriptors": descriptors,
    "last session": last_session,
    "stop": stop,
    "unread": unread,
    "unread fault": unread_fault,
    "unread datagrams": unread_datagrams,
    "stopped terminal": stopped_terminal,
    "terminal kinds": terminal_kinds,
    "terminal warnings": terminal_warnings,
    "background": background,
    "ctrl-d": control_d,
    "zeros": zeros,
}


def main(names):
    names = names or [name for name in SCENARIOS if not name.startswith("full at")]
    with concurrent.futures.ThreadPoolExecutor(3) as pool:
        for name, told in zip(names, pool.map(lambda name: SCENARIOS[name](), names)):
            print(f"{name}: {told}")


if __name__ == "__main__":
    main(sys.argv[2:])
