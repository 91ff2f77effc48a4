"""What must be true of the histories of a cluster's correct replicas, whatever its liars and its network did: their commits are prefixes of
one list, each reply of an application is the one of the application run alone, nothing forged was accepted, and no leaf signed twice. It
follows the histories by the words of docs/PROTOCOL.md, and shares no code with the program."""
import collections

from machines import machine
from records import Ack, Lock, Report, read_frame

REPORT_PLACE, LOCK_PLACE, ACK_PLACE, RELEASE_PLACE = 1, 2, 3, 4
MAX_LOCKS, MAX_POOL, MAX_TX = 4, 1024, 64
MAX_BATCH = {1: 16, 2: 64}  # by the version of the frames


def phase_of(clock):
    return (clock + 3) // 4


def place_of(clock):
    return (clock + 3) % 4 + 1


class Untrue(Exception):
    """Something that must be true of the histories isn't."""


def require(is_true, *words):
    if not is_true:
        raise Untrue(" ".join(map(str, words)))


class Height:
    """What a replica knows of one open height: the locks that it holds, each with its phase, and what it made and read in this phase."""

    def __init__(self, initial):
        self.initial, self.locks = initial, {}
        self.begin_phase()

    def begin_phase(self):
        self.made = self.taken = None
        self.acks = set()

    def take_lock(self, value, phase):
        self.locks[value], self.taken = phase, value

    def release(self, lock):
        for value, phase in list(self.locks.items()):
            if value != lock.value and phase <= lock.phase:
                del self.locks[value]


class Replica:
    """A correct replica, followed entry by entry."""

    def __init__(self, number, replicas, faults, kind, frames=1):
        self.number, self.replicas, self.faults, self.frames = number, replicas, faults, frames
        self.clock, self.floor, self.is_mute = 0, 1, False
        self.heights, self.decided, self.commits, self.proposed = {}, {}, [], {}
        self.machine, self.pool = machine(kind), []
        self.leaves = {}  # what each leaf signed
        self.sent, self.sent_frames, self.accepted, self.ignored = [], [], [], collections.Counter()

    def follow(self, entries):
        for index, entry in enumerate(entries):
            try:
                getattr(self, entry.kind)(entry)
            except Untrue as fault:
                raise Untrue(f"replica {self.number}, entry {index} ({entry.kind}): {fault}") from None

    def submit(self, entry):
        transaction, code = entry.given, self.machine.check(entry.given)
        wanted = (1 if not transaction else 2 if len(transaction) > MAX_TX else 3 if transaction in self.pool
                  else 4 if len(self.pool) == MAX_POOL else 5 if code else 0)
        require(entry.why == wanted, "answers", entry.why, "and not", wanted)
        require(wanted != 5 or entry.reply == code, "has code", entry.reply, "and not", code)
        if entry.why == 0:
            self.pool.append(transaction)

    def propose(self, entry):
        height, committed = entry.given, len(self.commits)
        wanted = (3 if not 1 <= height <= 4096 else 4 if height < self.floor else 2 if height in self.heights
                  else 1 if height > committed + 4 else 0)
        require(entry.why == wanted, "answers", entry.why, "and not", wanted)
        if entry.why == 0:
            require(entry.reply == tuple(self.pool[:MAX_BATCH[self.frames]]), "isn't what the pool holds")
            self.heights[height] = Height(entry.reply)
            self.proposed[height] = entry.reply

    def deliver(self, entry):
        if entry.why != 0:
            self.ignored[entry.why] += 1
            return
        signed = read_frame(entry.given)
        statement = signed.statement
        self.accepted.append(signed)
        require(statement.signer < self.replicas, "accepts a stranger")
        require(statement.height in self.heights, "accepts at a height that isn't open")
        height, phase, place = self.heights[statement.height], phase_of(self.clock), place_of(self.clock)
        if isinstance(statement, Report):
            require((place, statement.phase) == (REPORT_PLACE, phase), "accepts a report out of its round")
        elif isinstance(statement, Ack):
            require((place, statement.phase) == (ACK_PLACE, phase), "accepts an acknowledgement out of its round")
            require(height.made == statement.value, "accepts an acknowledgement of a lock that it didn't make")
            require(statement.signer not in height.acks, "accepts an acknowledgement twice")
            height.acks.add(statement.signer)
        else:
            self.read_lock(height, statement, phase, place)

    def read_lock(self, height, lock, phase, place):
        self.require_valid(lock)
        if place == LOCK_PLACE:
            require(lock.phase == phase and height.taken is None, "takes a lock out of its round, or a second one")
            require(len([value for value in height.locks if value != lock.value]) < MAX_LOCKS, "takes a lock without room")
            height.take_lock(lock.value, phase)
        else:
            require(place == RELEASE_PLACE and lock.phase <= phase, "reads a lock out of its round")
            height.release(lock)

    def require_valid(self, lock):
        signers = [signed.statement.signer for signed in lock.proof]
        require(lock.signer == lock.phase % self.replicas, "accepts a lock of somebody who doesn't own its phase")
        require(len(signers) == self.replicas - self.faults, "accepts a proof that isn't a quorum's")
        require(signers == sorted(set(signers)) and signers[-1] < self.replicas, "accepts a proof with wrong signers")
        for report, _ in lock.proof:
            require((report.height, report.phase) == (lock.height, lock.phase), "accepts a proof of another height or phase")
            require(report.all or lock.value in report.proper, "accepts a proof that doesn't name the value")
            require(all(value == lock.value for value in report.locked), "accepts a proof that locks another value")

    def end(self, entry):
        require(entry.why == 0, "refuses to end a round")
        closes, self.clock = place_of(self.clock) if self.clock else 0, self.clock + 1
        phase, place = phase_of(self.clock), place_of(self.clock)
        require(entry.reply.mute or not self.is_mute, "isn't mute any more")
        self.is_mute = entry.reply.mute
        own = [self.read_own(addressee, frame, phase, place) for addressee, frame in entry.reply.frames]
        if place == REPORT_PLACE:
            for height in self.heights.values():
                height.begin_phase()
            require(len(own) == (0 if self.is_mute else len(self.heights)), "doesn't make one report for each height")
        elif place == LOCK_PLACE:
            for lock in own:
                self.make_lock(lock)
        elif place == ACK_PLACE:
            self.acknowledge_own(phase)
        elif closes == ACK_PLACE:
            self.decide(phase)

    def read_own(self, addressee, frame, phase, place):
        """A frame that it sends: its statement is its own and of this place, or it is a lock that it holds."""
        signed = read_frame(frame)
        statement, kind = signed.statement, type(signed.statement)
        self.sent.append(signed)
        self.sent_frames.append(frame)
        require(statement.height in self.heights, "sends at a height that isn't open")
        height = self.heights[statement.height]
        if place == RELEASE_PLACE:
            require(kind is Lock and height.locks.get(statement.value) == statement.phase, "sends on a lock that it doesn't hold")
            return statement
        require(frame[4] // 16 + 1 == self.frames, "makes a statement of another version than its frames")
        require(kind is (Report, Lock, Ack)[place - 1] and statement.phase == phase, "makes a statement out of its place")
        require(statement.signer == self.number and not self.is_mute, "makes a statement of another, or is mute")
        require(addressee == (phase % self.replicas if kind is Ack else 255), "sends it to the wrong replica")
        leaf = signed.signature[:4]
        require(self.leaves.setdefault(leaf, statement) == statement, "signs two statements with one leaf")
        if kind is Report:
            require(statement.initial == height.initial and set(statement.locked) == set(height.locks), "reports something else than it holds")
        if kind is Ack:
            require(statement.value == height.taken, "acknowledges a lock that it didn't take")
        return statement

    def make_lock(self, lock):
        self.require_valid(lock)
        height = self.heights[lock.height]
        height.made = lock.value
        if len([value for value in height.locks if value != lock.value]) < MAX_LOCKS:
            height.take_lock(lock.value, lock.phase)

    def acknowledge_own(self, phase):
        """An owner reads its own acknowledgement, which it doesn't send."""
        if phase % self.replicas == self.number and not self.is_mute:
            for height in self.heights.values():
                if height.made is not None and height.taken == height.made:
                    height.acks.add(self.number)

    def decide(self, phase):
        for number, height in self.heights.items():
            if height.made is not None and len(height.acks) >= 2 * self.faults + 1:
                self.decided.setdefault(number, height.made)

    def execute(self, entry):
        number = len(self.commits) + 1
        if entry.why != 0:
            require(number not in self.decided, "doesn't execute what it decided")
            return
        require(number in self.decided, "executes what it didn't decide")
        batch = self.decided[number]
        self.commits.append(batch)
        codes = self.machine.run(batch)
        require(entry.reply.height == number, "executes another height")
        require(entry.reply.codes == codes, "has codes", entry.reply.codes, "and not", codes)
        require(entry.reply.hash == self.machine.hash(), "has another state")
        self.pool = [transaction for transaction in self.pool if transaction not in batch and self.machine.check(transaction) == 0]

    def query(self, entry):
        height, key = entry.given
        if entry.why != 0:
            require(height not in (0, len(self.commits)), "doesn't answer a query")
            return
        require(entry.reply.height == len(self.commits), "answers a query as of another height")
        require(entry.reply.value == self.machine.query(key), "answers a query with another value")

    def retire(self, entry):
        wanted = 1 if entry.given > len(self.commits) + 1 else 2 if entry.given <= self.floor else 0
        require(entry.why == wanted, "answers", entry.why, "and not", wanted)
        if entry.why == 0:
            self.floor = entry.given
            self.heights = {number: height for number, height in self.heights.items() if number >= self.floor}


def statements_in(signed):
    """A signed statement, and the signed reports in it."""
    yield signed
    if isinstance(signed.statement, Lock):
        yield from signed.statement.proof


def check_nothing_forged(replicas):
    made = {signed for replica in replicas.values() for signed in replica.sent}
    for replica in replicas.values():
        for accepted in replica.accepted:
            for signed in statements_in(accepted):
                if signed.statement.signer in replicas:
                    require(signed in made, "replica", replica.number, "accepted what replica", signed.statement.signer, "never sent")


def check_one_list(replicas):
    """The ledger: the longest list of commits, of which the others are prefixes."""
    ledger = max((replica.commits for replica in replicas.values()), key=len)
    for replica in replicas.values():
        require(replica.commits == ledger[:len(replica.commits)], "replica", replica.number, "committed another list")
    decided = {}
    for replica in replicas.values():
        for height, value in replica.decided.items():
            require(decided.setdefault(height, value) == value, "two values are decided at height", height)
    for height, value in decided.items():
        proposals = {replica.proposed[height] for replica in replicas.values() if height in replica.proposed}
        require(len(proposals) > 1 or proposals == {value}, "all proposed one value at height", height, "and another is decided")
    return ledger


def follow(histories, replicas, faults, kind, frames=1):
    """The correct replicas after their histories, and the ledger. Raises Untrue if a conclusion doesn't hold."""
    found = {}
    for number, entries in histories.items():
        found[number] = Replica(number, replicas, faults, kind, frames)
        found[number].follow(entries)
    check_nothing_forged(found)
    return found, check_one_list(found)
