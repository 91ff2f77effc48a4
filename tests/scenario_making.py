"""Makes hostile scenarios from a seed: liars that contradict themselves, lost, late and repeated frames, replicas out of step, bytes of
nobody, tables that are full, leaves that run out, heights that retire. docs/SCENARIOS.md has the lines."""
import random
import struct
import subprocess

import signing
from conclusions import MAX_BATCH, MAX_TX, Replica, phase_of, place_of
from machines import machine
from records import read_histories, spell, spell_batch

FAR_LEAF = 16  # scenarios use a liar's leaves from 0 on; what is signed here uses the last ones


class Cluster:
    """How many replicas there are, which of them lie, what they run, and the version of their frames."""

    def __init__(self, random_numbers, frames):
        self.frames = frames
        self.replicas = random_numbers.choices(range(4, 14), weights=[40, 8, 4, 14, 3, 2, 5, 1, 1, 2])[0]
        most = (self.replicas - 1) // 3
        self.faults = most if random_numbers.random() < 0.8 else random_numbers.randint(1, most)
        self.kind = random_numbers.randint(1, 3)
        count = self.faults if random_numbers.random() < 0.85 else random_numbers.randint(0, self.faults)
        self.liars = sorted(random_numbers.sample(range(self.replicas), count))
        self.correct = [replica for replica in range(self.replicas) if replica not in self.liars]

    def owner(self, phase):
        return phase % self.replicas

    def lines(self):
        frames = ["frames 2"] * (self.frames == 2)
        return [f"config {self.replicas} {self.faults} {self.kind}", *frames, *(f"liar {liar}" for liar in self.liars)]


class Scenario:
    """The lines so far, and the clock of each correct replica after them."""

    def __init__(self, seed, abft):
        self.random, self.abft = random.Random(seed), abft
        self.cluster = Cluster(self.random, 2 if seed % 4 == 3 else 1)
        self.lines = self.cluster.lines()
        self.clocks = dict.fromkeys(self.cluster.correct, 0)
        self.heights, self.values, self.number, self.leaf = [], [()], 0, FAR_LEAF
        self.pools, self.fresh = {replica: [] for replica in self.cluster.correct}, machine(self.cluster.kind)

    def text(self):
        return "".join(line + "\n" for line in self.lines)

    def say(self, *words):
        self.lines.append(" ".join(map(str, words)))

    def chance(self, share):
        return self.random.random() < share

    def some(self, things, least=1):
        return self.random.sample(things, self.random.randint(min(least, len(things)), len(things)))

    # What clients ask for.

    def transaction(self):
        self.number += 1
        if self.cluster.kind == 1:
            return b"%c=%d" % (self.random.choice(b"abcdef"), self.number) if self.chance(0.9) else self.random.randbytes(8)
        if self.cluster.kind == 2:
            return (self.random.randint(0, 3) if self.chance(0.7) else self.number % 250).to_bytes(self.random.randint(1, 3), "big")
        return struct.pack(">BBII", self.random.randint(0, 3), self.random.randint(0, 3), self.random.randint(0, 1200), self.random.randint(0, 1))

    def hand_in(self, replica, transaction):
        """A transaction, and what the pool may hold then."""
        self.say("submit", replica, spell(transaction))
        if transaction not in self.pools[replica] and len(transaction) <= MAX_TX and self.fresh.check(transaction) == 0:
            self.pools[replica].append(transaction)

    def how_many(self):
        """Transactions of one batch: with frames of version 2 now and then more than version 1 has."""
        most = 70 if self.cluster.frames == 2 and self.chance(0.3) else 3
        return self.random.randint(1, most)

    def version(self):
        """The version of a liar's statement: frames of version 2 may carry both."""
        return self.random.randint(1, 2) if self.cluster.frames == 2 else 1

    def submit(self):
        """Clients hand in transactions: to all the same, to two camps, to each its own, or none."""
        camps = self.random.choice([1, 1, 1, 2, 2, len(self.cluster.correct), 0])
        batches = [tuple(self.transaction() for _ in range(self.how_many())) for _ in range(camps)]
        for place, replica in enumerate(self.cluster.correct if camps else []):
            for transaction in batches[place % camps]:
                self.hand_in(replica, transaction)
        if self.chance(0.1):
            self.hand_in(self.random.choice(self.cluster.correct), self.random.randbytes(self.random.choice([64, 65, 200])))

    def open_heights(self, count):
        for _ in range(count):
            height = max(self.heights, default=0) + 1
            self.heights.append(height)
            for replica in self.cluster.correct:
                if not self.chance(0.03):
                    self.say("propose", replica, height)
            # What liars speak of: what may be proposed, and nothing.
            self.values = list(dict.fromkeys([tuple(pool[:MAX_BATCH[self.cluster.frames]]) for pool in self.pools.values()] + self.values[:3] + [()]))

    def ask(self):
        for replica in self.cluster.correct:
            if self.chance(0.5):
                self.say("query", replica, spell(self.random.choice([b"a", b"b", b"count", b"\0", b"\1", b"nothing"])))
            if self.chance(0.2):
                self.say("info", replica)

    # Rounds.

    def clock(self):
        return max(self.clocks.values())

    def height(self):
        return self.random.choice(self.heights[-4:]) if self.heights and not self.chance(0.03) else self.random.randint(1, 9)

    def end_all(self, word):
        self.say(word)
        for replica in self.clocks:
            self.clocks[replica] += 1

    def end(self, replica):
        self.say("end", replica)
        self.clocks[replica] += 1

    def phase(self, word="round", lying=0.3):
        """The rest of a phase, in step."""
        while True:
            self.end_all(word)
            self.lie_all(lying)
            if place_of(self.clock()) == 4:
                return

    def good_phases(self, count):
        for _ in range(count):
            self.phase(lying=0.15)

    def out_of_step(self):
        """Some replicas are rounds ahead of the others, and then wait for them."""
        ahead = self.some(self.cluster.correct)
        for _ in range(self.random.randint(1, 3)):
            for replica in ahead:
                self.end(replica)
        for _ in range(self.random.randint(2, 6)):
            self.end_all("round")
            self.lie_all(0.3)
        self.step_together()

    def step_together(self):
        last = self.clock()
        last += (4 - last) % 4  # the end of a phase
        for replica in self.cluster.correct:
            while self.clocks[replica] < last:
                self.end(replica)

    def look(self):
        """The correct replicas after the lines so far: a run of them, followed by their histories."""
        done = subprocess.run([self.abft, "simulate", "--histories"], input=self.text().encode(), stdout=subprocess.PIPE, check=True)
        found = {}
        for number, entries in read_histories(done.stdout).items():
            found[number] = Replica(number, self.cluster.replicas, self.cluster.faults, self.cluster.kind, self.cluster.frames)
            found[number].follow(entries)
        return found

    def lossy_phase(self):
        """A phase in which frames are lost, come late, or more than once."""
        seen = self.look()
        share = self.random.choice([0.5, 0.7, 0.9])
        sent = {number: len(replica.sent) for number, replica in seen.items()}
        heights = {number: len(replica.heights) for number, replica in seen.items()}
        first = dict(sent)
        for place in range(1, 5):
            self.end_all("silent")
            frames = []
            for number, replica in seen.items():
                if place == 1:
                    count = 0 if replica.is_mute else heights[number]
                    frames += [(number, sent[number] + i) for i in range(count)]
                    sent[number] += count
                else:
                    frames += [(number, sent[number] + i) for i in range(heights[number] * (1 if place < 4 else 3))]
            passes = [(number, index, to) for number, index in frames for to in self.cluster.correct if to != number and self.chance(share)]
            passes += self.some(passes, 0)[:5]  # some come again
            passes += [(number, self.random.randrange(sent[number]), to) for number in seen if sent[number]
                       for to in self.some(self.cluster.correct)[:1]]  # an old one
            self.random.shuffle(passes)
            for number, index, to in passes:
                self.say("pass", number, index, to)
            self.lie_all(0.5)
        self.inject_changed(seen, first)

    def inject_changed(self, seen, first):
        """Frames that were sent, each with one bit changed."""
        for number in self.some(list(seen), 0)[:3]:
            sent = seen[number].sent_frames
            if sent:
                changed = bytearray(self.random.choice(sent))
                changed[self.random.randrange(len(changed))] ^= 1 << self.random.randrange(8)
                self.say("inject", self.random.choice(self.cluster.correct), changed.hex())

    # Lies.

    def towards(self):
        return "all" if self.chance(0.4) else self.random.choice(self.cluster.correct if self.chance(0.97) else range(15))

    def value(self):
        return self.random.choice(self.values[:2] if self.chance(0.6) else self.values) if self.chance(0.9) else (self.transaction(),)

    def lie_all(self, share):
        for liar in self.cluster.liars:
            owns = place_of(self.clock()) == 2 and self.cluster.owner(phase_of(self.clock())) == liar
            if self.chance(0.8 if owns else share):
                self.lie(liar)
        if self.chance(share / 2):
            self.inject_garbage()

    def lie(self, liar):
        clock = self.clock()
        phase, place = phase_of(clock) if self.chance(0.95) else self.random.randint(1, 12), place_of(clock)
        if self.chance(0.05):
            place = self.random.randint(1, 4)
        for _ in range(self.random.randint(1, 3)):
            (self.lie_report, self.lie_lock, self.lie_ack, self.lie_late)[place - 1](liar, max(phase, 1))

    def lie_report(self, liar, phase):
        if self.chance(0.2):
            proper, locked, says_all = self.distinct(1), self.distinct(0), self.chance(0.5)
            self.inject_signed(liar, signing.report(self.height(), phase, liar, self.value(), proper, locked, says_all, self.version()))
        else:
            self.say("lie-report", liar, self.height(), phase, spell_batch(self.value()), self.towards())

    def distinct(self, least):
        return list({self.value() for _ in range(self.random.randint(least, 4))})

    def lie_lock(self, liar, phase):
        if self.cluster.owner(phase) != liar and self.chance(0.7):
            return
        choice = self.random.random()
        if choice < 0.35:
            self.say("lie-lock", liar, self.height(), phase, spell_batch(self.value()), self.towards())
        elif choice < 0.6:
            height = self.height()
            for replica in self.cluster.correct:  # two locks, to one replica and another in turn
                self.say("lie-lock", liar, height, phase, spell_batch(self.values[replica % 2 % len(self.values)]), replica)
        elif choice < 0.85:
            self.say("lie-stale", liar, self.height(), phase, self.random.randint(1, phase + 1), spell_batch(self.value()), self.towards())
        else:
            self.inject_signed(liar, self.foreign_lock(liar, phase))

    def foreign_lock(self, liar, phase):
        """A lock whose proof has reports of another height, of strangers, or of the liar alone."""
        height, value = self.height(), self.value()
        signers = sorted(self.some(range(self.cluster.replicas + 3), 3)[:self.random.randint(3, 12)])
        if len(signers) < 3:
            signers = [0, 1, 2]
        reports = [signing.report(height + self.random.randint(0, 1), phase, signer, value, version=self.version()) for signer in signers]
        proof = [signing.signed(report, signing.key_of(liar), 31) for report in reports]
        return signing.lock(height, phase, liar, value, proof, self.version())

    def lie_ack(self, liar, phase):
        owner = self.cluster.owner(phase)
        to = owner if owner in self.cluster.correct and self.chance(0.8) else self.towards()
        self.say("lie-ack", liar, self.height(), phase, spell_batch(self.value()), to)

    def lie_late(self, liar, phase):
        """A lock of the liar's own that comes where locks are given back, of this phase or an earlier one."""
        own = [earlier for earlier in range(1, phase + 1) if self.cluster.owner(earlier) == liar]
        if own:
            self.say("lie-lock", liar, self.height(), self.random.choice(own), spell_batch(self.value()), self.towards())

    def inject_signed(self, liar, statement):
        """A statement that the liar signs by itself, with a leaf that it may have used."""
        self.leaf = FAR_LEAF + (self.leaf + 1) % (signing.LEAVES - FAR_LEAF)
        self.say("inject", self.random.choice(self.cluster.correct), signing.frame(signing.signed(statement, signing.key_of(liar), self.leaf)))

    def inject_garbage(self):
        """Bytes that nobody signed."""
        to, phase = self.random.choice(self.cluster.correct), max(phase_of(self.clock()), 1)
        signer = self.random.choice([*range(self.cluster.replicas), 13, 200, 255])
        statement = self.random.choice([signing.report, signing.ack])(self.height(), phase, signer, self.value())
        signature = self.random.choice([b"", bytes(2348), self.random.randbytes(2348)])
        whole = signing.frame(statement + signing.u16(len(signature)) + signature)
        some = self.random.choice([whole, whole, whole[:2 * self.random.randint(0, 40)], whole + "00", self.random.randbytes(9).hex()])
        self.say("inject", to, *filter(None, [some]))

    # Whole runs.

    def run_blocks(self, count):
        for replica in self.cluster.correct:
            for _ in range(count):
                self.say("execute", replica)
            self.pools[replica] = []
        self.ask()

    def retire(self):
        floor = self.random.randint(1, max(self.heights, default=0) + 2)
        for replica in self.cluster.correct:
            if self.chance(0.8):
                self.say("retire", replica, floor)

    def storm(self):
        """One or two heights, whatever may happen, and then a time without losses."""
        self.submit()
        self.open_heights(self.random.randint(1, 2))
        for _ in range(self.random.randint(1, 3)):
            self.random.choice([self.lossy_phase, self.lossy_phase, self.out_of_step, self.phase])()
        self.good_phases(self.random.randint(3, 7))
        self.run_blocks(2)
        self.submit()
        self.open_heights(1)
        self.phase()
        self.retire()
        self.good_phases(2)
        self.run_blocks(2)

    def four_heights(self):
        """Four open heights, run, given up, and opened again further on."""
        for _ in range(4):
            self.submit()
            self.open_heights(1)
        self.good_phases(min(self.cluster.replicas, 5))
        self.run_blocks(4)
        self.retire()
        self.submit()
        self.open_heights(self.random.randint(1, 4))
        self.random.choice([self.out_of_step, self.lossy_phase, self.phase])()
        self.good_phases(2)
        self.run_blocks(4)
        self.retire()

    def no_leaf_left(self):
        """Rounds go on until nobody can sign any more."""
        self.submit()
        self.open_heights(self.random.randint(2, 4))
        self.good_phases(self.random.randint(0, 3))
        self.run_blocks(1)
        for _ in range(17):
            self.phase(word=self.random.choice(["round", "silent"]), lying=0.1)
        self.run_blocks(4)

    def full_table(self):
        """Liars show one replica alone a lock on another value in each phase that they own, until its table is full. Then the others agree."""
        if not self.cluster.liars:
            return self.storm()
        for replica in self.cluster.correct:
            self.hand_in(replica, struct.pack(">BBII", replica, 99, 1, 0))
        self.open_heights(1)
        victim, shown = self.random.choice(self.cluster.correct), 0
        self.end_all("round")
        for liar in self.cluster.liars:
            self.say("lie-report", liar, 1, 1, spell_batch((b"%d" % liar,)), "all")
        while shown < 6 and self.clock() < 112:
            self.end_all("silent")
            phase, place = phase_of(self.clock()), place_of(self.clock())
            liar, value = self.cluster.owner(phase), (b"shown %d" % shown,)
            if liar in self.cluster.liars and place == 1:
                for other in self.cluster.liars:
                    self.say("lie-report", other, 1, phase, spell_batch(value), victim)
            elif liar in self.cluster.liars and place == 2:
                self.say("lie-lock", liar, 1, phase, spell_batch(value), victim)
                shown += 1
        self.step_together()
        self.good_phases(3)
        self.run_blocks(1)


STYLES = [Scenario.storm, Scenario.four_heights, Scenario.no_leaf_left, Scenario.full_table]


def make(seed, abft):
    """A scenario, the same for the same seed and the same program."""
    scenario = Scenario(seed, abft)
    scenario.random.choices(STYLES, weights=[48, 24, 12, 16])[0](scenario)
    return scenario
