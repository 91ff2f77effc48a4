#!/usr/bin/env python3
"""Makes the example texts that inject frames which no `lie-` line makes. Run in this folder; `signing.py` signs them."""
import sys

sys.dont_write_bytecode = True
from signing import Key, ack, frame, lock, report, signed  # noqa: E402


def write(name, text):
    with open(name + ".txt", "w", encoding="ascii") as file:
        file.write(text)


keys = [Key(replica) for replica in range(4)]
a = [b"a=1"]
begin = "".join(f"submit {r} a=1\n" for r in range(4)) + "".join(f"propose {r} 1\n" for r in range(4))
begin_3 = "".join(f"submit {r} a=1\n" for r in (0, 2, 3)) + "".join(f"propose {r} 1\n" for r in (0, 2, 3))

# a lock of the sixth phase, signed as its owner would
later = lock(1, 6, 2, a, [signed(report(1, 6, r, a), keys[r], 30) for r in (0, 1, 3)])
write("lock-of-a-later-phase", f"""\
# A lock of the sixth phase comes in the third, where held locks are shown: it is not read, and the held lock stays.
config 4 1 1
{begin}{'round' + chr(10)}{('round' + chr(10)) * 11}end 0
inject 3 {frame(signed(later, keys[2], 31))}
end 3
end 3
end 3
end 3
""")

# a lock of which one report is of another height
proof = [signed(report(1, 1, 0, a), keys[0], 0), signed(report(1, 1, 2, a), keys[2], 0), signed(report(2, 1, 3, a), keys[3], 9)]
write("proof-of-another-height", f"""\
# A liar leads the first phase. One of the three reports in its lock's proof is of another height.
config 4 1 1
liar 1
{begin_3}round
round
inject 0 {frame(signed(lock(1, 1, 1, a, proof), keys[1], 0))}
""")

# a lock of which the reports are of numbers that no replica has
strangers = [signed(report(1, 1, r, a), keys[1], 1 + r) for r in (4, 5, 6)]
write("strangers-in-a-proof", f"""\
# A liar leads the first phase. The reports in its lock's proof are of replicas 4, 5 and 6, which the cluster doesn't have.
config 4 1 1
liar 1
{begin_3}round
round
inject 0 {frame(signed(lock(1, 1, 1, a, strangers), keys[1], 0))}
""")

# acknowledgements for others
forged = [frame(signed(ack(1, 1, r, a), keys[3], r)) for r in (0, 2)]
write("forged-acknowledgements", f"""\
# A liar signs acknowledgements in the names of two others. Neither verifies, and the owner decides nothing by them.
config 4 1 1
liar 3
{"".join(f"submit {r} a=1" + chr(10) for r in (0, 1, 2))}{"".join(f"propose {r} 1" + chr(10) for r in (0, 1, 2))}round
round
silent
inject 1 {forged[0]}
inject 1 {forged[1]}
end 1
""")

# frames of version 2: a report in both versions, and locks whose proofs have reports of both
first = signed(report(1, 1, 1, a), keys[1], 0)
others = [signed(report(1, 1, r, a, version=2), keys[r], 0) for r in (2, 3)]
long_report = frame(signed(report(1, 1, 1, [b"a"] * 17), keys[1], 1))
locks = [frame(signed(lock(1, 1, 1, a, [first, *others], version), keys[1], leaf)) for version, leaf in ((1, 2), (2, 3))]
write("both-versions", f"""\
# Frames have version 2. A liar signs its report in both versions, in either order, and each replica counts it once. Its report of version 1
# with 17 transactions is malformed. So is its lock of version 1 with reports of version 2; one of version 2 may have both.
config 4 1 1
frames 2
liar 1
{begin_3}round
inject 0 {frame(first)}
lie-report 1 1 1 [a=1] 0
inject 2 {long_report}
lie-report 1 1 1 [a=1] 2
inject 2 {frame(first)}
silent
inject 0 {locks[0]}
inject 0 {locks[1]}
inject 0 {locks[1]}
round
""")
