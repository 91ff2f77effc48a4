"""What the commands of the program read in runs whose calls are refused: a scenario, its histories, and frames."""

# A liar, locks, a decision, a block, lies of each kind, a floor.
SCENARIO = "\n".join(["config 4 1 1", "liar 3", *(f"submit {r} a={r // 2}" for r in range(3)), *(f"propose {r} 1" for r in range(3)), "round",
                      "lie-report 3 1 1 [a=0] all", "round", "round", "lie-ack 3 1 1 [a=0] 1", "round", "execute 1", "silent", "pass 0 1 1", "silent",
                      "inject 0 00", *["silent"] * 4, "lie-lock 3 1 3 [a=0] all", "lie-stale 3 1 3 2 [a=0] 0", *["round"] * 12,
                      *(f"execute {r}" for r in range(3)), "query 0 a", "info 0", "retire 1 2", "propose 1 2", "round", ""]).encode()


def histories(refusing, abft):
    return refusing.run([abft, "simulate", "--histories"], SCENARIO)[0].stdout


def frames(refusing, abft):
    """Three reports, of which one comes twice, and an acknowledgement."""
    return b"".join(refusing.run([abft, "sign", kind, "--replica", replica], b"")[0].stdout
                    for kind, replica in [("report", "0"), ("report", "2"), ("report", "0"), ("ack", "2")])
