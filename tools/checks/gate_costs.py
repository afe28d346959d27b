#!/usr/bin/env python3
"""Runs `rt ci` and says what it cost: processor seconds of each crate's proof, tests, edits and builds, as a table.

    tools/checks/gate_costs.py [WORDS OF rt ci ..]

Each process that descends from the run is looked at twice a second, so what one did in its last half second is missing.
The run's own output goes to standard error. For the cost from nothing give `--anew`,
which kit 13b has not: there each run is one from nothing.
"""
import collections
import os
import re
import subprocess
import sys
import time

TICKS = os.sysconf("SC_CLK_TCK")
PHASES = ("proof", "tests", "edits", "builds")


def processes():
    """Of each process: its parent, when it began, its processor seconds."""
    found = {}
    for entry in os.listdir("/proc"):
        if not entry.isdigit():
            continue
        try:
            with open(f"/proc/{entry}/stat", encoding="utf-8", errors="replace") as file:
                fields = file.read().rsplit(")", 1)[1].split()
        except OSError:
            continue
        found[int(entry)] = (int(fields[1]), fields[19], (int(fields[11]) + int(fields[12])) / TICKS)
    return found


def descends(pid, root, found):
    for _ in range(50):
        if pid == root:
            return True
        if pid not in found:
            return False
        pid = found[pid][0]
    return False


def words_of(pid):
    try:
        with open(f"/proc/{pid}/cmdline", "rb") as file:
            return file.read().decode(errors="replace").split("\0")
    except OSError:
        return []


def phase_of(words):
    """What a prover's or compiler's process was for."""
    line = " ".join(words)
    if "--test" in words:
        return "tests"
    if " build " in line and "--crate-checked" in words:
        return "builds"
    if "/seed" in line or "rt-edit" in line:
        return "edits"
    return "proof"


def sample(root, seen, counted):
    found = processes()
    for pid, (_, start, seconds) in found.items():
        if not descends(pid, root, found):
            continue
        key = (pid, start)
        if key not in seen or not seen[key][0]:
            words = words_of(pid)
            crate = re.search(r"--crate-name (\w+)", " ".join(words))
            seen[key] = (crate and crate[1], phase_of(words))
        counted[key] = seconds


def table(seen, counted):
    costs = collections.defaultdict(lambda: dict.fromkeys(PHASES, 0.0))
    rest = 0.0
    for key, seconds in counted.items():
        crate, phase = seen[key]
        if crate:
            costs[crate][phase] += seconds
        else:
            rest += seconds
    rows = sorted(costs.items(), key=lambda row: -sum(row[1].values()))
    print("| Crate | " + " | ".join(phase.capitalize() for phase in PHASES) + " | All |")
    print("|---|" + "---|" * (len(PHASES) + 1))
    for crate, of in rows:
        cells = [f"{of[phase]:.0f}" if of[phase] >= 0.5 else "" for phase in PHASES]
        print(f"| {crate} | " + " | ".join(cells) + f" | {sum(of.values()):.0f} |")
    sums = [sum(of[phase] for _, of in rows) for phase in PHASES]
    print("| all | " + " | ".join(f"{one:.0f}" for one in sums) + f" | {sum(sums):.0f} |")
    print(f"\nand {rest:.0f} seconds of other processes")


def main():
    seen, counted = {}, {}
    run = subprocess.Popen(["rt", "ci", *sys.argv[1:]], stdout=sys.stderr)
    while run.poll() is None:
        sample(run.pid, seen, counted)
        time.sleep(0.5)
    table(seen, counted)
    return run.returncode


if __name__ == "__main__":
    sys.exit(main())
