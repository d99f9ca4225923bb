#!/usr/bin/env python3
"""Where the gate's processor time goes, crate by crate.

    bench/gate.py [--anew] [CRATE..]      runs `rt ci` (of these crates and those below them, where some are named) and prints a
                                          table: seconds of processor time for the proof, the tests and the edits of each crate
    bench/gate.py --over                  lists the crates that are past the budget, by the table in docs/MAP.md

The times are read from the process table twice a second while the gate runs. A process's last part of a second is lost that
way; the line `not told apart` has what the system says that all of them took beyond the sum. What an earlier run on this machine
has passed costs nothing in a later one, so the table of a whole gate wants `--anew`.
"""

import argparse
import os
import re
import resource
import subprocess
import sys
import time
from collections import defaultdict
from dataclasses import dataclass
from pathlib import Path

TOP = Path(__file__).resolve().parent.parent
TICKS = os.sysconf("SC_CLK_TCK")
KINDS = ("proof", "tests", "edits")

# Seconds of processor time that a crate may cost. docs/MAP.md gives the reasons.
BUDGET = {"proof": 150, "tests": 350, "edits": 300}
ROW = re.compile(r"^\| `(\w+)` \| (\d+) \| (\d+) \| (\d+) \| \d+ \|$", re.MULTILINE)


@dataclass(frozen=True)
class Process:
    """A line of the process table."""

    pid: int
    parent: int
    born: str
    words: tuple[str, ...]
    folder: str
    seconds: float

    @staticmethod
    def read(pid: int) -> "Process":
        about = Path("/proc") / str(pid)
        words = (about / "cmdline").read_bytes().decode(errors="replace").split("\0")
        # The name stands in brackets and may hold anything; the fields are counted from behind it.
        fields = (about / "stat").read_text(errors="replace").rsplit(")", 1)[1].split()
        used = (int(fields[11]) + int(fields[12])) / TICKS
        return Process(pid, int(fields[1]), fields[19], tuple(words), os.readlink(about / "cwd"), used)

    def is_checker(self) -> bool:
        return "rattle" in os.path.basename(self.words[0])

    def crate(self) -> str:
        named = re.search(r"--crate-name (\S+)", " ".join(self.words)) or re.search(r"crates/(\w+)", self.folder)
        return named[1] if named else "?"

    def kind(self) -> str:
        if "rt-edit" in self.folder:
            return "edits"
        if "--test" in self.words or self.words[0].endswith("rattle-test"):
            return "tests"
        return "proof"


def processes() -> dict[int, Process]:
    found = {}
    for name in filter(str.isdigit, os.listdir("/proc")):
        try:
            found[int(name)] = Process.read(int(name))
        except (OSError, IndexError):  # it has ended meanwhile
            continue
    return found


def is_below(table: dict[int, Process], process: Process, top: int) -> bool:
    pid = process.pid
    while pid in table and pid != top:
        pid = table[pid].parent
    return pid == top


def measure(command: list[str]) -> tuple[int, float, float, dict[str, dict[str, float]]]:
    """Runs the command: its status, its seconds by the clock and of all processors, and those of each crate by kind."""
    began = time.time()
    running = subprocess.Popen(command, cwd=TOP)
    seen: dict[tuple[int, str], Process] = {}
    while running.poll() is None:
        table = processes()
        for process in table.values():
            if process.is_checker() and is_below(table, process, running.pid):
                seen[process.pid, process.born] = process
        time.sleep(0.5)
    sums: dict[str, dict[str, float]] = defaultdict(lambda: dict.fromkeys(KINDS, 0.0))
    for process in seen.values():
        sums[process.crate()][process.kind()] += process.seconds
    used = resource.getrusage(resource.RUSAGE_CHILDREN)
    return running.returncode, time.time() - began, used.ru_utime + used.ru_stime, sums


def edits_of(crate: str) -> int:
    return len(list((TOP / "crates" / crate / "must-fail").glob("*.edit")))


def in_order() -> list[str]:
    lines = (line.split("#")[0] for line in (TOP / "crates.txt").read_text(encoding="utf-8").splitlines())
    return [line.split(":")[0].split()[0] for line in lines if line.strip()]


def row(name: str, seconds: dict[str, float], edits: int) -> str:
    return " | ".join(["|", name, *(f"{seconds[kind]:.0f}" for kind in KINDS), f"{edits} |"]).replace("| |", "|", 1)


def print_table(clock: float, used: float, sums: dict[str, dict[str, float]]) -> None:
    names = [name for name in in_order() if name in sums] + sorted(sums.keys() - set(in_order()))
    whole = {kind: sum(of[kind] for of in sums.values()) for kind in KINDS}
    print("| Crate | Proof | Tests | Edits | Number of edits |\n|---|---|---|---|---|")
    for name in names:
        print(row(f"`{name}`", sums[name], edits_of(name)))
    print(row("all", whole, sum(map(edits_of, names))))
    print(f"\n{used:.0f} seconds of processor time, {clock:.0f} by the clock; not told apart: {used - sum(whole.values()):.0f}")


def over() -> int:
    """Lists what is past the budget in the table of docs/MAP.md."""
    page = (TOP / "docs" / "MAP.md").read_text(encoding="utf-8")
    rows = ROW.findall(page.partition("| Crate | Proof |")[2].partition("\n\n")[0])
    past = 0
    for name, *seconds in rows:
        for kind, used in zip(KINDS, map(int, seconds)):
            if used > BUDGET[kind]:
                print(f"{name}: {kind}: {used} of {BUDGET[kind]} seconds")
                past += 1
    if not rows:
        print("docs/MAP.md has no such table", file=sys.stderr)
    return 1 if past or not rows else 0


def main() -> int:
    words = argparse.ArgumentParser(description="Where the gate's processor time goes, crate by crate.")
    words.add_argument("--anew", action="store_true", help="prove all, whatever earlier runs have passed")
    words.add_argument("--over", action="store_true", help="run nothing; list the crates past the budget, by docs/MAP.md")
    words.add_argument("crates", nargs="*", metavar="CRATE")
    asked = words.parse_args()
    if asked.over:
        return over()
    status, clock, used, sums = measure(["rt", "ci", *asked.crates, *(["--anew"] if asked.anew else [])])
    print_table(clock, used, sums)
    return status


if __name__ == "__main__":
    sys.exit(main())
