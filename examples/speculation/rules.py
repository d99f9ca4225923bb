#!/usr/bin/env python3
"""rules.py BINARY   why an image has to meet each of the seven rules of fitting

Makes a program, an image that fits it, and for each rule an image that breaks this rule alone; `mssp certify` tells the same of it.
The run meets what each of them lists (`mssp check`), and beside the one that fits nothing is squashed or given up; beside each of
the others something is. It prints a line for each image: the rule, how often tasks were squashed and given up, and the first squash.
The status is 1 where one is not so.

The rules are those of docs/FORMATS.md, "When an image fits": `Fits` in crates/fitting/specs/Fits.antt.
"""

import struct
import subprocess
import sys
import tempfile
from collections.abc import Callable
from dataclasses import dataclass, field, replace
from pathlib import Path

BASE, EXEC, GO, FORK = 0x0001_0000, 0, 1, 2
TARGETS, CODE, WITHIN, SPAN = 1, 3, 4, 5
RULES = ("listed", "forks", "placed", "passed", "aimed", "live", "need")


@dataclass(frozen=True)
class Instruction:
    """A word, the registers that it reads and writes, and where it leads. One that is `bound` may never be passed over."""

    word: int
    reads: frozenset[int] = frozenset()
    writes: frozenset[int] = frozenset()
    leads: tuple[int, ...] = ()
    bound: bool = False
    by_register: bool = False


def pc(place: int) -> int:
    return BASE + 4 * place


def regs(*numbers: int) -> frozenset[int]:
    return frozenset(numbers) - {0}


def line(place: int, word: int, reads: frozenset[int], writes: frozenset[int]) -> Instruction:
    return Instruction(word, reads, writes, (pc(place + 1),))


HEAD, BEHIND, ADDING = pc(1), pc(2), pc(10)

# x7 adds up 0 to 9 in a function that returns by x1; behind each call x9 rises by 5.
PROGRAM = {
    pc(place): instruction
    for place, instruction in enumerate(
        [
            line(0, 0x00000313, regs(), regs(6)),  # 00010000        addi x6, x0, 0
            Instruction(0x024000EF, regs(), regs(1), (ADDING,), bound=True),  # 00010004  head: jal  x1, adding
            line(2, 0x0000000F, regs(), regs()),  # 00010008        fence
            line(3, 0x00548493, regs(9), regs(9)),  # 0001000c        addi x9, x9, 5
            line(4, 0x00130313, regs(6), regs(6)),  # 00010010        addi x6, x6, 1
            line(5, 0x00A32293, regs(6), regs(5)),  # 00010014        slti x5, x6, 10
            Instruction(0xFE0296E3, regs(5), regs(), (pc(7), HEAD), bound=True),  # 00010018        bne  x5, x0, head
            line(7, 0x00938533, regs(7, 9), regs(10)),  # 0001001c        add  x10, x7, x9
            line(8, 0x05D00893, regs(), regs(17)),  # 00010020        addi x17, x0, 93
            Instruction(0x00000073, bound=True),  # 00010024        ecall
            line(10, 0x006383B3, regs(6, 7), regs(7)),  # 00010028  adding: add x7, x7, x6
            Instruction(0x00008067, regs(1), regs(), (BEHIND,), bound=True, by_register=True),  # 0001002c        jalr x0, 0(x1)
        ]
    )
}


@dataclass(frozen=True)
class Image:
    """What is passed over, where tasks begin, what is listed, and the masks. `forks` and `goes` change what stands in slots."""

    passed: frozenset[int] = frozenset({pc(2), pc(7), pc(8)})
    anchors: tuple[int, ...] = (HEAD, ADDING)
    count: int = 1
    limit: int = 16
    targets: bool = True
    listed: tuple[int, ...] = (CODE, WITHIN, SPAN)
    live: dict[int, frozenset[int]] = field(default_factory=dict)
    need: dict[int, frozenset[int]] = field(default_factory=dict)
    forks: tuple[int, ...] = (0, 1)
    goes: dict[int, int] = field(default_factory=dict)

    def leads(self, at: int) -> tuple[int, ...]:
        return () if PROGRAM[at].by_register and not self.targets else PROGRAM[at].leads

    def places(self) -> tuple[dict[int, int], list[tuple[int, int, int]]]:
        """The slot of each note, and the slots. What is passed over has a Go where `goes` names a target, else no slot."""
        slots, places = [], {}
        for at, instruction in PROGRAM.items():
            places[at] = len(slots)
            if at in self.anchors:
                slots.append((FORK, self.forks[self.anchors.index(at)], 0))
            if at not in self.passed:
                slots.append((EXEC, at, instruction.word))
            elif at in self.goes:
                slots.append((GO, self.goes[at], 0))
        return places, slots

    def file(self) -> bytes:
        def mask(registers: frozenset[int]) -> int:
            return sum(1 << register for register in registers)

        places, slots = self.places()
        entries = [*slots, *((at, places[at], self.count) for at in self.anchors)]
        entries += [(at, places[at], mask(self.live[at]), mask(self.need[at])) for at in PROGRAM]
        jumps = [at for at, instruction in PROGRAM.items() if instruction.by_register and self.targets]
        entries += [(TARGETS, at, 0, len(PROGRAM[at].leads), *PROGRAM[at].leads) for at in jumps]
        entries += [(kind, 0, 0, 0) for kind in self.listed]
        words = [0x5053534D, 1, self.limit, len(slots), len(self.anchors), len(PROGRAM), len(jumps) + len(self.listed)]
        words += [word for entry in entries for word in entry]
        return struct.pack(f"<{len(words)}I", *words)


def solved(image: Image, live_left_out: frozenset[int] = frozenset(), unasked: frozenset[int] = frozenset()) -> Image:
    """The image with the least masks that fit, but that the first registers are left out of what is live in the function, and that
    anchors don't need the others only because they are live."""
    live = {at: frozenset() for at in PROGRAM}
    need = dict(live)
    before = None
    while before != (live, need):
        before = live, need
        live = {at: alive(image, live, at) for at in PROGRAM}
        live[ADDING] -= live_left_out
        need = {at: needed(image, need, at) for at in PROGRAM}
        need |= {at: need[at] | live[at] - unasked for at in image.anchors}
    return replace(image, live=live, need=need)


def behind(image: Image, masks: dict[int, frozenset[int]], at: int) -> frozenset[int]:
    return frozenset().union(*(masks[q] for q in image.leads(at)))


def alive(image: Image, live: dict[int, frozenset[int]], at: int) -> frozenset[int]:
    return PROGRAM[at].reads | behind(image, live, at) - PROGRAM[at].writes


def needed(image: Image, need: dict[int, frozenset[int]], at: int) -> frozenset[int]:
    after = behind(image, need, at)
    return after if at in image.passed else PROGRAM[at].reads | after - PROGRAM[at].writes


def broken(image: Image) -> set[tuple[int, str]]:
    """The rules that an image breaks, each by its field of `Fits`, with the pc where it does."""
    places, slots = image.places()
    found = set()
    if set(image.listed) != {CODE, WITHIN, SPAN}:
        found.add((0, "listed"))
    found |= {(at, "forks") for number, at in enumerate(image.anchors) if slots[places[at]] != (FORK, number, 0)}
    for at, instruction in PROGRAM.items():
        after = at + 4
        if at in image.passed:
            body = places[at] + (at in image.anchors)
            if slots[body] != (GO, after, 0) and places[after] != body:
                found.add((at, "placed"))
            if instruction.bound or instruction.writes & image.need[after]:
                found.add((at, "passed"))
        if instruction.by_register and not image.targets:
            found.add((at, "aimed"))
        if not alive(image, image.live, at) <= image.live[at]:
            found.add((at, "live"))
        asked = image.live[at] if at in image.anchors else frozenset()
        if not needed(image, image.need, at) | asked <= image.need[at]:
            found.add((at, "need"))
    return found


def certified(found: set[tuple[int, str]]) -> str:
    """What `mssp certify` has to say of an image that breaks these rules: the least pc, and the least rule there."""
    if not found:
        return "fits"
    at, number = min((at, RULES.index(rule) + 1) for at, rule in found)
    return f"unfit {at:08x} rule {number}"


def without_rising() -> Image:
    """An image of one anchor, in the function, that leaves out what raises x9."""
    return Image(passed=Image().passed | {pc(3)}, anchors=(ADDING,), forks=(0,))


# By the rule that is broken. What raises x9 may be left out only where x9 isn't needed behind it.
IMAGES: dict[str, Callable[[], Image]] = {
    "none": lambda: solved(Image()),
    "listed": lambda: replace(solved(Image(count=5)), listed=(CODE, WITHIN)),
    "forks": lambda: replace(solved(Image()), forks=(1, 0)),
    "placed": lambda: replace(solved(Image()), goes={pc(2): pc(4)}),
    "passed": lambda: replace(solved(Image()), passed=Image().passed | {pc(3)}),
    "aimed": lambda: solved(replace(without_rising(), targets=False)),
    "live": lambda: solved(without_rising(), live_left_out=regs(9)),
    "need": lambda: solved(without_rising(), unasked=regs(9)),
}


def executable() -> bytes:
    words = [instruction.word for instruction in PROGRAM.values()]
    size = 4 * len(words)
    head = struct.pack("<16sHHIIIIIHHHHHH", b"\x7fELF\x01\x01\x01", 2, 243, 1, BASE, 52, 0, 0, 52, 32, 1, 0, 0, 0)
    return head + struct.pack("<8I", 1, 84, BASE, BASE, size, size, 5, 4) + struct.pack(f"<{len(words)}I", *words)


# rounds of events, as `run --image` gives them
ROUNDS = "".join("1 restart\n1 serial\n4 master\n1 slave 0\n1 slave 1\n1 slave 2\n1 slave 3\n1 commit\n" for _ in range(400))


def tried(binary: str, room: Path, rule: str) -> bool:
    """Runs the program beside the image that breaks this rule, and says what came."""
    image = IMAGES[rule]()
    (room / "image").write_bytes(image.file())
    (room / "events").write_text(ROUNDS)

    def told(*words: str) -> list[str]:
        done = subprocess.run([binary, *words], cwd=room, stdin=subprocess.DEVNULL, capture_output=True, text=True, check=False)
        return (done.stdout + done.stderr).splitlines()

    fit, verdict = told("certify", "program", "image")[0], told("check", "program", "image")[0]
    lines = told("replay", "program", "image", "events")
    found = broken(image)
    counts = dict(line.split(" ", 1) for line in lines[-8:])
    squash = next((line for line in lines if line.startswith("squashed ") and "predicted" in line), "")
    lost = counts["squashed"] != "0" or counts["dropped"] != "0"
    alone = {name for _, name in found} == {rule} - {"none"} and fit == certified(found)
    right = alone and verdict == "met 84" and counts["end"] == "exit 95" and lost == (rule != "none")
    print(f"{'' if right else 'FAILED '}{rule}: squashed {counts['squashed']}, given up {counts['dropped']}  {squash}".rstrip())
    if not right:
        print(f"    breaks {sorted(found)}; {fit}; {verdict}; {lines[-8:]}")
    return right


def main() -> int:
    if len(sys.argv) != 2:
        print("rules.py BINARY", file=sys.stderr)
        return 2
    binary = str(Path(sys.argv[1]).resolve())
    with tempfile.TemporaryDirectory() as room:
        (Path(room) / "program").write_bytes(executable())
        results = [tried(binary, Path(room), rule) for rule in IMAGES]
    return 0 if all(results) else 1


if __name__ == "__main__":
    sys.exit(main())
