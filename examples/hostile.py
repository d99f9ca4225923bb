#!/usr/bin/env python3
"""hostile.py BINARY [--images N] [--seed S]: runs the examples beside images and lists of events that mean them no good.

An image is trusted with nothing, and neither is a schedule. So whatever stands in them, output, status and position are those of
the program run alone. This script draws images that are valid and wrong in every way it knows, N for each example, and schedules,
from a seed that gives the same ones again; it runs them with memory in plenty and under a limit of address space, where the answer
is right or 114; and it gives each command files at the limit of their length and one byte past it.

It prints a line for each example and kind, and ends with the status 1 where an answer was another one.
"""

import argparse
import random
import resource
import struct
import subprocess
import sys
import tempfile
from dataclasses import dataclass, field
from pathlib import Path

HERE = Path(__file__).resolve().parent
MIB = 1 << 20
STEP = 64 << 10
BUDGET = 4_000
EXEC, GO, FORK = 0, 1, 2
CUT, TARGETS, DEAD, CODE, WITHIN, SPAN, SAME = range(7)
MAGIC, CALL = 0x5053534D, 0x73

Row = tuple[int, ...]


@dataclass
class Image:
    """The tables of an image, entry by entry, as the file has them. Only version 2 has writes."""

    limit: int = 16
    slots: list[Row] = field(default_factory=list)
    anchors: list[Row] = field(default_factory=list)
    notes: list[Row] = field(default_factory=list)
    assumptions: list[Row] = field(default_factory=list)
    version: int = 1
    writes: list[int] = field(default_factory=list)

    def file(self) -> bytes:
        tables = (self.slots, self.anchors, self.notes, self.assumptions)
        words = [MAGIC, self.version, self.limit, *map(len, tables)]
        words += [len(self.writes)] if self.version == 2 else []
        words += [word for table in tables for entry in table for word in entry] + self.writes
        return struct.pack(f"<{len(words)}I", *words)

    @staticmethod
    def read(file: bytes) -> "Image":
        words = iter(struct.unpack(f"<{len(file) // 4}I", file))

        def entries(count: int, size: int) -> list[Row]:
            return [tuple(next(words) for _ in range(size)) for _ in range(count)]

        _, version, limit, slots, anchors, notes, assumptions = (next(words) for _ in range(7))
        writes = next(words) if version == 2 else 0
        image = Image(limit, entries(slots, 3), entries(anchors, 3), entries(notes, 4), version=version)
        for _ in range(assumptions):
            head = tuple(next(words) for _ in range(4))
            image.assumptions.append(head + tuple(next(words) for _ in range(head[3])))
        image.writes = [next(words) for _ in range(writes)]
        return image


class Example:
    """A program, its input, and what it does alone."""

    def __init__(self, tools: "Tools", name: str):
        self.name = name
        self.program = HERE / "bin" / f"{name.split('-')[0]}.elf"
        given = HERE / "input" / f"{name}.in"
        self.words = ["--input", str(given)] if given.exists() else []
        self.tools = tools
        self.alone: dict[int, tuple[int, bytes]] = {}
        profile, image = tools.room / "profile", tools.room / "distilled"
        tools.must("profile", self.program, profile, *self.words, "--budget", BUDGET, "--calls", 1)
        tools.must("distill", self.program, profile, image)
        self.image = image.read_bytes()
        self.writes = Image.read(self.image).writes
        rows, at = profile.read_bytes(), 24
        self.pcs = []
        while at < len(rows):
            self.pcs.append(struct.unpack_from("<I", rows, at)[0])
            at += 28 + 4 * struct.unpack_from("<I", rows, at + 24)[0]

    def after(self, steps: int) -> tuple[int, bytes]:
        """Status and output of the program alone, over so many steps."""
        if steps == 0:
            return 120, b""
        if steps not in self.alone:
            status, out, _ = self.tools.run("run", self.program, *self.words, "--budget", steps)
            self.alone[steps] = status, out
        return self.alone[steps]


@dataclass
class Tools:
    """The program that is tried, and a folder for its files."""

    binary: Path
    room: Path

    def run(self, *words, space: int | None = None) -> tuple[int, bytes, bytes]:
        def confine() -> None:
            if space is not None:
                resource.setrlimit(resource.RLIMIT_AS, (space, space))

        done = subprocess.run(
            [self.binary, *map(str, words)], stdin=subprocess.DEVNULL, capture_output=True, preexec_fn=confine, check=False
        )
        return done.returncode, done.stdout, done.stderr

    def must(self, *words) -> bytes:
        status, out, err = self.run(*words)
        if status != 0:
            raise SystemExit(f"hostile.py: {words}: status {status}: {err.decode(errors='replace')}")
        return out

    def least_space(self) -> int:
        """The least address space, in steps of 64 KiB, in which the smallest run beside an image is done. (In less the system refuses
        the program its stack, and ends it with a signal.)"""
        image, report = self.put("image", Image().file()), self.room / "report"
        words = ["run", HERE / "bin" / "hello.elf", "--image", image, "--report", report]
        return next(size for size in range(STEP, 64 * MIB, STEP) if self.run(*words, space=size)[0] == 0)

    def put(self, name: str, content: bytes) -> Path:
        file = self.room / name
        file.write_bytes(content)
        return file


class Drawing:
    """Draws what a hostile maker of images might make."""

    def __init__(self, seed: int, example: Example):
        self.random = random.Random(f"{seed} {example.name}")
        self.example = example

    def pc(self) -> int:
        """Mostly a pc that the run comes to, else one beside it or anywhere."""
        near = self.random.choice(self.example.pcs)
        return self.random.choice([near, near, near, (near + 4) % 2**32, self.random.randrange(2**30) * 4])

    def pcs(self, count: int) -> list[int]:
        return sorted({self.pc() for _ in range(count)})

    def mask(self) -> int:
        return self.random.choice([0, self.random.getrandbits(32) & ~1, 2**32 - 2])

    def word(self) -> int:
        kinds = [0x13, 0x33, 0x37, 0x03, 0x23, 0x63, 0x6F, 0x67, 0x73, 0x0F]
        return self.random.choice([CALL, self.random.getrandbits(32), self.random.getrandbits(25) << 7 | self.random.choice(kinds)])

    def slot(self, anchors: int) -> Row:
        kind = self.random.choice([EXEC, EXEC, GO, FORK] if anchors else [EXEC, EXEC, GO])
        if kind == EXEC:
            return EXEC, self.pc(), self.word()
        return (GO, self.pc(), 0) if kind == GO else (FORK, self.random.randrange(anchors), 0)

    def limit(self) -> int:
        return self.random.choice([16, 17, 64, 4_096, 16_384])

    def arrivals(self) -> int:
        return self.random.choice([1, 2, self.random.randint(1, 64), 64])

    def assumptions(self) -> list[Row]:
        cuts = [(CUT, pc, self.random.randrange(2), 0) for pc in self.pcs(3)]
        jumps = [(TARGETS, pc, 0, len(to), *to) for pc in self.pcs(2) for to in [self.pcs(self.random.randrange(4))]]
        dead = [(DEAD, pc, 0, 0) for pc in self.pcs(3)]
        return cuts + jumps + dead + [(kind, 0, 0, 0) for kind in (CODE, WITHIN, SPAN) if self.random.randrange(2)]

    def anything(self) -> Image:
        """Tables that have nothing to do with one another."""
        begun, noted = self.pcs(self.random.randint(1, 4)), self.pcs(self.random.randint(1, 12))
        slots = [self.slot(len(begun)) for _ in range(self.random.randint(1, 12))]
        place = lambda: self.random.randrange(len(slots))
        anchors = [(pc, place(), self.arrivals()) for pc in begun]
        notes = [(pc, place(), self.mask(), self.mask()) for pc in noted]
        return Image(self.limit(), slots, anchors, notes, self.assumptions())

    def forks_at_one_pc(self) -> Image:
        """The master begins task after task at the pc where it is."""
        at = self.random.choice(self.example.pcs)
        slots = [(FORK, 0, 0)] * self.random.randint(1, 5) + [(GO, at, 0)]
        return Image(self.limit(), slots, [(at, 0, self.arrivals())], [(at, 0, 0, 0)])

    def into_nowhere(self) -> Image:
        """The master goes where there is no note."""
        at = self.random.choice(self.example.pcs)
        return Image(self.limit(), [(FORK, 0, 0), (GO, (at + 0x100000) % 2**32, 0)], [(at, 0, self.arrivals())], [(at, 0, 0, 0)])

    def never_forks(self) -> Image:
        """The master goes round for ever."""
        at, beside = self.random.sample(self.example.pcs, 2) if len(self.example.pcs) > 1 else self.example.pcs * 2
        slots = [(FORK, 0, 0), (GO, beside, 0), (GO, beside, 0)]
        notes = sorted({(at, 0, 0, 0), (beside, 2, 0, 0)} if at != beside else {(at, 2, 0, 0)})
        return Image(self.limit(), slots, [(at, 0, self.arrivals())], notes)

    def damaged(self) -> Image:
        """A distilled image in which entries say something else."""
        image = Image.read(self.example.image)
        for _ in range(self.random.randint(1, 6)):
            table = self.random.choice([image.slots, image.notes, image.anchors])
            if not table:
                continue
            at = self.random.randrange(len(table))
            if table is image.slots:
                table[at] = self.slot(len(image.anchors))
            elif table is image.notes:
                table[at] = (table[at][0], self.random.randrange(len(image.slots)), self.mask(), self.mask())
            else:
                table[at] = (table[at][0], self.random.randrange(len(image.slots)), self.arrivals())
        return image

    def second(self, image: Image) -> None:
        """Makes it one of version 2: calls that tasks do, or no calls at all, and loads of values that nobody has seen."""
        image.version = 2
        image.writes = sorted({*self.pcs(3), *(pc for pc in self.example.writes if self.random.randrange(4))})
        image.assumptions = [entry for entry in image.assumptions if entry[0] != SAME]
        image.assumptions += [(SAME, pc, self.random.choice([0, self.random.getrandbits(32)]), 0) for pc in self.pcs(2)]

    def image(self) -> tuple[str, Image]:
        made = self.random.choice([self.anything, self.forks_at_one_pc, self.into_nowhere, self.never_forks, self.damaged, self.damaged])
        image = made()
        if self.random.randrange(3) == 0:
            image.limit = self.limit()
        if self.random.randrange(2):
            self.second(image)
        if image.version == 2:
            image.limit = min(image.limit, 4_096)
        return made.__name__, image

    def events(self, slaves: int) -> bytes:
        """A list of events, most of them of use: the machine steps, restarts, and then all take their turns."""
        actors = ["master", "commit", "serial", "restart", *(f"slave {j}" for j in range(slaves + 1))]
        lines = ["1 serial", "1 restart"]
        lines += [f"{self.random.choice([1, 1, 2, 5, 40])} {self.random.choice(actors)}" for _ in range(self.random.randint(20, 400))]
        return ("\n".join(lines) + "\n").encode()


class Trial:
    """Counts what passed, and says what did not."""

    def __init__(self) -> None:
        self.passed = self.failed = self.short = 0

    def case(self, holds: bool, *what) -> None:
        if holds:
            self.passed += 1
        else:
            self.failed += 1
            print("FAILED", *what)


def position_in(report: bytes) -> tuple[int, str]:
    lines = dict(line.split(" ", 1) for line in report.decode().splitlines()[-8:])
    return int(lines["position"]), lines["end"]


def run_beside(tools: Tools, trial: Trial, example: Example, image: Path, what: tuple, space: int | None = None) -> None:
    report = tools.room / "report"
    report.unlink(missing_ok=True)
    status, out, err = tools.run(
        "run", example.program, *example.words, "--budget", BUDGET, "--image", image, "--report", report, "--slaves", 64, space=space
    )
    if space is not None and status != example.after(BUDGET)[0] and (status == 114 or err.startswith(b"mssp: memory")):
        trial.case(err == b"mssp: memory\n" and example.after(BUDGET + 16_384)[1].startswith(out), *what, "memory", err)
        trial.short += 1
        return
    if not report.exists():
        trial.case(False, *what, "status", status, err)
        return
    position, _ = position_in(report.read_bytes())
    wanted = example.after(max(position, 1))
    # A run that is cut off may have passed the budget by a task, and then tells 120 where the one alone has come to its end.
    right = (status, out) == wanted or (status == example.after(BUDGET)[0] and out == wanted[1])
    trial.case(right, *what, "status", status, "position", position)


def replay_beside(tools: Tools, trial: Trial, example: Example, image: Path, draw: Drawing, what: tuple) -> None:
    slaves = draw.random.choice([1, 2, 4, 64])
    events = tools.put("events", draw.events(min(slaves, 6)))
    status, out, err = tools.run("replay", example.program, image, events, *example.words, "--slaves", slaves)
    if status != 0:
        trial.case(False, *what, "replay: status", status, err)
        return
    summary = out.rindex(b"position ", 0, out.index(b"\noutput ", out.rindex(b"\nend ")) + 1)
    head, body = out[summary:].split(b"\noutput ", 1)
    length, output = body.split(b"\n", 1)
    position = int(head.split()[1])
    trial.case(int(length) == len(output) and output == example.after(position)[1], *what, "replay: position", position)


def try_example(tools: Tools, trial: Trial, name: str, images: int, seed: int, least: int) -> None:
    example = Example(tools, name)
    draw = Drawing(seed, example)
    before = trial.passed, trial.failed
    for number in range(images):
        kind, image = draw.image()
        file = tools.put("image", image.file())
        what = (name, "image", number, kind)
        shown, _, err = tools.run("show", file)
        trial.case(shown == 0, *what, "show", err)
        run_beside(tools, trial, example, file, what)
        replay_beside(tools, trial, example, file, draw, what)
        if number % 4 == 0:
            for steps in (0, 1, 2, 3, 4, 6, 8, 16):
                run_beside(tools, trial, example, file, (*what, "space", steps), least + steps * STEP)
    print(f"{name}: {images} images, {trial.passed - before[0]} passed, {trial.failed - before[1]} failed")


def try_lengths(tools: Tools, trial: Trial) -> None:
    """A file of each kind at its greatest length and one byte longer: the first is read and refused by its bytes, the second is 115."""
    hello, room = HERE / "bin" / "hello.elf", tools.room
    image, events = tools.put("image", Image().file()), tools.put("events", b"1 serial\n")
    tools.must("profile", hello, room / "profile")
    program, long = hello.read_bytes(), room / "long"
    cases = [
        ("program", 16 * MIB, program, 0, ["run", long], 0),
        ("program of zeros", 16 * MIB, b"", 0, ["run", long], 116),
        ("input", 64 * MIB, b"", 0, ["run", hello, "--input", long], 0),
        ("image", 64 * MIB, image.read_bytes(), 0, ["show", long], 117),
        ("profile", 32 * MIB, (room / "profile").read_bytes(), 0, ["distill", hello, long, room / "out"], 118),
        ("events", 64 * MIB, b"", 10, ["replay", hello, image, long], 0),
    ]
    for kind, limit, head, filler, words, status in cases:
        for length, wanted in ((limit, status), (limit + 1, 115)):
            long.write_bytes(head + bytes([filler]) * (length - len(head)))
            answer, _, err = tools.run(*words)
            line = f"mssp: too long {long}\n".encode()
            trial.case(answer == wanted and (wanted != 115 or err == line), kind, length, "status", answer, err)
    print(f"lengths: {2 * len(cases)} files")


def main() -> int:
    words = argparse.ArgumentParser(description="Runs the examples beside hostile images and schedules.")
    words.add_argument("binary", type=Path)
    words.add_argument("--images", type=int, default=20, help="images for each example (20)")
    words.add_argument("--seed", type=int, default=1, help="the number that they are drawn from (1)")
    asked = words.parse_args()
    trial = Trial()
    with tempfile.TemporaryDirectory() as room:
        tools = Tools(asked.binary.resolve(), Path(room))
        least = tools.least_space()
        for expected in sorted((HERE / "expected").glob("*.status")):
            try_example(tools, trial, expected.stem, asked.images, asked.seed, least)
        try_lengths(tools, trial)
    print(f"{trial.short} answers were 114, under a limit of address space")
    print(f"{trial.passed} passed, {trial.failed} failed")
    return 1 if trial.failed else 0


if __name__ == "__main__":
    sys.exit(main())
