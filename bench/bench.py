#!/usr/bin/env python3
"""How fast `mssp run` executes the two long programs of examples/: mix is mostly arithmetic,
shuffle mostly loads and stores.  Prints millions of guest instructions per second: the
instructions of the program's run (examples/expected/NAME.steps) by the least processor
time, user and system, of N runs (3).  Each run's output and status are compared with
those that stand in examples/expected.

BINARY is the mssp program.  Without it crates/mssp/out/mssp is taken, which `rt run` in
crates/mssp makes; it isn't built here.

The plain interpreter bench/interpreter.c is built and stands beside mssp, where gcc is installed, and so
does qemu-riscv32, where that is: as it comes, translating blocks of code, and with one
instruction in each block.

--callgrind counts, by valgrind, host instructions for each guest instruction, which don't
depend on the load of the machine.  It takes the difference of two runs that a budget cuts
off, after 2,000,000 and after 3,000,000 guest instructions, so the start doesn't count.
qemu is left out there, since its code is made at run time.

--replay gives 2,000,000 events to `mssp replay`, over a loop without end and an image of
it that was made by hand, and prints millions of events per second: events that find
nothing to do; serial steps, beside `run` on as many; and rounds, in which the master
and four slaves run ahead. What is put goes nowhere. Each list is replayed once more
before, and the lines that come are counted: one for each event, and eight of the summary.

--rounds runs that loop for 2,000,000 instructions: without an image, by serial steps alone
that a report sums up, and in rounds beside the image, with 1, 4 and 16 slaves; and a loop that
prints a byte a turn, beside an image whose tasks do that call.  It prints
millions of committed instructions per second, where the report says how many were
committed, and of how many of them tasks took care.

--distilling profiles the two long programs, distils them, and checks their runs, and
prints the seconds of each command beside those of `run`.  Then it distils programs without
a branch, at whose last instruction a register is read that none of the others touches: as
many rounds of masks as there are instructions.  With --callgrind it counts the host
instructions of `run`, `profile`, `check` and `values` for each guest instruction instead, and
those of `run`, `profile` and `values` for loops that do hardly anything but load, or store, bytes, halves or
words that a store wrote, and words across two words of memory.

--hostile gives large files and programs that do little else than look up: `check` beside an
image with many notes, anchors and dead stores, each on a page of its own; `check` of a jump
by a register with many targets; `profile` of a jump whose targets come in descending order.
It prints processor seconds and the greatest resident set, in which this script's own counts
for a command that needs less, beside those of `run` and the length of the image's file.

--figures counts host instructions by callgrind, and compares them with docs/MAP.md: of `run` for
each guest instruction, beside the plain C interpreter; of `run` beside the image that `profile`
and `distill` make, for each committed instruction, with 4, 16 and 64 slaves; and of `replay` for
each idle event.  The guest queens.elf is that of examples/corpus.  Each figure has
a row in docs/MAP.md that begins with its name and its number, as `| run mix | 75.3 |`.  Where one
is missing, or a figure is more than 5 in 100 above the number of its row, the status is 1.

--adapting counts host instructions, by callgrind, of the long programs of examples/ and its corpus, for each
committed instruction: of `run` alone, of `run` beside the image that `profile` of the whole run and `distill` make, and of
`run --adapt 1000000`, with the most that the last may cost: 1.3 times the second and 4 times the first.  And of 100 steps
that are taken after the first 2,000,000 it tells how many tasks took care of, beside that image and where images are made anew.

--masks distils programs of 2,000, 32,000 and 524,288 instructions by profiles that are made
here, and prints the seconds and the greatest resident set of each: a line at whose end one
register is read; and one at whose end 31 registers are read, one after the other, so that
each goes up the line on its own; and one that ends with a jump by a register to each of its
instructions.  Then it times `trial 1 2000` and `trial 1 10000`.
"""
import argparse
import atexit
import functools
import hashlib
import os
import re
import shutil
import struct
import subprocess
import sys
import tempfile
import time
from pathlib import Path

REPOSITORY = Path(__file__).resolve().parent.parent
EXAMPLES = REPOSITORY / "examples"
PROGRAMS = ("mix", "shuffle")
QEMU = "qemu-riscv32"
WINDOW = (2_000_000, 3_000_000)
# queens ends after 2,009,742 instructions
EARLIER = (1_000_000, 2_000_000)

# a run that is worth adapting to has so many steps, and none has more than the last number; an image is made every so many
LONG, WHOLE, EVERY = 8_000_000, 100_000_000, "1000000"

# adds 1 to x5 and jumps back to that
LOOP = (0x00128293, 0xFFDFF06F)

# writes the byte at 0x00010000 and jumps back to the start
PRINTING = (0x00100513, 0x000105B7, 0x00100613, 0x04000893, 0x00000073, 0xFEDFF06F)
EVENTS = 2_000_000

# x5 = x6, and at the end of a line of these x10 = x9 and an exit
STEP, LAST = 0x00030293, (0x00048513, 0x05D00893, 0x00000073)
ROUND = ("restart", "serial", "master", "master", "master", "master",
         "slave 0", "slave 1", "slave 2", "slave 3", "commit")


class Program:
    """A guest program with the answer that its run has to give."""

    def __init__(self, name):
        self.name = name
        self.file = str(EXAMPLES / "bin" / f"{name}.elf")
        expected = EXAMPLES / "expected" / name
        self.steps = int(expected.with_suffix(".steps").read_text())
        self.status = int(expected.with_suffix(".status").read_text())
        self.output = expected.with_suffix(".out").read_bytes()

    def is_counted(self):
        """Whether the file is the one whose instructions were counted."""
        lines = (EXAMPLES / "expected" / "SHA256SUMS").read_text().splitlines()
        sums = {name: number for number, name in map(str.split, lines)}
        found = hashlib.sha256(Path(self.file).read_bytes()).hexdigest()
        return sums[f"{self.name}.elf"] == found


def high_water(process):
    """The greatest resident set of a running process so far, in MB; 0 once it has ended."""
    try:
        found = re.search(r"VmHWM:\s+(\d+) kB", Path(f"/proc/{process}/status").read_text())
    except OSError:
        found = None
    return int(found.group(1)) / 1024 if found else 0.0


def timed(words, program):
    """Runs a command; gives its processor seconds and its greatest resident set in MB, as
    looked up every few milliseconds."""
    with tempfile.TemporaryFile() as output, tempfile.TemporaryFile() as errors:
        child = subprocess.Popen(words, stdin=subprocess.DEVNULL, stdout=output, stderr=errors)
        resident, ended = 0.0, 0
        while not ended:
            resident = max(resident, high_water(child.pid))
            time.sleep(0.005)
            ended, status, used = os.wait4(child.pid, os.WNOHANG)
        child.returncode = os.waitstatus_to_exitcode(status)
        output.seek(0)
        errors.seek(0)
        if child.returncode != program.status:
            told = errors.read(200).decode(errors="replace").strip()
            sys.exit(f"bench.py: {' '.join(words)}: status {child.returncode} "
                     f"for {program.status}: {told}")
        if output.read() != program.output:
            sys.exit(f"bench.py: {' '.join(words)}: another output than the expected one")
    return used.ru_utime + used.ru_stime, resident


def host_instructions(words, status=120):
    """Counts by callgrind the instructions of a run that its budget cuts off."""
    ran = subprocess.run(
        ["valgrind", "--tool=callgrind", "--callgrind-out-file=/dev/null", *words],
        stdin=subprocess.DEVNULL, stdout=subprocess.DEVNULL, stderr=subprocess.PIPE, text=True)
    found = re.search(r"Collected : (\d+)", ran.stderr)
    if ran.returncode != status or not found:
        sys.exit(f"bench.py: callgrind: status {ran.returncode} of {' '.join(words)}\n{ran.stderr}")
    return int(found.group(1))


def for_each(words, status=120):
    """The host instructions of a command for each guest instruction of its program."""
    first, last = (host_instructions([*words, "--budget", str(budget)], status) for budget in WINDOW)
    return (last - first) / (WINDOW[1] - WINDOW[0])


def other_engines():
    """Gives the plain C interpreter and qemu, as far as they are there: name, words to run."""
    found = {}
    if shutil.which("gcc"):
        found["plain C"] = [built_interpreter(), "run"]
    else:
        print("without the plain C interpreter, as gcc isn't installed")
    if shutil.which(QEMU):
        found["qemu"] = [QEMU]
        told = subprocess.run([QEMU, "--help"], capture_output=True, text=True).stdout
        for word in ("-one-insn-per-tb", "-singlestep"):
            if word in told:
                found["qemu, single"] = [QEMU, word]
                break
    return found


@functools.cache
def built_interpreter():
    """Builds bench/interpreter.c in a folder that goes when this script ends."""
    folder = tempfile.mkdtemp()
    atexit.register(shutil.rmtree, folder, ignore_errors=True)
    built = os.path.join(folder, "interpreter")
    subprocess.run(["gcc", "-O2", "-o", built, str(REPOSITORY / "bench" / "interpreter.c")], check=True)
    return built


def show_speed(engines, programs, runs):
    print(f"millions of guest instructions per second, best of {runs} runs "
          f"({time.strftime('%Y-%m-%d')}, load {os.getloadavg()[0]:.1f})")
    print(f"{'program':10}{'instructions':>14}" + "".join(f"{name:>14}" for name in engines))
    most = dict.fromkeys(engines, 0.0)
    for program in programs:
        least = dict.fromkeys(engines, float("inf"))
        for _ in range(runs):
            for name, words in engines.items():
                seconds, resident = timed([*words, program.file], program)
                least[name] = min(least[name], seconds)
                most[name] = max(most[name], resident)
        speeds = (f"{program.steps / least[name] / 1e6:14.1f}" for name in engines)
        print(f"{program.name:10}{program.steps:14}" + "".join(speeds), flush=True)
    print(f"{'resident at most, MB':24}" + "".join(f"{most[name]:14.1f}" for name in engines))


def show_host_instructions(engines, programs):
    print("host instructions for each guest instruction, by callgrind")
    print(f"{'program':24}" + "".join(f"{name:>14}" for name in engines))
    for program in programs:
        counts = []
        for words in engines.values():
            counts.append(f"{for_each([*words, program.file]):14.1f}")
        print(f"{program.name:24}" + "".join(counts), flush=True)


def numbers(*all_numbers):
    return struct.pack(f"<{len(all_numbers)}I", *all_numbers)


def program_of(words):
    """The ELF file that loads these words at 0x00010000 and starts there."""
    size = 4 * len(words)
    header = numbers(0x464C457F, 0x00010101, 0, 0, 0x00F30002, 1, 0x10000, 52, 0, 0, 0x00200034, 1, 0)
    return header + numbers(1, 84, 0x10000, 0x10000, size, size, 5, 4) + numbers(*words)


def loop_image():
    """An image of the loop: its head is an anchor, at which a task passes 16 times."""
    header = numbers(0x5053534D, 1, 64, 3, 1, 2, 0)
    slots = numbers(2, 0, 0, 0, 0x10000, LOOP[0], 0, 0x10004, LOOP[1])
    notes = numbers(0x10000, 0, 0, 0, 0x10004, 2, 0, 0)
    return header + slots + numbers(0x10000, 0, 16) + notes


def printing_image():
    """An image of the loop that prints: tasks do its call, and pass its head 16 times."""
    header = numbers(0x5053534D, 2, 128, 2, 1, 1, 0, 1)
    slots = numbers(2, 0, 0, 1, 0x10000, 0)
    return header + slots + numbers(0x10000, 0, 16, 0x10000, 0, 0, 0, 0x10010)


def load(size, to, base, offset):
    return 0x03 | {1: 4, 2: 5, 4: 2}[size] << 12 | to << 7 | base << 15 | offset << 20


def store(size, value, base, offset):
    return 0x23 | size.bit_length() - 1 << 12 | value << 20 | base << 15 | (offset & 31) << 7 | offset >> 5 << 25


def add(to, number):
    return 0x13 | to << 7 | to << 15 | number << 20


def back_while_below(register, limit, instructions):
    """BLTU to so many instructions before."""
    offset = -4 * instructions & 0x1FFF
    return (0x63 | 6 << 12 | register << 15 | limit << 20 | (offset >> 11 & 1) << 7 | (offset >> 1 & 15) << 8
            | (offset >> 5 & 63) << 25 | (offset >> 12 & 1) << 31)


def touching_loop(touch, size, start):
    """A program without end that fills 16 KiB by two stores, and then loads or stores all of it, 16 times a turn."""
    fill = [store(size, 0, 5, start), store(size, 0, 5, start + size), add(5, 2 * size)]
    turn = [touch(size, 8, 5, start + size * k) for k in range(16)] + [add(5, 16 * size)]
    to_first, to_limit = 0x000202B7, 0x000243B7  # LUI to x5 and x7
    words = [to_first, to_limit, *fill, back_while_below(5, 7, len(fill))]
    again = [to_first, *turn, back_while_below(5, 7, len(turn))]
    return program_of([*words, *again, back_while_below(0, 7, len(again))])


def seconds_of(words, status):
    """The processor seconds of a run whose output goes nowhere."""
    child = subprocess.Popen(words, stdin=subprocess.DEVNULL, stdout=subprocess.DEVNULL,
                             stderr=subprocess.DEVNULL)
    _, ended, used = os.wait4(child.pid, 0)
    child.returncode = os.waitstatus_to_exitcode(ended)
    if child.returncode != status:
        sys.exit(f"bench.py: {' '.join(words)}: status {child.returncode} for {status}")
    return used.ru_utime + used.ru_stime


def measured(words):
    """The processor seconds of a run that ends with status 0, and its greatest resident set in MB."""
    child = subprocess.Popen(words, stdin=subprocess.DEVNULL, stdout=subprocess.DEVNULL)
    resident, ended = 0.0, 0
    while not ended:
        resident = max(resident, high_water(child.pid))
        time.sleep(0.005)
        ended, status, used = os.wait4(child.pid, os.WNOHANG)
    child.returncode = os.waitstatus_to_exitcode(status)
    if child.returncode:
        sys.exit(f"bench.py: {' '.join(words)}: status {child.returncode}")
    return used.ru_utime + used.ru_stime, resident


def show_replays(binary, runs):
    rounds = EVENTS // len(ROUND)
    lists = {
        "idle": (EVENTS, f"{EVENTS} commit\n"),
        "serial": (EVENTS, f"{EVENTS} serial\n"),
        "rounds": (rounds * len(ROUND), "".join(f"1 {event}\n" for event in ROUND) * rounds),
    }
    print(f"millions of events per second, best of {runs} runs (load {os.getloadavg()[0]:.1f})")
    with tempfile.TemporaryDirectory() as folder:
        program, image, events = (os.path.join(folder, name) for name in ("elf", "image", "events"))
        Path(program).write_bytes(program_of(LOOP))
        Path(image).write_bytes(loop_image())
        for name, (count, text) in lists.items():
            Path(events).write_text(text)
            words = [binary, "replay", program, image, events]
            put = subprocess.run(words, stdout=subprocess.PIPE, check=True).stdout
            if put.count(b"\n") != count + 8:
                sys.exit(f"bench.py: {name}: {put.count(10)} lines for {count} events")
            least = min(seconds_of(words, 0) for _ in range(runs))
            print(f"{'replay ' + name:24}{count:14}{count / least / 1e6:14.1f}", flush=True)
        words = [binary, "run", program, "--budget", str(EVENTS)]
        least = min(seconds_of(words, 120) for _ in range(runs))
        print(f"{'run':24}{EVENTS:14}{EVENTS / least / 1e6:14.1f}")


def reported(words, report):
    """The processor seconds of a run that its budget cuts off, the instructions that were
    committed, and how many of them by tasks."""
    return seconds_of(words, 120), *standing(report)


def show_rounds(binary, runs):
    print(f"millions of committed instructions per second, best of {runs} runs "
          f"(load {os.getloadavg()[0]:.1f})")
    print(f"{'':24}{'instructions':>14}{'by tasks':>14}{'speed':>14}")
    with tempfile.TemporaryDirectory() as folder:
        program, image, report = (os.path.join(folder, name) for name in ("elf", "image", "report"))
        Path(program).write_bytes(program_of(LOOP))
        Path(image).write_bytes(loop_image())
        alone = [binary, "run", program, "--budget", str(EVENTS)]
        least = min(seconds_of(alone, 120) for _ in range(runs))
        print(f"{'run':24}{EVENTS:14}{0:14}{EVENTS / least / 1e6:14.1f}", flush=True)
        kinds = {"serial steps alone": []}
        for slaves in (1, 4, 16):
            kinds[f"rounds, slaves {slaves}"] = ["--image", image, "--slaves", str(slaves)]
        for name, options in kinds.items():
            words = [*alone, "--report", report, *options]
            best = min(reported(words, report) for _ in range(runs))
            print(f"{name:24}{best[1]:14}{best[2]:14}{best[1] / best[0] / 1e6:14.2f}", flush=True)
        Path(program).write_bytes(program_of(PRINTING))
        Path(image).write_bytes(printing_image())
        words = [*alone, "--report", report, "--image", image]
        best = min(reported(words, report) for _ in range(runs))
        print(f"{'tasks that print':24}{best[1]:14}{best[2]:14}{best[1] / best[0] / 1e6:14.2f}", flush=True)


def show_distilling(binary, programs, runs):
    print(f"processor seconds, best of {runs} runs (load {os.getloadavg()[0]:.1f})")
    print(f"{'':16}" + "".join(f"{name:>14}" for name in ("run", "profile", "of run", "distill", "check", "of run")))
    with tempfile.TemporaryDirectory() as folder:
        file, profile, image = (os.path.join(folder, name) for name in ("elf", "profile", "image"))

        def least(words, status=0):
            return min(seconds_of([binary, *words], status) for _ in range(runs))

        for program in programs:
            run = least(["run", program.file], program.status)
            profiled = least(["profile", program.file, profile])
            distilled = least(["distill", program.file, profile, image, "--rare", "0"])
            verdict = subprocess.run([binary, "check", program.file, image], stdout=subprocess.PIPE)
            checked = least(["check", program.file, image], verdict.returncode)
            print(f"{program.name:16}{run:14.2f}{profiled:14.2f}{profiled / run:14.1f}{distilled:14.3f}"
                  f"{checked:14.2f}{checked / run:14.1f}  {verdict.stdout.decode().strip()}", flush=True)
        for count in (500, 1000, 2000):
            Path(file).write_bytes(program_of([STEP] * count + [*LAST]))
            subprocess.run([binary, "profile", file, profile], check=True)
            distilled = least(["distill", file, profile, image])
            print(f"{f'line of {count}':16}{'':42}{distilled:14.3f}", flush=True)


def show_distilling_instructions(binary, programs):
    print("host instructions for each guest instruction, by callgrind")
    print(f"{'':16}" + "".join(f"{name:>14}" for name in ("run", "profile", "of run", "check", "of run", "values", "of run")))
    with tempfile.TemporaryDirectory() as folder:
        profile, image, values = (os.path.join(folder, name) for name in ("profile", "image", "values"))
        for program in programs:
            subprocess.run([binary, "profile", program.file, profile], check=True)
            subprocess.run([binary, "distill", program.file, profile, image, "--rare", "0"], check=True)
            run = for_each([binary, "run", program.file])
            profiled = for_each([binary, "profile", program.file, profile], 0)
            checked = for_each([binary, "check", program.file, image], 0)
            found = for_each([binary, "values", program.file, values], 0)
            print(f"{program.name:16}{run:14.1f}{profiled:14.1f}{profiled / run:14.2f}"
                  f"{checked:14.1f}{checked / run:14.2f}{found:14.1f}{found / run:14.2f}", flush=True)
        file = os.path.join(folder, "elf")
        loops = {"bytes": (1, 0), "halves": (2, 0), "words": (4, 0), "across words": (4, 1)}
        for touch in (load, store):
            for name, (size, start) in loops.items():
                Path(file).write_bytes(touching_loop(touch, size, start))
                run = for_each([binary, "run", file])
                profiled = for_each([binary, "profile", file, profile], 0)
                found = for_each([binary, "values", file, values], 0)
                print(f"{f'{touch.__name__} {name}':20}{run:10.1f}{profiled:14.1f}{profiled / run:14.2f}"
                      f"{'':28}{found:14.1f}{found / run:14.2f}", flush=True)


def image_of(anchors, notes, assumptions, limit=64):
    """An image with one Fork slot for each anchor, and the numbers of each assumption."""
    slots = [number for k in range(len(anchors)) for number in (2, k, 0)] or [1, notes[0], 0]
    counted = [len(slots) // 3, len(anchors), len(notes), len(assumptions)]
    tables = [number for k, pc in enumerate(anchors) for number in (pc, k, 1)]
    noted = [number for pc in notes for number in (pc, 0, 0, 0)]
    listed = [number for one in assumptions for number in one]
    return numbers(0x5053534D, 1, limit, *counted, *slots, *tables, *noted, *listed)


def wide_image(count):
    """So many notes and anchors, and twice as many dead stores, each on a page of its own."""
    pages = [0x1000 * k for k in range(0x100, 0x100 + count)]
    dead = [(2, 0x1000 * k + 8, 0, 0) for k in range(0x100, 0x100 + 2 * count)]
    return image_of(pages, pages, [*dead, (3, 0, 0, 0), (4, 0, 0, 0), (5, 0, 0, 0)])


# AUIPC x5, 0 and a jump back to it by x5
RETURNING = (0x00000297, 0x00028067)


def targets_image(count):
    """The jump of that program has so many targets, and goes to the one at 0x10000."""
    targets = [0x10000 - 4 * k for k in range(min(count, 0x4000))][::-1]
    more = [0x10000 + 4 * k for k in range(1, count - len(targets) + 1)]
    listed = [*targets, *more]
    return image_of([], [0x10000, 0x10004], [(1, 0x10004, 0, len(listed), *listed)])


def descending(count):
    """A jump that goes to so many words, from the last to the first; each returns. A page holds 1,024 of them."""
    first, size = 0x01000000, 4 * count
    back = 0x63 | 1 << 12 | 7 << 20 | 5 << 15 | (-8 >> 1 & 15) << 8 | 0x3F << 25 | 1 << 7 | 1 << 31
    words = [first + size | 0x2B7, first | 0x3B7, 0xFFC28293, 0x00028367, back, 0x00000513, 0x05D00893, 0x73]
    here, behind = 4 * len(words), 116 + 4 * len(words)
    header = numbers(0x464C457F, 0x00010101, 0, 0, 0x00F30002, 1, 0x10000, 52, 0, 0, 0x00200034, 2, 0)
    parts = numbers(1, 116, 0x10000, 0x10000, here, here, 5, 4, 1, behind, first, first, size, size, 5, 4)
    return header + parts + numbers(*words) + numbers(0x00030067) * count


def made(file, maker):
    """Writes a file in a process of its own: what a program keeps resident counts from this process on."""
    child = os.fork()
    if child == 0:
        Path(file).write_bytes(maker())
        os._exit(0)
    if os.waitpid(child, 0)[1] != 0:
        sys.exit(f"bench.py: {file} can't be written")


def measured_with_status(words):
    """The processor seconds of a command, its greatest resident set in MB, and its status."""
    child = subprocess.Popen(words, stdin=subprocess.DEVNULL, stdout=subprocess.DEVNULL, stderr=subprocess.DEVNULL)
    _, status, used = os.wait4(child.pid, 0)
    child.returncode = os.waitstatus_to_exitcode(status)
    return used.ru_utime + used.ru_stime, used.ru_maxrss / 1024, child.returncode


def show_hostile(binary):
    print(f"processor seconds and greatest resident set, MB, which is this script's own at least (load {os.getloadavg()[0]:.1f})")
    with tempfile.TemporaryDirectory() as folder:
        file, image = (os.path.join(folder, name) for name in ("elf", "image"))

        def show(name, words):
            seconds, resident, status = measured_with_status([binary, *words])
            print(f"{name:44}{seconds:10.2f}{resident:10.1f}   status {status}", flush=True)

        Path(file).write_bytes(program_of(LAST))
        for count in (1_000, 10_000, 100_000):
            made(image, lambda: wide_image(count))
            show(f"check, {count} notes, {os.path.getsize(image) / 2 ** 20:.1f} MB", ["check", file, image])
        Path(file).write_bytes(program_of(RETURNING))
        for count in (100, 16_384, 50_000):
            made(image, lambda: targets_image(count))
            show(f"check, a jump with {count} targets", ["check", file, image, "--budget", "400000"])
        for count in (51_200, 102_400, 399_360):
            made(file, lambda: descending(count))
            show(f"run, {count} targets, descending", ["run", file])
            show(f"profile, {count} targets, descending", ["profile", file, image])


def standing(report):
    """Where a run stood by its report: its position, and how many of its steps tasks took care of."""
    told = dict(line.rsplit(" ", 1) for line in Path(report).read_text().splitlines())
    return int(told["position"]), int(told["by-tasks"])


def committed_for_each(words, folder, window):
    """The host instructions of a run in rounds for each committed instruction. A run may pass its
    budget by a task, so the report tells how many there were."""
    report = os.path.join(folder, "report")
    counts = []
    for budget in window:
        host = host_instructions([*words, "--report", report, "--budget", str(budget)])
        counts.append((host, standing(report)[0]))
    (first, start), (last, end) = counts
    return (last - first) / (end - start)


def beside(binary, file, image, slaves):
    """The words of a run beside an image."""
    return [binary, "run", str(file), "--image", image, "--slaves", str(slaves)]


def idle_for_each(binary, folder):
    """The host instructions of a replay for each event that finds nothing to do."""
    program, image, events = (os.path.join(folder, name) for name in ("elf", "image", "events"))
    Path(program).write_bytes(program_of(LOOP))
    Path(image).write_bytes(loop_image())
    counts = []
    for count in WINDOW:
        Path(events).write_text(f"{count} commit\n")
        counts.append(host_instructions([binary, "replay", program, image, events], 0))
    return (counts[1] - counts[0]) / (WINDOW[1] - WINDOW[0])


def figures(binary):
    """Counts the figures one by one: name, host instructions."""
    files = {name: EXAMPLES / "bin" / f"{name}.elf" for name in PROGRAMS}
    for name, file in files.items():
        yield f"run {name}", for_each([binary, "run", str(file)])
        plain = other_engines().get("plain C")
        if plain:
            yield f"C interpreter {name}", for_each([*plain, str(file)])
    files["queens"] = EXAMPLES / "corpus" / "elf" / "queens.elf"
    with tempfile.TemporaryDirectory() as folder:
        yield "replay idle", idle_for_each(binary, folder)
        program, image = (os.path.join(folder, name) for name in ("elf", "image"))
        Path(program).write_bytes(program_of(PRINTING))
        Path(image).write_bytes(printing_image())
        yield ("run --image printing, slaves 4",
               committed_for_each(beside(binary, program, image, 4), folder, EARLIER))
        for name, file in files.items():
            profile, image = (os.path.join(folder, kind) for kind in ("profile", "distilled"))
            subprocess.run([binary, "profile", str(file), profile], check=True)
            subprocess.run([binary, "distill", str(file), profile, image], check=True)
            window = WINDOW if name in PROGRAMS else EARLIER
            for slaves in (4, 16, 64):
                yield (f"run --image {name}, slaves {slaves}",
                       committed_for_each(beside(binary, file, image, slaves), folder, window))


def long_programs():
    """The programs whose runs are long enough to adapt to: name, file, words for the input."""
    for name in PROGRAMS:
        yield name, EXAMPLES / "bin" / f"{name}.elf", []
    corpus = EXAMPLES / "corpus"
    for line in (corpus / "cases.txt").read_text().splitlines():
        case, program, given, _, steps = line.split("#")[0].split() or ["", "", "", "", 0]
        if int(steps) >= LONG:
            words = [] if given == "-" else ["--input", str(corpus / "in" / given)]
            yield case, corpus / "elf" / f"{program}.elf", words


def share_by_tasks(words, folder):
    """Of 100 steps that a run takes after the window began, how many tasks took care of."""
    report = os.path.join(folder, "report")
    stood = []
    for budget in (WINDOW[0], WHOLE):
        subprocess.run([*words, "--report", report, "--budget", str(budget)], stdin=subprocess.DEVNULL,
                       stdout=subprocess.DEVNULL, stderr=subprocess.DEVNULL)
        stood.append(standing(report))
    (start, before), (end, after) = stood
    return 100 * (after - before) / (end - start)


def show_adapting(binary):
    print("host instructions for each committed instruction, by callgrind; of 100 steps those by tasks")
    print(f"{'':16}" + "".join(f"{name:>12}" for name in ("run", "--image", "--adapt", "allowed", "--image", "--adapt")))
    with tempfile.TemporaryDirectory() as folder:
        profile, image = (os.path.join(folder, name) for name in ("profile", "image"))
        for name, file, given in long_programs():
            subprocess.run([binary, "profile", str(file), profile, *given], check=True)
            subprocess.run([binary, "distill", str(file), profile, image], check=True)
            run = for_each([binary, "run", str(file), *given])
            both = ([*beside(binary, file, image, 4), *given], [binary, "run", str(file), "--adapt", EVERY, *given])
            held, adapted = (committed_for_each(words, folder, WINDOW) for words in both)
            shares = "".join(f"{share_by_tasks(words, folder):12.2f}" for words in both)
            print(f"{name:16}{run:12.1f}{held:12.1f}{adapted:12.1f}{1.3 * held + 4 * run:12.1f}{shares}", flush=True)


def rows_of_the_map():
    """The numbers that docs/MAP.md gives: the first two cells of each row whose second is one."""
    rows = {}
    for line in (REPOSITORY / "docs" / "MAP.md").read_text().splitlines():
        cells = [cell.strip().replace("`", "") for cell in line.split("|")]
        if len(cells) > 3 and re.fullmatch(r"[0-9,]+(\.[0-9]+)?", cells[2]):
            rows.setdefault(cells[1], float(cells[2].replace(",", "")))
    return rows


def check_figures(binary):
    print("host instructions by callgrind, beside those of docs/MAP.md")
    rows, risen = rows_of_the_map(), False
    for name, found in figures(binary):
        told = rows.get(name)
        note = ""
        if name.startswith("C interpreter"):
            print(f"{name:32}{found:12.1f}", flush=True)
            continue
        if told is None:
            note, risen = "no row", True
        elif found > 1.05 * told:
            note, risen = "risen", True
        print(f"{name:32}{found:12.1f}{'' if told is None else told:>12}  {note}", flush=True)
    if risen:
        sys.exit("bench.py: a figure has risen by more than 5 in 100, or has no row in docs/MAP.md")


def profile_of(count, targets=()):
    """The profile of a line that was gone through once, where the last instruction went to these targets."""
    rows = b"".join(struct.pack("<IIQQI", 0x10000 + 4 * place, 0, 1, 0, 0) for place in range(count - 1))
    last = struct.pack("<IIQQI", 0x10000 + 4 * (count - 1), 0, 1, 0, len(targets)) + numbers(*targets)
    return struct.pack("<IIQII", 0x4650534D, 1, count, 0, count) + rows + last


FENCE, JUMP = 0x0000000F, 0x00028067  # JALR to x5


def line_of(count, last):
    """A line of so many instructions that ends with these."""
    return [FENCE] * (count - len(last)) + last


def show_masks(binary, runs):
    print(f"processor seconds, best of {runs} runs, and MB (load {os.getloadavg()[0]:.1f})")
    one = [store(4, 5, 0, 0)]
    waves = [store(4, register, 0, 0) for register in range(1, 32)]
    cases = []
    for count in (2_000, 32_000, 524_288):
        all_of_it = [0x10000 + 4 * place for place in range(count)]
        lines = (("one register", one, ()), ("31 registers", waves, ()), ("jump to all", [JUMP], all_of_it))
        cases += [(name, count, line_of(count, last), targets) for name, last, targets in lines]
    with tempfile.TemporaryDirectory() as folder:
        file, profile, image = (os.path.join(folder, name) for name in ("elf", "profile", "image"))
        for name, count, words, targets in cases:
            Path(file).write_bytes(program_of(words))
            Path(profile).write_bytes(profile_of(count, targets))
            found = [measured([binary, "distill", file, profile, image]) for _ in range(runs)]
            print(f"{f'distill {count}':16}{name:14}{min(found)[0]:14.3f}{max(m for _, m in found):10.1f}", flush=True)
    for size in (2_000, 10_000):
        found = [measured([binary, "trial", "1", str(size)]) for _ in range(runs)]
        print(f"{f'trial 1 {size}':30}{min(found)[0]:14.3f}{max(m for _, m in found):10.1f}", flush=True)


def main():
    parser = argparse.ArgumentParser(
        description=__doc__, formatter_class=argparse.RawDescriptionHelpFormatter)
    parser.add_argument("binary", metavar="BINARY", nargs="?", help="the mssp program",
                        default=REPOSITORY / "crates" / "mssp" / "out" / "mssp")
    parser.add_argument("--runs", metavar="N", type=int, default=3, help="runs of each program (3)")
    parser.add_argument("--callgrind", action="store_true", help="count host instructions too")
    parser.add_argument("--replay", action="store_true", help="time replays alone")
    parser.add_argument("--rounds", action="store_true", help="time runs beside an image alone")
    parser.add_argument("--distilling", action="store_true",
                        help="time profiles, distilling and checks alone")
    parser.add_argument("--hostile", action="store_true", help="time large files and wide programs alone")
    parser.add_argument("--figures", action="store_true",
                        help="count host instructions alone, and compare them with docs/MAP.md")
    parser.add_argument("--adapting", action="store_true", help="count host instructions of adaptive runs alone")
    parser.add_argument("--masks", action="store_true", help="time distilling of long lines, and trials, alone")
    words = parser.parse_args()
    if words.runs < 1:
        parser.error("--runs has to be at least 1")
    if not os.access(words.binary, os.X_OK) or os.path.isdir(words.binary):
        parser.error(f"{words.binary} is no program")
    if words.figures:
        if not shutil.which("valgrind"):
            sys.exit("bench.py: valgrind isn't installed")
        return check_figures(os.path.abspath(words.binary))
    if words.adapting:
        return show_adapting(os.path.abspath(words.binary))
    if words.replay:
        return show_replays(os.path.abspath(words.binary), words.runs)
    if words.hostile:
        return show_hostile(os.path.abspath(words.binary))
    if words.rounds:
        return show_rounds(os.path.abspath(words.binary), words.runs)
    if words.masks:
        return show_masks(os.path.abspath(words.binary), words.runs)
    programs = [Program(name) for name in PROGRAMS]
    if words.distilling and words.callgrind:
        return show_distilling_instructions(os.path.abspath(words.binary), programs)
    if words.distilling:
        return show_distilling(os.path.abspath(words.binary), programs, words.runs)
    for program in programs:
        if not program.is_counted():
            sys.exit(f"bench.py: {program.file} isn't the file whose instructions were counted; "
                     "take the committed one")

    engines = {"mssp": [os.path.abspath(words.binary), "run"], **other_engines()}
    show_speed(engines, programs, words.runs)
    if words.callgrind:
        if not shutil.which("valgrind"):
            sys.exit("bench.py: valgrind isn't installed")
        print()
        budgeted = {name: run for name, run in engines.items() if not name.startswith("qemu")}
        show_host_instructions(budgeted, programs)


main()
