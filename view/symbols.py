"""Names for addresses: functions and data by the symbol table, lines of the source by the debug information, words of the
code as assembly. Each of them is told where it can be had, and what is missing is said in one line.

Symbols and lines need pyelftools. Assembly needs capstone 5, or the objdump of a toolchain for RISC-V; else words are shown.
"""
from __future__ import annotations

import shutil
import struct
import subprocess
import tempfile
from bisect import bisect_right
from dataclasses import dataclass, field
from pathlib import Path

from view.starts import code_parts

DUMPERS = ("riscv64-unknown-elf-objdump", "riscv32-unknown-elf-objdump", "riscv64-linux-gnu-objdump")


@dataclass
class Names:
    """What is known of a program's addresses. `remarks` has a line for each thing that is missing."""

    functions: list[tuple[int, int, str]] = field(default_factory=list)
    data: list[tuple[int, int, str]] = field(default_factory=list)
    sources: list[tuple[int, str]] = field(default_factory=list)
    remarks: list[str] = field(default_factory=list)
    parts: list[tuple[int, bytes]] = field(default_factory=list)

    def place(self, address: int) -> str:
        """The function and the line of the source, or the data, at an address; empty where unknown."""
        if not any(start <= address < start + len(part) for start, part in self.parts):
            return _within(self.data, address)
        at = bisect_right(self.sources, (address, "\uffff"))
        line = self.sources[at - 1][1] if at else ""
        return " ".join(part for part in (_within(self.functions, address), line) if part)

    def words(self, pc: int, count: int) -> list[str]:
        """So many words of the code from a pc on, as assembly where a disassembler is there."""
        for address, part in self.parts:
            if address <= pc < address + len(part):
                return _assembly(pc, part[pc - address : pc - address + 4 * count])
        return []


def _within(table: list[tuple[int, int, str]], address: int) -> str:
    """The name of the entry in which an address lies, with the distance from its start."""
    at = bisect_right(table, (address, 1 << 40, ""))
    if not at:
        return ""
    start, size, name = table[at - 1]
    if size and address >= start + size:
        return ""
    return name if address == start else f"{name}+{address - start}"


def _by_capstone(pc: int, code: bytes) -> list[str] | None:
    try:
        import capstone
    except ImportError:
        return None
    if not hasattr(capstone, "CS_ARCH_RISCV"):
        return None
    reader = capstone.Cs(capstone.CS_ARCH_RISCV, capstone.CS_MODE_RISCV32)
    return [f"{word.address:08x} {word.mnemonic} {word.op_str}".rstrip() for word in reader.disasm(code, pc)]


def _by_objdump(pc: int, code: bytes) -> list[str] | None:
    dumper = next((found for found in map(shutil.which, DUMPERS) if found), None)
    if dumper is None:
        return None
    with tempfile.NamedTemporaryFile() as file:
        file.write(code)
        file.flush()
        words = ["-D", "-b", "binary", "-m", "riscv:rv32", f"--adjust-vma={pc}", file.name]
        put = subprocess.run([dumper, *words], capture_output=True, text=True, check=False).stdout
    lines = [line.split("\t") for line in put.splitlines()]
    return [f"{int(line[0].strip(' :'), 16):08x} {' '.join(line[2:])}" for line in lines if len(line) > 2]


def _assembly(pc: int, code: bytes) -> list[str]:
    """The words of a piece of code, as assembly or else as they are."""
    told = _by_capstone(pc, code) or _by_objdump(pc, code)
    if told is not None:
        return told
    return [f"{pc + at:08x} {struct.unpack_from('<I', code, at)[0]:08x}" for at in range(0, len(code) - 3, 4)]


def _symbols(elf: object, names: Names) -> None:
    """Functions and data of the symbol table. Labels of assembly, which have no kind, count as functions in the code."""
    table = elf.get_section_by_name(".symtab")  # type: ignore[attr-defined]
    if table is None:
        names.remarks.append("no symbol table, so functions aren't named")
        return
    for symbol in table.iter_symbols():
        kind, address = symbol["st_info"]["type"], symbol["st_value"]
        if not symbol.name or symbol["st_shndx"] in ("SHN_UNDEF", "SHN_ABS") or symbol.name.startswith("$"):
            continue
        in_code = any(start <= address < start + len(part) for start, part in names.parts)
        if kind in ("STT_FUNC", "STT_NOTYPE") and in_code:
            names.functions.append((address, symbol["st_size"], symbol.name))
        elif kind == "STT_OBJECT" and symbol["st_size"]:
            names.data.append((address, symbol["st_size"], symbol.name))
    names.functions.sort()
    names.data.sort()


def _sources(elf: object, names: Names) -> None:
    """Where the debug information has a new line, by address."""
    if not elf.has_dwarf_info():  # type: ignore[attr-defined]
        return
    dwarf = elf.get_dwarf_info()  # type: ignore[attr-defined]
    for unit in dwarf.iter_CUs():
        program = dwarf.line_program_for_CU(unit)
        if program is None:
            continue
        files = program["file_entry"]
        first = 0 if program["version"] >= 5 else 1
        for entry in program.get_entries():
            state = entry.state
            if state is not None and state.end_sequence:
                names.sources.append((state.address, ""))
            elif state is not None and state.file - first < len(files):
                names.sources.append((state.address, f"{files[state.file - first].name.decode(errors='replace')}:{state.line}"))
    names.sources.sort()


def names_of(program: str) -> Names:
    """What is known of the addresses of an accepted program."""
    names = Names()
    try:
        names.parts = code_parts(Path(program).read_bytes())
    except (OSError, struct.error):
        return names
    try:
        from elftools.common.exceptions import ELFError
        from elftools.elf.elffile import ELFFile
    except ImportError:
        names.remarks.append("pyelftools is missing (Debian: python3-pyelftools), so functions and lines aren't told")
        return names
    with open(program, "rb") as file:
        try:
            elf = ELFFile(file)
            _symbols(elf, names)
            _sources(elf, names)
        except (ELFError, KeyError, ValueError) as error:
            names.remarks.append(f"the symbols can't be read ({error}), so functions and lines aren't told")
    return names
