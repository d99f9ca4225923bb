#!/usr/bin/env python3
"""Lists the libraries in crates.txt that the crate beside them never names.

A crate waits for each library that its line lists, and is proved again when one of them changes. So its line has just those that
its files name: by a path `library::` in code, or `Rattle.library.` in definitions and proofs. The exit status is 1 where a line has
another name. (One that is missing needs no check here: the compiler stops at it.)
"""

import re
import sys
from pathlib import Path

TOP = Path(__file__).resolve().parent.parent
NAMED = re.compile(r"\b([a-z][a-z0-9_]*)(?=::)|\bRattle\.([a-z][a-z0-9_]*)\b")


def listed(text: str) -> dict[str, list[str]]:
    """The libraries of each crate, by crates.txt."""
    lines = (line.split("#")[0].strip() for line in text.splitlines())
    parts = (line.split(":", 1) for line in lines if line)
    return {crate.split()[0]: libraries.split() for crate, libraries in parts}


def named(crate: str) -> set[str]:
    """Each word that stands where a crate's files name a library."""
    folder = TOP / "crates" / crate
    files = [f for part in ("src", "specs", "proofs") for f in (folder / part).rglob("*") if f.suffix in (".rt", ".antt")]
    return {code or cited for f in files for code, cited in NAMED.findall(f.read_text(encoding="utf-8"))}


def main() -> int:
    crates = listed((TOP / "crates.txt").read_text(encoding="utf-8"))
    needless = {crate: sorted(set(libraries) - named(crate)) for crate, libraries in crates.items()}
    for crate, libraries in needless.items():
        if libraries:
            print(f"{crate}: {' '.join(libraries)}")
    return 1 if any(needless.values()) else 0


if __name__ == "__main__":
    sys.exit(main())
