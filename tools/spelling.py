#!/usr/bin/env python3
"""Brings the definitions and lemmas of this repository to snake case, by the table in spelling.txt: a line for each name, old and new.

Run once at the top, after the toolchain's own script for older repositories. It turns names in .rt files (outside strings) and .antt files."""
import pathlib
import re

TOP = pathlib.Path(__file__).resolve().parent.parent
TABLE = dict(line.split() for line in (TOP / "tools" / "spelling.txt").read_text().splitlines())
# A word of a definition or a proof: all that stands between spaces, brackets, dots and quotes.
WORD = re.compile(r"[^\s(){}\[\].;,:\"`|\\«»]+")
STRING = re.compile(r'("(?:\\.|[^"\\\n])*")')


def turned(text):
    return WORD.sub(lambda m: TABLE.get(m.group(0), m.group(0)), text)


def main():
    for path in sorted((TOP / "crates").rglob("*")):
        if path.suffix not in (".rt", ".antt") or "out" in path.parts:
            continue
        text = path.read_text()
        parts = STRING.split(text) if path.suffix == ".rt" else [text]
        new = "".join(part if k % 2 else turned(part) for k, part in enumerate(parts))
        if new != text:
            path.write_text(new)


main()
