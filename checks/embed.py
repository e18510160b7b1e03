#!/usr/bin/env python3
"""Checks that docs/EMBED.md shows lines of the program that it explains, and README.md those of docs/REPLICATE.md.

Each block of Rattle stands in crates/rb_threads/src/embedding.rt, line for line, each block of a proof in
crates/rb_threads/proofs/embedding/replicate/Invariants.antt, and each block of C of README.md in docs/REPLICATE.md. Prints
how many blocks stand there, and each first line of one that does not. Ends with status 1 if one does not, or if a kind of
block is missing.
"""
import pathlib
import re
import sys

top = pathlib.Path(__file__).resolve().parent.parent
crate = top / "crates/rb_threads"
files = {
    "rust": crate / "src/embedding.rt",
    "antt": crate / "proofs/embedding/replicate/Invariants.antt",
    "c": top / "docs/REPLICATE.md",
}
pages = (top / "docs/EMBED.md").read_text() + (top / "README.md").read_text()
blocks = re.findall(r"^```(\w+)\n(.*?)^```$", pages, re.M | re.S)
missing = [text for kind, text in blocks if f"\n{text}" not in "\n" + files[kind].read_text()]
for text in missing:
    print(f"embed.py: not in the program: {text.splitlines()[0].strip()}", file=sys.stderr)
print(f"{len(blocks) - len(missing)} of {len(blocks)} blocks stand where they are from")
sys.exit(1 if missing or {kind for kind, _ in blocks} != set(files) else 0)
