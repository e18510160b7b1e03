#!/usr/bin/env python3
"""Reads the definitions of crates/*/specs, and prints them: sh docs/proof/definitions.sh [NAME|CRATE]

A comment stands directly above its definition. The definitions after it share it, up to the next comment, unless it is that
of a record or of data: they are the parts of the last one, or variants of one thing.
"""
import re
import signal
import sys
import textwrap
from dataclasses import dataclass
from pathlib import Path

ROOT = Path(__file__).resolve().parent.parent
BOOK = ROOT / "docs/proof/DEFINITIONS.md"
# a definition begins: its keywords, and its name with parameters or with a type
START = re.compile(r"( *)(?:(?:abbrev|unfoldable|pub) )*(?:(?:record|data) (\S+) |([^\s:({]+) :(?: |$))")
# a comment that goes on from the one before it
GOES_ON = re.compile(r"([Tt]he same|[Tt]hose|[Oo]f (a|the)|[Ii]ts)\b")
# an entry of docs/proof/DEFINITIONS.md
ENTRY = re.compile(r"- (\*[^(]*) \(([^)]*)\): (.*)")
ITALIC = re.compile(r"\*(\S+?)\*")


@dataclass
class Definition:
    crate: str
    file: str
    line: int
    name: str
    comment: str
    group: list  # the names of the definitions that share the comment
    before: str  # the comment that this one goes on from
    part: str  # what heads this part of the file, or without a comment the file
    type: str

    def stands_in(self, place):
        """Whether this is its file, as docs/proof/DEFINITIONS.md names one."""
        return place == f"{self.crate}/{self.file}"


def comment_above(lines, at, indent):
    """The lines of the comment directly above a line."""
    first = at
    while first > 0 and lines[first - 1].startswith(indent + "--"):
        first -= 1
    return [line.strip().removeprefix("--").strip() for line in lines[first:at]]


def type_at(lines, at, indent):
    """From the keywords to the end of the type, as one line."""
    parts = [lines[at].strip()]
    for line in lines[at + 1:]:
        if parts[-1].endswith(" where") or not line.startswith(indent + "  "):
            break
        parts.append(line.strip())
    return " ".join(parts).removesuffix(" where")


def definitions_in(path):
    """The definitions of a file, in its order."""
    lines = path.read_text().splitlines()
    head = next((at for at, line in enumerate(lines) if not line.startswith("--")), 0)
    head = " ".join(comment_above(lines, head, ""))
    comment = before = last = part = inner = ""
    group, of_type = [], False
    for at, line in enumerate(lines):
        if line.startswith("module _"):
            inner = "  "
        if line.startswith(("--", inner + "--")):
            comment, before, group = "", "", []
        above = comment_above(lines, at, inner) or comment_above(lines, at, "")
        if above and above[0].startswith("----") and not line.startswith(inner + "--"):
            part, last = " ".join(above).strip("- "), ""
        found = START.match(line)
        if not found or found[1] not in ("", inner):
            continue
        if above and not above[0].startswith("----"):
            comment, group = "\n".join(above), []
            before = last if GOES_ON.match(comment) else ""
        elif of_type:
            comment, before, group = "", "", []
        of_type = bool(found[2])
        if comment:
            last = f"{before}\n{comment}".strip()
        group.append(found[2] or found[3])
        yield Definition(path.parent.parent.name, path.name, at + 1, group[-1], comment, group, before,
                         part or ("" if comment else head), type_at(lines, at, found[1]))


def all_definitions():
    return [one for path in sorted((ROOT / "crates").glob("*/specs/*.antt")) for one in definitions_in(path)]


def book_entries():
    """The entries of docs/proof/DEFINITIONS.md: the names, the places as CRATE/FILE, and the text."""
    crate, text = "", ""
    for line in BOOK.read_text().splitlines() + [""]:
        if text and line.startswith("  "):
            text += " " + line.strip()
            continue
        found = ENTRY.match(text)
        if found:
            files = [file if "/" in file else f"{crate}/{file}" for file in found[2].split(", ")]
            yield ITALIC.findall(found[1]), files, found[3]
        text = line if line.startswith("- *") else ""
        if line.startswith("## "):
            crate = line.rpartition("(")[2].strip(")")


def filled(text, indent):
    return textwrap.fill(text, 100, initial_indent=indent, subsequent_indent=indent, break_long_words=False,
                         break_on_hyphens=False)


def show(one, entries):
    print(f"crates/{one.crate}/specs/{one.file}:{one.line}: {one.name}")
    if one.part:
        print(filled(f"(part: {one.part})", "    "))
    if one.before:
        print(filled(f"(It goes on from: {one.before})", "    "))
    if one.comment:
        print(textwrap.indent(one.comment, "    "))
    others = [name for name in one.group if name != one.name]
    if one.comment and others:
        print(filled(f"(also the comment of {', '.join(others)})", "    "))
    print(filled(one.type, "    "))
    for names, files, text in entries:
        if one.name in names and any(map(one.stands_in, files)):
            print(filled("In docs/proof/DEFINITIONS.md: " + text, "    "))
    print()


def main():
    signal.signal(signal.SIGPIPE, signal.SIG_DFL)
    if len(sys.argv) > 2:
        sys.exit("usage: sh docs/proof/definitions.sh [NAME|CRATE]")
    found = all_definitions()
    if not found:
        sys.exit("definitions.sh: no definition was found")
    asked = sys.argv[1:]
    if asked:
        found = [one for one in found if one.crate in asked or one.name in asked]
        if not found:
            sys.exit(f"definitions.sh: {asked[0]} is neither a definition nor a crate that has some")
    entries = list(book_entries())
    for one in found:
        show(one, entries)


if __name__ == "__main__":
    main()
