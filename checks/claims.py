#!/usr/bin/env python3
"""Checks README.md, and PROVED.md, refusals.tsv and planted.tsv of docs/proof/, against the sources.

Of the two pages: each law that is named as `laws::NAME` is one of a crate of its section, or of any crate where the section
names none. Where clauses follow a function and a colon, the function has these.
Of refusals.tsv: each call is a public function of its crate, and each clause is one of its contract, where `result` is
the clause without a name. Each test is a function or a module of its crate. Each function with a contract that other crates
can call, and that returns a Result or an Option, has a row. A function counts if the crate's root exports it or its type, or
if C can call it. Laws don't count.
Of planted.tsv: each crate is there, and has one row.
    checks/claims.py            prints what is wrong, a line each, and ends with status 1 if there is anything
"""
import re
import sys
from pathlib import Path

ROOT = Path(__file__).resolve().parent.parent
WORD = re.compile(r"[A-Za-z_]\w*")
BLOCK = re.compile(r"(?:pub(?:\(\w+\))? )?(?:unsafe )?(impl|trait)\b(?:<.*?>)? (.*)")
FUNCTION = re.compile(r"\s*(pub(?:\(\w+\))? )?((?:unsafe |const |extern \"C\" )*)fn (\w+)")
CLAUSE = re.compile(r"\s*ensures\*?(?: (\w+))? \{")


class Function:
    """A function: its owner (a type, a trait or nothing), whether others can call it, what it returns, its clauses."""

    def __init__(self, owner, name, is_public, result, clauses):
        self.call = f"{owner}::{name}" if owner else name
        self.owner, self.name, self.is_public, self.result, self.clauses = owner, name, is_public, result, clauses


def owner_of(rest):
    """The type or the trait whose block this begins, and whether it implements a trait."""
    implements = re.search(r" for &?(?:'\w+ )?(\w+)", " " + rest)
    return (implements or re.match(r"&?(?:'\w+ )?(\w+)", rest)).group(1), bool(implements)


def functions(path):
    """All functions of a file that have a contract or are public."""
    lines = path.read_text().splitlines()
    owner, kind, implements = None, None, False
    for start, line in enumerate(lines):
        block = BLOCK.match(line)
        if block:
            kind, (owner, implements) = block.group(1), owner_of(block.group(2))
        elif line == "}":
            owner, kind, implements = None, None, False
        found = FUNCTION.match(line)
        if not found:
            continue
        head, clauses, in_head = [], [], True
        for later in lines[start:]:
            stripped = later.strip()
            clause = CLAUSE.match(later)
            if clause:
                clauses.append(clause.group(1) or "result")
            if clause or re.match(r"\s*(requires|where)\b", later):
                in_head = False
            if in_head and not stripped.startswith("//"):
                head.append(stripped)
            if stripped in ("{", "{}") or in_head and re.search(r"([;{]|\{\})$", stripped):
                break
            # a method of a trait ends its clauses by a semicolon
            if not in_head and kind == "trait" and stripped.endswith("};"):
                break
        result = re.search(r"\) -> (.*?)\s*(?:[;{]\s*\}?)?$", " ".join(head))
        is_public = found.group(1) == "pub " or kind == "trait" or 'extern "C"' in found.group(2)
        yield Function(owner, found.group(3), is_public and not implements, result.group(1) if result else "", clauses)


def exports(crate):
    """The names that the crate's root exports."""
    root = crate / "src/lib.rt"
    text = root.read_text() if root.exists() else ""
    return {name for group in re.findall(r"pub use ([^;]+);", text) for name in WORD.findall(group)}


def rows(name, columns):
    """The rows of a file of docs/proof/, without its comments and without the names of its columns."""
    lines = [line for line in (ROOT / "docs/proof" / name).read_text().splitlines() if not line.startswith("#")]
    for line in lines[1:]:
        cells = line.split("\t")
        if len(cells) != columns:
            sys.exit(f"claims.py: {name}: {len(cells)} cells, not {columns}: {line}")
        yield cells


def wrong_page(page, known, laws):
    """What is wrong in README.md or in PROVED.md."""
    for section in re.split(r"^## ", page.read_text(), flags=re.M):
        text = " ".join(section.split())
        crates = [crate for crate in WORD.findall(section.partition("\n")[0]) if crate in known] or list(known)
        for crate, law in re.findall(r"`(?:(\w+)::)?laws::(\w+)`", text):
            if not any(law in laws[one] for one in ([crate] if crate else crates)):
                yield f"{page.name}: no law {law}"
        for call, clauses in re.findall(r"`((?:\w+::)*\w+)`: ((?:`\w+`(?:, )?)+)", text):
            named = [f for crate in known for f in known[crate] if call in (f.call, f.name)]
            there = named + [laws[crate][name] for crate in laws for name in laws[crate] if call.endswith(f"laws::{name}")]
            for clause in re.findall(r"\w+", clauses):
                if call not in known and not any(clause in f.clauses for f in there):
                    yield f"{page.name}: {call} has no clause {clause}"


def wrong_refusals(known, exported):
    """What is wrong in refusals.tsv."""
    named = set()
    for crate, call, _, clauses, tests, _ in rows("refusals.tsv", 6):
        there = [f for f in known.get(crate, []) if f.call == call and f.is_public]
        if (crate, call) in named:
            yield f"{crate}: {call} has two rows"
        named.add((crate, call))
        if not there:
            yield f"{crate}: no public function {call}"
            continue
        for clause in clauses.split():
            if clause not in there[0].clauses:
                yield f"{crate}: {call} has no clause {clause}"
        for test in re.findall(r"(\w+)::(\w+)", tests):
            sources = (ROOT / "crates" / test[0] / "src").glob("**/*.rt")
            if not any(re.search(rf"\b(fn|mod) {test[1]}\b", path.read_text()) for path in sources):
                yield f"{crate}: {call}: no test {test[0]}::{test[1]}"
    for crate, found in known.items():
        for f in found:
            can_refuse = re.match(r"(io::)?(Result|Option)<", f.result) and f.clauses
            if f.is_public and can_refuse and (f.owner or f.name) in exported[crate] and (crate, f.call) not in named:
                yield f"{crate}: {f.call} has no row"


def wrong_planted():
    """What is wrong in planted.tsv."""
    named = set()
    for crate, _, _, _, _ in rows("planted.tsv", 5):
        if not (ROOT / "crates" / crate).is_dir():
            yield f"planted.tsv: no crate {crate}"
        if crate in named:
            yield f"planted.tsv: {crate} has two rows"
        named.add(crate)


def main():
    known, exported, laws = {}, {}, {}
    for crate in sorted(path for path in (ROOT / "crates").iterdir() if (path / "src").is_dir()):
        found = {path: list(functions(path)) for path in sorted(crate.glob("src/**/*.rt"))}
        known[crate.name] = [f for path in found if path.stem not in ("laws", "courses") for f in found[path]]
        laws[crate.name] = {f.name: f for path in found if path.stem == "laws" for f in found[path]}
        exported[crate.name] = exports(crate)
    if not any(known.values()) or not list(rows("refusals.tsv", 6)) or not list(rows("planted.tsv", 5)):
        sys.exit("claims.py: no function or no row was found")
    pages = [ROOT / "README.md", ROOT / "docs/proof/PROVED.md"]
    wrong = [line for page in pages for line in wrong_page(page, known, laws)]
    wrong += [*wrong_refusals(known, exported), *wrong_planted()]
    for line in wrong:
        print(f"claims.py: {line}", file=sys.stderr)
    sys.exit(1 if wrong else 0)


main()
