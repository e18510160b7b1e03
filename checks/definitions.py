#!/usr/bin/env python3
"""Lists definitions of specs/ that a public contract cites and nothing explains, a line each.

A comment explains a definition, its own or that of its group (specs.py), and so does an entry of DEFINITIONS.md. A
contract is what `ensures` and `requires` say of a function that other crates can call: one that the crate's root exports, or
a method of a type or trait that it exports. A definition counts if its file is one of specs/: types that the source declares
have their docstrings. Names of DEFINITIONS.md that its files don't define are listed, too. Nothing is the right answer.
    checks/definitions.py       ends with status 1 where it lists a name
"""
import re
import sys

from specs import ROOT, all_definitions, book_entries

IMPORT = re.compile(r"ghost use Rattle\.(\w+)\.specs\.([\w.]+?)(?:\.\{([^}]*)\}| as (\w+));")
NESTED = re.compile(r"ghost use Rattle\.(\w+)\.specs\.\{((?:[^{};]|\{[^{}]*\})*)\};")
INNER = re.compile(r"([\w.]+)\.(\{[^}]*\})")
WORD = re.compile(r"[A-Za-z_][\w'-]*")


def flat(found):
    """A statement that brings in several modules of a crate, as a statement for each."""
    crate, modules = found.groups()
    return "\n".join(f"ghost use Rattle.{crate}.specs.{module}.{names};" for module, names in INNER.findall(modules))


def imported(text, ours):
    """The definitions of our crates that a file brings in, by name; modules brought in as a name."""
    names, modules = {}, {}
    text = NESTED.sub(flat, text)
    for crate, module, group, alias in IMPORT.findall(text):
        if crate not in ours or "declared" in module or "contracts" in module:
            continue
        if alias:
            modules[alias] = f"{crate}, {module}.antt"
        for item in group.split(","):
            if item.strip():
                real, _, other = item.strip().partition(" as ")
                names[other or real] = (real, f"{crate}, {module}.antt")
    return names, modules


def exports(crate):
    """What the crate's root exports: names, and the modules of which all is public."""
    root = crate / "src/lib.rt"
    text = root.read_text() if root.exists() else ""
    names = set()
    for group in re.findall(r"pub use ([^;]+);", text):
        names.update(WORD.findall(group))
    return names, set(re.findall(r"pub mod (\w+);", text))


def contracts(text, names, public):
    """The clauses of functions with these names, or of all if the module is public, and of methods of these types."""
    lines = text.splitlines()
    owner = None
    for start, line in enumerate(lines):
        block = re.match(r"(?:pub )?(?:impl|trait)(?:<[^>]*>)? (?:[\w:<>', ]+ for )?&?(?:'\w+ )?(\w+)", line)
        if block:
            owner = block.group(1)
        elif line == "}":
            owner = None
        function = re.match(r"\s*(pub )?(?:unsafe |extern \"C\" )*fn (\w+)", line)
        if not function:
            continue
        is_method = owner in names and (function.group(1) or "pub trait " + owner in text)
        is_free = owner is None and function.group(1) and (public or function.group(2) in names)
        if not (is_method or is_free or 'extern "C"' in line):
            continue
        clauses = []
        for later in lines[start:]:
            if later.strip() in ("{", "{}"):
                yield "\n".join(clauses)
                break
            if later.rstrip().endswith(" {") and not clauses and "ensures" not in later:
                break
            if clauses or re.match(r"\s*(ensures|requires)\b", later):
                clauses.append(later)


def cited():
    """The names that public contracts cite, each with the crate and the file that it is brought in from."""
    ours = {path.name for path in (ROOT / "crates").iterdir()}
    for path in sorted((ROOT / "crates").glob("*/src/**/*.rt")):
        text = path.read_text()
        names, modules = imported(text, ours)
        exported, public = exports(ROOT / "crates" / path.relative_to(ROOT / "crates").parts[0])
        for clause in contracts(text, exported, path.stem in public):
            clause = re.sub(r"\b(ensures|requires) [\w-]+ \{", r"\1 {", clause)
            for alias, name in re.findall(r"\b(\w+)\.(\w+)", clause):
                if alias in modules:
                    yield name, modules[alias]
            for word in WORD.findall(clause):
                if word in names:
                    yield names[word]


def main():
    places = {}
    for one in all_definitions():
        places.setdefault(one.name, []).append(one)
    entries, uses = list(book_entries()), set(cited())
    if not places or not entries or not uses:
        sys.exit("definitions.py: no definition, no entry or no contract was found")
    explained, wrong = set(), []
    for names, files, _ in entries:
        for name in names:
            found = [one for one in places.get(name, []) if any(map(one.stands_in, files))]
            explained.update((one.crate, one.file, name) for one in found)
            wrong += [] if found else [f"{name} (docs/proof/DEFINITIONS.md: not in {', '.join(files)})"]
    for name, where in uses:
        crate, file = where.split(", ")
        # a file can hand on what another file of its crate defines
        found = [one for one in places.get(name, []) if one.crate == crate]
        found = [one for one in found if one.file == file] or found
        if not any(one.comment or (one.crate, one.file, name) in explained for one in found):
            wrong.append(f"{name} ({where})")
    for line in sorted(wrong):
        print(line)
    sys.exit(1 if wrong else 0)


if __name__ == "__main__":
    main()
