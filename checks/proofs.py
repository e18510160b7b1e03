#!/usr/bin/env python3
"""Lists where each proof stands, of all crates or of those that are named.

    python3 checks/proofs.py [CRATE..]

For each crate:
- the laws, each with the first sentence of its docstring; after `from` the laws that it calls, after `by` the lemma
  files that its answers cite;
- the other functions whose answers or invariants cite lemma files, with these;
- the lemma files by folder, each with the first sentence of the comment on its top.
A lemma file of another crate stands as CRATE::FILE. Where no lemma file stands, search proves, or answers that cite none.
A law without a docstring or a lemma file without a comment is an error, and so is a crate that isn't there.
"""
import pathlib
import re
import signal
import sys

crates = pathlib.Path(__file__).resolve().parent.parent / "crates"
# what stands in the folder of a function: each other file of proofs/ is a lemma file, or the index of some
answers = ["Answers.antt", "Invariants.antt", "Proof.antt", "Send.antt", "Sync.antt"]
failed = False
signal.signal(signal.SIGPIPE, signal.SIG_DFL)  # `| head` ends it


def missing(path, what):
    global failed
    failed = True
    print(f"proofs.py: {path.relative_to(crates.parent)}: {what}", file=sys.stderr)


def sentence(lines):
    return re.split(r"(?<=[.!?]) ", " ".join(lines))[0]


def top(path):
    """The first sentence of the comment on a file's top."""
    lines = []
    for line in path.read_text().splitlines():
        if not line.startswith("--"):
            break
        lines.append(line[2:].strip())
    if not lines:
        missing(path, "no comment on its top")
    return sentence(lines)


def cited(crate, folder):
    """The lemma files that the answers in this folder cite, in their order."""
    files = {}
    for path in [folder / name for name in answers if (folder / name).exists()]:
        for other, module in re.findall(r"^use Rattle\.(\w+)\.proofs\.([\w.]*\w)", path.read_text(), re.M):
            file = module.replace(".", "/")
            if (crates / other / "proofs" / f"{file}.antt").exists():
                files[file if other == crate.name else f"{other}::{file}"] = None
    return ", ".join(files)


def show(title, rows):
    """A title and its rows: of each its name, a text, and lines under it."""
    if rows:
        print(f"  {title}")
    width = min(40, max((len(row[0]) for row in rows), default=0))
    for name, text, *more in rows:
        print(f"    {name:<{width}}  {text}")
        for line in more:
            print(f"        {line}")


def laws(crate, module):
    """The public functions of a module, each with what stands above it and what its body calls."""
    source = crate / "src" / f"{module}.rt"
    rows, docs, name, calls = [], [], None, []
    for line in source.read_text().splitlines() if source.exists() else []:
        if line.startswith("///"):
            docs.append(line[3:].strip())
        elif found := re.match(r"pub fn (\w+)", line):
            name, calls = found[1], []
        elif name and (found := re.fullmatch(r" +([\w:]+)\(\);", line)):
            calls.append(found[1])
        elif line == "}" or line.endswith("{}"):
            if name:
                if not docs:
                    missing(source, f"the law {name} has no docstring")
                by = cited(crate, crate / "proofs" / module / name)
                more = (["from " + ", ".join(calls)] if calls else []) + (["by " + by] if by else [])
                rows.append((name, sentence(docs), *more))
            docs, name = [], None
    return rows


def functions(crate, listed):
    rows = []
    for folder in sorted({path.parent for path in crate.glob("proofs/**/*.antt") if path.name in answers}):
        place = folder.relative_to(crate / "proofs").parts
        by = cited(crate, folder)
        if by and place not in listed:
            rows.append(("::".join(place), by))
    return rows


def lemmas(crate):
    """The lemma files of each folder, under the folder's name and the comment of its index."""
    folders = {}
    for path in sorted(crate.glob("proofs/**/*.antt")):
        if path.name not in answers and path.name != "Lib.antt" and not path.with_suffix("").is_dir():
            folders.setdefault(path.parent, []).append((path.stem, top(path)))
    for folder, rows in folders.items():
        title = folder.relative_to(crate).as_posix() + "/"
        if folder != crate / "proofs":
            title += "  " + top(folder.with_suffix(".antt"))
        show(title, rows)


for name in sys.argv[1:] or sorted(path.name for path in crates.glob("*")):
    crate = crates / name
    if not (crate / "src").exists():
        sys.exit(f"proofs.py: no crate {name}")
    print(name)
    listed = set()
    for module in "laws", "courses":
        if module == "laws" or (crate / "proofs/courses").exists():
            rows = laws(crate, module)
            show(f"src/{module}.rt", rows)
            listed |= {(module, row[0]) for row in rows}
    show("functions", functions(crate, listed))
    lemmas(crate)
sys.exit(1 if failed else 0)
