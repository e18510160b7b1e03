#!/usr/bin/env python3
"""Checks that what the pages name is there: links, paths of the repository, and sections.

In each page (*.md) that git has:
- A relative link leads to a file or folder of git, and its `#anchor` is a heading there.
- A word that begins with a folder of the top, such as keeper/build.sh, is a file or folder of git. `*` and words in
  capitals such as NAME stand for anything. What a command makes below an `out` folder isn't looked for.
- Between backquotes, any other path, and the name of a source file, ends the path of a file or folder of git. A module of
  Rattle may be named without its ending.
- Where a section stands after the page's name, as in "(docs/C.md, Install)", the page has that heading.
In each other file outside crates/: a page of docs/ that it names is there.
    checks/links.py         prints what is missing, a line each, and ends with status 1 if there is anything
"""
import fnmatch
import re
import subprocess
import sys
from pathlib import Path, PurePosixPath

ROOT = Path(__file__).resolve().parent.parent
FENCE = re.compile(r"^```.*?^```$", re.M | re.S)
LINK = re.compile(r"\]\(([^)\s]+)\)")
CODE = re.compile(r"`([^`\n]+)`")
PATH = re.compile(r"(?<![\w./:*'-])[\w*][\w.*-]+(?:/[\w.*-]+)*/?")
SECTION = re.compile(r"([\w/]+\.md)(?:, | \()\"?([A-Z][^\")\n.]*?)\"?\)")
SOURCE = re.compile(r"\.(md|py|sh|c|h|rs|rt|antt|tsv|csv|svg|edits)$")
CAPITALS = re.compile(r"\b[A-Z]{2,}\b(?!\.md)")
# files of an installed release, of SQLite, and of the reader's own program
OTHERS = re.compile(r"(bin|lib|share|dist|PREFIX|FOLDER|include/gubzelk)(/|$)|(app|check|sqlite3session)\.c$")


def anchors(page):
    """The anchors of a page's headings, as GitHub makes them, and the headings."""
    heads = re.findall(r"^#+ (.*)$", FENCE.sub("", page.read_text()), re.M)
    made = {}
    for head in heads:
        slug = re.sub(r"[^\w\- ]", "", head.lower()).replace(" ", "-")
        made[slug] = made.get(slug, -1) + 1
    return {f"{slug}-{n}" if n else slug for slug, last in made.items() for n in range(last + 1)}, set(heads)


class Tree:
    """The files that git has, and their folders."""

    def __init__(self):
        listed = subprocess.run(["git", "-C", ROOT, "ls-files"], check=True, stdout=subprocess.PIPE, text=True).stdout
        self.files = [name for name in listed.splitlines() if (ROOT / name).exists()]
        folders = {str(folder) for name in self.files for folder in PurePosixPath(name).parents} - {"."}
        self.names = set(self.files) | folders
        self.tops = {name for name in folders if "/" not in name}
        self.ends = {name[at.end():] for name in self.names for at in re.finditer("^|/", name)}

    def has(self, path, names):
        path = re.sub(r"/out(/.*)?$", "", path.rstrip("/."))
        if path in names or any(path + ending in names for ending in (".rt", ".antt")):
            return True
        pattern = CAPITALS.sub("*", path)
        return "*" in pattern and any(fnmatch.fnmatchcase(name, pattern) for name in names)


def missing(page, tree):
    """What a page names and the tree doesn't have."""
    text, folder = (ROOT / page).read_text(), PurePosixPath(page).parent
    for target in LINK.findall(CODE.sub("", FENCE.sub("", text))):
        path, _, anchor = target.partition("#")
        if ":" in target:
            continue
        there = Path(ROOT / folder / path).resolve() if path else ROOT / page
        if not there.exists() or str(there.relative_to(ROOT)) not in tree.names:
            yield f"no {target}"
        elif anchor and anchor not in anchors(there)[0]:
            yield f"no heading for {target}"
    paths = [word for word in PATH.findall(text) if "/" in word and word.partition("/")[0] in tree.tops]
    coded = [word for code in CODE.findall(FENCE.sub("", text)) for word in PATH.findall(code)]
    for word in paths + [word for word in coded if word not in paths and ("/" in word or SOURCE.search(word))]:
        names = tree.names if word in paths else tree.ends
        if not OTHERS.match(word) and not tree.has(word, names) and not tree.has(f"{folder}/{word}", tree.names):
            yield f"no {word}"
    for name, head in SECTION.findall(" ".join(text.split())):
        pages = [each for each in tree.files if each == name or each == str(folder / name)]
        if pages and head not in anchors(ROOT / pages[0])[1]:
            yield f"{name} has no heading {head}"


def main():
    tree = Tree()
    pages = [name for name in tree.files if name.endswith(".md")] or sys.exit("links.py: no page was found")
    wrong = [f"{page}: {what}" for page in pages for what in dict.fromkeys(missing(page, tree))]
    for name in tree.files:
        if not name.startswith("crates/") and name not in pages:
            named = re.findall(r"(?<![\w/])docs/[\w/]+\.md", (ROOT / name).read_bytes().decode(errors="replace"))
            wrong += [f"{name}: no {page}" for page in dict.fromkeys(named) if page not in tree.names]
    for line in wrong:
        print(f"links.py: {line}", file=sys.stderr)
    sys.exit(1 if wrong else 0)


main()
