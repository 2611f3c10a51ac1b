#!/usr/bin/env python3
"""Tests that README.md and the pages of docs/ name what there is: pages.py

- Each crate of crates.txt has one row in the tables of crates of docs/ARCHITECTURE.md, those below "## Crates".
- Each public file of definitions, those of specs/ itself, stands in a row of its crate below "## Where definitions live", and each file
  that a row names is there.
- Each name between backticks stands in the tree: a crate, a path, `Module.definition` of a spec file, `crate::path::function`, an edit, and any word
  with an underscore in it. What looks like none of these is text, and is not tested; nor is what stands in an indented block.
- Each line of an excerpt, a block that begins with three backquotes, a language and a path, stands in that file, after the line before it; `..` stands
  for lines that are left out.
- The table of files of the headline is that of tools/trusted.py.

Each miss is printed with its file and line. The last line is `N passed, M failed`, and with a miss the exit status is 1.
"""

import os
import re
import sys

import trusted

TOP = os.path.dirname(os.path.dirname(os.path.abspath(__file__)))
MAP = "docs/ARCHITECTURE.md"
PAGES = ["README.md"] + sorted(f"docs/{it}" for it in os.listdir(f"{TOP}/docs") if it.endswith(".md"))
TREES = ["crates", "runtime", "tools", "bench", "examples", "edits", "rows", ".ci"]
MADE = ("out", "_prover")  # folders that builds make
HERE = os.path.relpath(os.path.abspath(__file__), TOP)
WORD = re.compile(r"[A-Za-z_][A-Za-z0-9_]*")
CRATE = re.compile(r"(cmm|rv)(_[a-z0-9]+)+|[a-z]+_(tests|rows)")
ENDINGS = ("antt", "rt", "py", "sh", "cmm", "script", "md", "txt", "edit", "toml")


def tree_files():
    """The paths of all files of the tree, from its top, but of what is built."""
    yield from PAGES[1:]
    yield from (it for it in os.listdir(TOP) if os.path.isfile(f"{TOP}/{it}"))
    for tree in TREES:
        for folder, inner, names in os.walk(f"{TOP}/{tree}"):
            inner[:] = [it for it in inner if it not in MADE]
            yield from (os.path.relpath(f"{folder}/{it}", TOP) for it in names)


def folders_of(paths):
    """The folders in which files with these paths stand, and those around them."""
    parts = [it.split("/") for it in paths]
    return {"/".join(it[:n]) for it in parts for n in range(1, len(it))}


def ends_of(paths):
    """The ends of paths from any of their folders on, with and without the ending of the file."""
    parts = [it.split("/") for it in paths]
    ends = {"/".join(it[n:]) for it in parts for n in range(len(it))}
    return ends | {re.sub(r"\.[a-z]+$", "", it) for it in ends}


def words_of(path):
    with open(f"{TOP}/{path}", encoding="utf-8", errors="replace") as file:
        return set(WORD.findall(file.read()))


def lines_of(page, heading=None):
    """The lines of a page by their numbers, or those below a heading up to the next of its height."""
    inside = heading is None
    with open(f"{TOP}/{page}", encoding="utf-8") as file:
        for number, line in enumerate(file, 1):
            if heading and line.startswith("## "):
                inside = line.strip() == heading
            if inside:
                yield number, line


class Tree:
    """What there is: crates, paths, and the words of sources, all together and file by file."""

    def __init__(self):
        with open(f"{TOP}/crates.txt", encoding="utf-8") as file:
            self.crates = [line.split(":")[0] for line in file if ":" in line and not line.startswith("#")]
        files = sorted(tree_files())
        self.ends = ends_of(files) | ends_of(folders_of(files))
        self.by_path = {it: words_of(it) for it in files if not it.endswith((".md", ".edit")) and it != HERE}
        edits = {os.path.splitext(os.path.basename(it))[0] for it in files if it.endswith(".edit")}
        self.words = edits.union(*self.by_path.values())
        self.modules = {}
        for path in self.by_path:
            name, ending = os.path.splitext(os.path.basename(path))
            if ending in (".antt", ".rt"):
                self.modules.setdefault(name, []).append(path)

    def has_path(self, name):
        """Whether a file or a folder has a path that ends so, its ending left out or not; `*` and NAME stand for any name."""
        name = name.rstrip("/")
        if "*" not in name and "NAME" not in name:
            return name in self.ends
        shape = re.compile(re.escape(name.replace("NAME", "*")).replace(r"\*", "[^/]*"))
        return any(shape.fullmatch(it) for it in self.ends)

    def has_definition(self, module, name):
        """Whether a source file of a module's name has the word, or the tree has both where no file is named so."""
        paths = self.modules.get(module)
        return any(name in self.by_path[it] for it in paths) if paths else {module, name} <= self.words

    def words_within(self, crate):
        return set().union(*(words for path, words in self.by_path.items() if path.startswith(f"crates/{crate}/")))

    def public_specs(self, crate):
        """The names of a crate's public files of definitions."""
        shape = re.compile(rf"crates/{crate}/specs/(\w+)\.antt")
        return {found[1] for found in map(shape.fullmatch, self.by_path) if found} - {"Lib", "formers", "inside"}


def fault_of(tree, name):
    """What is missing of a name between backticks, if it looks like a name of the tree."""
    within = re.fullmatch(r"((?:[\w-]+/)+([A-Z]\w*))\.(\w+)", name)
    path = re.fullmatch(r"\.?[A-Za-z_*][\w.*-]*(/[\w.*-]+)+/?", name) or re.fullmatch(r"[\w*-]+\.(%s)" % "|".join(ENDINGS), name)
    function = re.fullmatch(r"[a-z_]\w*(::\w+)+(\(\))?", name)
    definition = re.fullmatch(r"(?:inside\.)?([A-Z]\w*)((?:\.\w+)+)", name)
    if CRATE.fullmatch(name):
        return None if name in tree.crates or name in tree.words else "no such crate"
    if within and within[3] not in ENDINGS:
        return None if tree.has_path(within[1]) and tree.has_definition(within[2], within[3]) else "no such definition"
    if path:
        return None if tree.has_path(name) or name.split("/")[0] in MADE else "no such path"
    if function:
        words = WORD.findall(name)
        there = tree.words_within(words[0]) if words[0] in tree.crates else tree.words
        missing = [it for it in words[1:] if it not in there]
        return f"no {missing[0]}" if missing else None
    if definition:
        return None if all(tree.has_definition(definition[1], it) for it in definition[2][1:].split(".")) else "no such definition"
    if re.fullmatch(r"[A-Za-z_]\w*", name) and "_" in name.strip("_"):
        return None if name in tree.words else "no such name"
    return None


def names(tree):
    """Each name between backticks of each page, with what is missing of it."""
    for page in PAGES:
        for number, line in lines_of(page):
            for name in [] if line.startswith("    ") else re.findall(r"`([^`]+)`", line):
                fault = fault_of(tree, name)
                yield fault and f"{page}:{number}: `{name}`: {fault}"


def crates(tree):
    """Each crate, and each of the tables of crates, with how many rows it has there if that is wrong."""
    rows = [cell[1] for _, line in lines_of(MAP, "## Crates") for cell in [re.match(r"\| `(\w+)` \|", line)] if cell]
    for crate in tree.crates:
        yield rows.count(crate) != 1 and f"{MAP}: {crate} has {rows.count(crate)} rows in the tables of crates"
    for crate in dict.fromkeys(it for it in rows if it not in tree.crates):
        yield f"{MAP}: {crate} has a row in the tables of crates, and is none"


def definitions(tree):
    """Each file that the table of definitions names, and each public one that there is, with what is wrong."""
    told = {}
    for number, line in lines_of(MAP, "## Where definitions live"):
        cells = [it.strip() for it in line.split(" | ")]
        if not line.startswith("| ") or len(cells) < 3 or not cells[1].startswith("`"):
            continue
        crate = cells[1].strip("`")
        for name in re.findall(r"`((?:inside/)?[A-Z]\w*)`", cells[2]):
            told.setdefault(crate, set()).add(name)
            yield not tree.has_path(f"crates/{crate}/specs/{name}") and f"{MAP}:{number}: {crate} has no specs/{name}"
    for crate in tree.crates:
        for name in sorted(tree.public_specs(crate)):
            yield name not in told.get(crate, ()) and f"{MAP}: specs/{name} of {crate} stands in no row of definitions"


def excerpts():
    """Each line of each excerpt of the pages, with what is wrong if its file does not have it there."""
    for page in PAGES:
        path, there, at = None, [], 0
        for number, line in lines_of(page):
            opening = re.match(r"```\w+ (\S+)$", line)
            if line.startswith("```"):
                path, at = opening and opening[1], 0
                if path and not os.path.isfile(f"{TOP}/{path}"):
                    yield f"{page}:{number}: no file {path}"
                    path = None
                there = [it.rstrip() for _, it in lines_of(path)] if path else []
            elif path and line.strip() not in ("", ".."):
                found = line.rstrip() in there[at:]
                at = there.index(line.rstrip(), at) + 1 if found else at
                yield not found and f"{page}:{number}: {path} has no such line there"


def headline():
    """Whether the table of files of the headline is that of today."""
    text = trusted.text_of(trusted.PAGE)
    yield trusted.page_of(text) != text and f"{trusted.PAGE}: the files of the headline are others: tools/trusted.py --write"


def main():
    tree = Tree()
    faults = [*crates(tree), *definitions(tree), *names(tree), *excerpts(), *headline()]
    misses = [it for it in faults if it]
    for it in misses:
        print(it)
    print(f"{len(faults) - len(misses)} passed, {len(misses)} failed")
    return 1 if misses else 0


if __name__ == "__main__":
    sys.exit(main())
