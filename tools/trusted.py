#!/usr/bin/env python3
"""The definitions that a reader of the headline has to read: trusted.py [--write]

Prints the files of specs/ to which public contracts come down, in the order in which to read them (each behind those that it names, crate by crate as in crates.txt),
with their lines and their first sentence, and on which of three lists each stands:

- A, what the agreement of an image with units stands on: `Agree` of cmm_compile;
- M, what the main law stands on: `exec_is_the_machine` of cmm_top_laws;
- the whole, what the contracts of the program (`cmm_main` of cmm_top, `run` of cmm), of the devices that it is over (the traits of cmm_outside) and all laws of
  cmm_top_laws stand on.

A list begins with what these clauses name, by the lines `ghost use` of their files, and goes on along the lines `use` of files. `--write` puts the numbers and the table
into docs/PROOFS.md, between their marks; tools/pages.py tests that they are those of today.
"""

import os
import re
import sys

TOP = os.path.dirname(os.path.dirname(os.path.abspath(__file__)))
PAGE = "docs/PROOFS.md"
NUMBERS = ("<!-- lines to read -->\n", "<!-- end of the lines -->\n")
MARKS = ("<!-- files of the headline -->\n", "<!-- end of the files -->\n")
IMPORT = re.compile(r"^(?:(?:ghost|pub) )?use Rattle\.([\w.]+?)(?:\.?\{([^}]*)\})?(?: as (\w+))?;?$", re.M)
# where a list begins: the heads of items, by file; None for all of a file
AGREE = {"crates/cmm_compile/specs/Agreement.antt": None}
MACHINE = {"crates/cmm_top_laws/specs/Laws.antt": ["abbrev pub ExecIsTheMachine "]}
WHOLE = {
    "crates/cmm_outside/src/storage.rt": ["pub trait Files "],
    "crates/cmm_outside/src/input.rt": ["pub trait Source "],
    "crates/cmm_outside/src/output.rt": ["pub trait Sink "],
    "crates/cmm_top/src/top.rt": ["pub fn cmm_main"],
    "crates/cmm_top_laws/src/accepted.rt": ["pub fn "],
    "crates/cmm_top_laws/src/laws.rt": ["pub fn "],
    "crates/cmm/src/main.rt": ["fn run"],
}


def text_of(path):
    with open(f"{TOP}/{path}", encoding="utf-8") as file:
        return file.read()


def file_of(module):
    """The file of a module of definitions, or of the type that it is declared by. There is none for the kit's."""
    crate, *names = module.split(".")
    if not os.path.isdir(f"{TOP}/crates/{crate}") or names[:1] != ["specs"]:
        return None
    folder, ending = ("src", "rt") if names[1:2] == ["declared"] else ("specs", "antt")
    names = names[2:] if folder == "src" else names[1:]
    for count in range(len(names), 0, -1):
        path = f"crates/{crate}/{folder}/{'/'.join(names[:count])}.{ending}"
        if os.path.isfile(f"{TOP}/{path}"):
            return path
    return f"crates/{crate}/src/lib.rt" if folder == "src" else None


def imports(path):
    """What a file imports: for each line the module, and the names by which the file knows what comes of it."""
    for module, names, alias in IMPORT.findall(text_of(path)):
        yield module, [alias or module.split(".")[-1]] if not names else [it.split(" as ")[-1].strip().strip("◌") for it in names.split(",")]


def items_of(path, heads):
    """The texts of the items of a file that begin so: each with the lines behind its head that are indented, are braces, or define it."""
    kept, found = False, []
    for line in text_of(path).splitlines():
        if line and not line[0].isspace() and line[0] not in "(){}":
            names = [head.split()[-1] for head in heads]
            kept = line.startswith(tuple(heads)) or kept and line.startswith(tuple(f"{it} " for it in names))
        if kept:
            found.append(line)
    return "\n".join(found)


def named_by(path, heads):
    """The modules that these items of a file name."""
    text = items_of(path, heads)
    for module, names in imports(path):
        if any(re.search(rf"(?<!\w){re.escape(it)}(?!\w)", text) for it in names):
            yield module


def files(*roots):
    """The files of definitions in the order of reading, from the items with these heads in these files, and those of the types that they name."""
    order, types, seen = [], set(), set()

    def follow(modules):
        for module in modules:
            found = file_of(module)
            if found and found.endswith(".rt"):
                types.add(found)
            elif found:
                visit(found)

    def visit(path):
        if path in seen:
            return
        seen.add(path)
        follow(module for module, _ in imports(path))
        order.append(path)

    for of in roots or (WHOLE,):
        for path, heads in of.items():
            if heads is None:
                visit(path)
            else:
                follow(named_by(path, heads))
                if path.endswith(".antt") and path not in seen:
                    seen.add(path)
                    order.append(path)
    crates = [line.split(":")[0] for line in text_of("crates.txt").splitlines() if re.match(r"[a-z]", line)]
    return sorted(order, key=lambda path: crates.index(path.split("/")[1])), sorted(types)


def sentence_of(path):
    """The first sentence of the comment at the head of a file."""
    lines = []
    for line in text_of(path).splitlines():
        if not line.startswith("--"):
            break
        lines.append(line.removeprefix("--").strip())
    found = re.match(r"(.*?[^ivx0-9]\.)(\s|$)", " ".join(lines))
    return (found[1] if found else " ".join(lines)).replace("|", "\\|")


def lines_in(paths):
    return sum(text_of(it).count("\n") for it in paths)


def numbers():
    """How much there is to read of each list."""
    for name, what, of in [
        ("A", "what it means that an image agrees with units (`Agree`)", (AGREE,)),
        ("M", "what `exec_is_the_machine` says", (MACHINE,)),
        ("the whole", "all that the contracts of `cmm_main` and `run`, of the devices and of the laws say", ()),
    ]:
        order, types = files(*of)
        yield f"- {name}, {what}: {len(order)} files, {lines_in(order):,} lines with their comments, and types in {len(types)} files of `src/`."


def table():
    order, _ = files()
    agree, machine = set(files(AGREE)[0]), set(files(MACHINE)[0])
    yield "| file | lines | list | what it says |"
    yield "|---|---|---|---|"
    for path in order:
        on = " ".join(name for name, its in (("A", agree), ("M", machine)) if path in its)
        yield f"| `{path}` | {lines_in([path])} | {on} | {sentence_of(path)} |"


def page_of(text):
    """The page with the numbers and the table of today."""
    for marks, lines in ((NUMBERS, numbers()), (MARKS, table())):
        before, _, rest = text.partition(marks[0])
        _, _, behind = rest.partition(marks[1])
        text = before + marks[0] + "\n".join(lines) + "\n" + marks[1] + behind
    return text


def main(words):
    if words == ["--write"]:
        text = page_of(text_of(PAGE))
        with open(f"{TOP}/{PAGE}", "w", encoding="utf-8") as file:
            file.write(text)
        return 0
    if words:
        print(__doc__)
        return 2
    print("\n".join([*numbers(), "", *table()]))
    return 0


if __name__ == "__main__":
    sys.exit(main(sys.argv[1:]))
