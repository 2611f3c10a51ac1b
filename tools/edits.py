#!/usr/bin/env python3
"""Tries the edits of crates that the prover must refuse, those that `rt ci` tries and those of edits/: edits.py [NAME..]
or edits.py --since REF [--minutes N] [--gated]

`rt ci` proves a crate once more before the first of its edits, so it tries those of light crates alone, and of those that keep what the top call promises;
docs/CONTRIBUTING.md ("Must-fail edits and tests") says which, and edits/NAME/ holds the others. One with a line `# above: CRATE` turns a definition that no proof of its own crate
computes: it is tried by a proof of that crate, whose worked rows must refuse it. With names, each edit of these crates is tried, over what
earlier checks have kept: minutes for a light crate, most of an hour for the parser. Without a name nothing is tried: each edit of edits/ must still apply to
its crate, and must stand there once.

With --since the crates are those whose own sources, definitions, proofs or edits differ from REF, in the order of their proofs by the table of
docs/CONTRIBUTING.md, the lightest first, for N minutes in all (20 where they are not given); what is left then is named, and fails nothing. With --gated
`rt ci` has just tried those of must-fail/, so that only those aside are tried. The line of each edit names the clause or the place that the prover refuses:
where that is no clause of the function that the edit turns, but a bound of a slice or an overflow, it says little of the contract, and the edit is written
anew; a line says so where the goal that is named is one of those. The last line is `N passed, M failed`.
"""

import argparse
import os
import re
import shutil
import signal
import subprocess
import sys
import tempfile
import time

TOP = os.path.dirname(os.path.dirname(os.path.abspath(__file__)))
# Goals that are of no clause: sums that wrap, places outside a slice, casts that lose bits, zero divisors, and what does not end.
SAFETY = re.compile(r"as it must be: .*`(overflow|index|slice|cast|divide|division|decreases)[\w-]*`")


def edits_of(folder):
    return sorted(it for it in os.listdir(folder) if it.endswith(".edit")) if os.path.isdir(folder) else []


def crate_above(edit):
    """The crate above whose proofs must refuse an edit, if it is not its own crate that must."""
    with open(edit, encoding="utf-8") as file:
        found = re.search(r"^# above: (\w+)$", file.read(), re.M)
    return found and found.group(1)


def edited(edit, crate):
    """The texts of the files that an edit changes, by their paths in its crate, and why it cannot be applied, if it cannot: each of its old texts stands once in its file."""
    texts, path, replaced = {}, "", 0
    with open(edit, encoding="utf-8") as file:
        lines = file.read().split("\n")
    for line in lines:
        word, _, rest = line.partition(": ")
        if word == "file":
            path = rest.strip()
            if not os.path.isfile(f"{crate}/{path}"):
                return {}, f"there is no {path}"
            if path not in texts:
                with open(f"{crate}/{path}", encoding="utf-8") as file:
                    texts[path] = file.read()
        elif word == "old":
            old = rest
            if texts[path].count(old) != 1:
                return {}, f"{path} has {old!r} {texts[path].count(old)} times"
        elif line.startswith("new:"):
            texts[path] = texts[path].replace(old, line[len("new:") :].removeprefix(" "))
            replaced += 1
    return texts, None if replaced else "it replaces nothing"


def look():
    """Whether each edit that stands aside applies, and no other has its name."""
    passed, failed = 0, 0
    for name in sorted(os.listdir(f"{TOP}/edits")):
        crate = f"{TOP}/crates/{name}"
        for edit in edits_of(f"{TOP}/edits/{name}"):
            twice = os.path.exists(f"{crate}/must-fail/{edit}")
            why = "must-fail/ has one of this name" if twice else edited(f"{TOP}/edits/{name}/{edit}", crate)[1]
            if why:
                print(f"edits/{name}/{edit}: {why}")
            passed, failed = passed + (not why), failed + bool(why)
    print(f"{passed} passed, {failed} failed")
    return failed


def linked(source, target):
    """A second name of the file where the disk allows one, and else a copy: what checks have kept is large, and never written in place."""
    try:
        os.link(source, target)
    except OSError:
        shutil.copy2(source, target)


def repository_with(room, names, gated):
    """A copy of the repository where all edits of the crates are tried by `rt must-fail`, or those aside alone."""
    copy = f"{room}/repository"
    shutil.copytree(TOP, copy, copy_function=linked, ignore=shutil.ignore_patterns(".git"))
    for name in names:
        to = f"{copy}/crates/{name}/must-fail"
        if gated:
            shutil.rmtree(to, ignore_errors=True)
        os.makedirs(to, exist_ok=True)
        for edit in edits_of(f"{TOP}/edits/{name}"):
            if not crate_above(f"{TOP}/edits/{name}/{edit}"):
                shutil.copy2(f"{TOP}/edits/{name}/{edit}", f"{to}/{edit}")
    return copy


def said_by(words, copy, seconds=None):
    """What a call of rt in a copy says, and whether it came to its end within the seconds."""
    ran = subprocess.Popen(
        ["rt", *words], cwd=copy, stdin=subprocess.DEVNULL, stdout=subprocess.PIPE, stderr=subprocess.STDOUT, text=True, errors="replace", start_new_session=True
    )
    try:
        return ran.communicate(timeout=seconds)[0], True
    except subprocess.TimeoutExpired:
        os.killpg(ran.pid, signal.SIGTERM)
        return ran.communicate()[0], False


def tried(copy, names, seconds=None):
    """What `rt must-fail` says of each edit of these crates in a copy, and whether it came to its end within the seconds."""
    said, ended = said_by(["must-fail", *names], copy, seconds)
    told = [it.removeprefix("rt: ") for it in said.split("\n") if re.search(r"must-fail \w+/\S+\.edit: ", it)]
    return (told, ended) if told or not ended else ([f"{' '.join(names)}: {said}"], ended)


def tried_above(copy, name, until=None):
    """What a proof of the crate above says of each edit of this one that is tried there, and whether that came to its end by then. Those that its own crate
    must refuse have been tried, and are gone from the copy."""
    told = []
    shutil.rmtree(f"{copy}/crates/{name}/must-fail", ignore_errors=True)
    for edit in edits_of(f"{TOP}/edits/{name}"):
        above = crate_above(f"{TOP}/edits/{name}/{edit}")
        if not above:
            continue
        left = until and until - time.monotonic()
        if left and left < 0:
            return told, False
        texts, _ = edited(f"{TOP}/edits/{name}/{edit}", f"{copy}/crates/{name}")
        for path, text in texts.items():
            write_anew(f"{copy}/crates/{name}/{path}", text)
        said, ended = said_by(["ci", above], copy, left)
        for path in texts:
            with open(f"{TOP}/crates/{name}/{path}", encoding="utf-8") as file:
                write_anew(f"{copy}/crates/{name}/{path}", file.read())
        if not ended:
            return told, False
        # (its own crate is proved with it, so that what is refused is what the rows say)
        is_refused = re.search(rf"^rt: {name} (proved$|is kept)", said, re.M) and re.search(rf"^rt: {above} NOT PROVED$", said, re.M)
        place = re.search(r"^\S*proofs/\S+: error: .*", said, re.M)
        how = f"refused, as it must be, by {above}: {place.group()}" if is_refused and place else f"not refused by {above}"
        told.append(f"must-fail {name}/{edit}: {how}")
    return told, True


def write_anew(path, text):
    """Writes a file of a copy, which may share its room with the one that it is a copy of."""
    os.remove(path)
    with open(path, "w", encoding="utf-8") as file:
        file.write(text)


def attempt(names):
    """How many edits of the crates the prover does not refuse."""
    with tempfile.TemporaryDirectory(prefix="edits-") as room:
        copy = repository_with(room, names, gated=False)
        told, _ = tried(copy, names)
        told += [line for name in names for line in tried_above(copy, name)[0]]
    return count(told)


def count(told):
    """Prints the lines of edits, which of them are refused for safety alone, and how many are refused. Gives how many are not."""
    refused = [it for it in told if ": refused, as it must be" in it]
    for line in told:
        print(line)
    for line in filter(SAFETY.search, refused):
        print(f"to be written anew, since no clause refuses it: {line.split(': ')[0]}")
    print(f"{len(refused)} passed, {len(told) - len(refused)} failed")
    return len(told) - len(refused)


def changed_since(ref):
    """The crates whose sources, definitions, proofs or edits differ from a commit, those with the lightest proof first."""
    ran = subprocess.run(["git", "diff", "--name-status", "-M", ref, "--", "crates", "edits"], cwd=TOP, stdout=subprocess.PIPE, text=True, check=True)
    # (an edit that only stands elsewhere is the same edit)
    paths = "\n".join(path for line in ran.stdout.split("\n") if not re.fullmatch(r"R100\t.*\.edit", line) for path in line.split("\t")[1:])
    found = re.findall(r"^(?:crates/(\w+)/(?:src|specs|proofs|must-fail)|edits/(\w+))/", paths, re.M)
    names = {one or other for one, other in found}
    names |= {it for it in os.listdir(f"{TOP}/edits") if any(crate_above(f"{TOP}/edits/{it}/{edit}") in names for edit in edits_of(f"{TOP}/edits/{it}"))}
    with open(f"{TOP}/docs/CONTRIBUTING.md", encoding="utf-8") as page:
        minutes = dict(re.findall(r"^\| `(\w+)` \| ([\d.]+) \|", page.read(), re.M))
    return sorted((it for it in names if os.path.isdir(f"{TOP}/crates/{it}")), key=lambda it: (float(minutes.get(it, 0)), it))


def attempt_since(ref, minutes, gated):
    """How many edits of crates that differ from a commit the prover does not refuse, of those for which there is time."""
    until = time.monotonic() + 60 * minutes
    names = changed_since(ref)
    every = {name: {*edits_of(f"{TOP}/edits/{name}"), *([] if gated else edits_of(f"{TOP}/crates/{name}/must-fail"))} for name in names}
    told = []
    with tempfile.TemporaryDirectory(prefix="edits-") as room:
        copy = repository_with(room, names, gated)
        for name in (it for it in names if every[it]):
            left = until - time.monotonic()
            said, ended = tried(copy, [name], left) if left > 0 else ([], False)
            if ended:
                more, ended = tried_above(copy, name, until)
                said += more
            told += said
            if not ended:
                lines = "\n".join(said)
                lost = sorted(it for it in every[name] if f" {name}/{it}: " not in lines)
                print(f"left out after {minutes:g} minutes: {name}: {' '.join(lost)}")
    print(f"crates that differ from {ref}: {' '.join(names) or 'none'}")
    return count(told)


def main(words):
    parser = argparse.ArgumentParser(description=__doc__, formatter_class=argparse.RawDescriptionHelpFormatter)
    parser.add_argument("names", nargs="*", metavar="NAME")
    parser.add_argument("--since", metavar="REF")
    parser.add_argument("--minutes", type=float, default=20, metavar="N")
    parser.add_argument("--gated", action="store_true")
    given = parser.parse_args(words)
    unknown = [it for it in given.names if not os.path.isdir(f"{TOP}/crates/{it}")]
    if unknown:
        sys.exit(f"there is no crate {unknown[0]}")
    if given.since:
        return 1 if attempt_since(given.since, given.minutes, given.gated) else 0
    return 1 if (attempt(given.names) if given.names else look()) else 0


if __name__ == "__main__":
    sys.exit(main(sys.argv[1:]))
