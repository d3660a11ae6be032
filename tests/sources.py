#!/usr/bin/env python3
"""The sources keep the house's habits: no line above 160 characters; every name that a `use` line takes from elsewhere is used;
no public name of the definitions and theorems is defined twice. Ends in OK."""
import collections
import pathlib
import re
import sys

ROOT = pathlib.Path(__file__).resolve().parent.parent
CRATES = ROOT / "crates"
WIDTH = 160
# Files of proofs/ with steps of proofs of code; the others there hold theorems, as those of specs/ do.
HELPERS = {"Lib", "Steps", "LinkRows", "Told", "Lent", "WriteEntry"}
USE = re.compile(r"\s*(?:ghost )?use [^{;]+\.\{(.*)\}")


def words(source):
    """The words of a source without its `use` lines and comments."""
    lines = [line for line in source.splitlines() if not re.match(r"\s*((ghost )?use |--|//)", line)]
    body = "\n".join(lines)
    return set(re.findall(r"[^\s(){}\[\],;.]+", body)) | set(re.findall(r"[^\s(){}\[\],;]+", body))


def is_used(name, found):
    """Is a name among the words? Of an operator such as ◌≤◌ each part has to be."""
    parts = [part for part in name.split("◌") if part]
    return name in found or name == "[]" or ("◌" in name and all(any(part in word for word in found) for part in parts))


def unused(source):
    found = words(source)
    for line in source.splitlines():
        names = USE.match(line)
        for name in names[1].split(",") if names else []:
            name = name.split(" as ")[-1].strip()
            if not is_used(name, found):
                yield name


def public(source):
    """The public names of a file of definitions or theorems; the fields of its records are not among them."""
    record = None
    for line in source.splitlines():
        depth = len(line) - len(line.lstrip())
        if record is not None and line.strip() and depth <= record:
            record = None
        name = re.match(r"\s*(?:unfoldable |abbrev )?pub (record |data )?([^\s:({]+)", line)
        if name and record is None and name[2] != "mod":
            yield name[2]
        if name and name[1] == "record ":
            record = depth


def main():
    wrong = []
    homes = collections.defaultdict(set)
    sources = sorted(path for path in CRATES.rglob("*") if path.suffix in (".rt", ".antt") and "out" not in path.parts)
    for path in sources:
        source, name = path.read_text(), path.relative_to(CRATES)
        long = [i for i, line in enumerate(source.splitlines(), 1) if len(line) > WIDTH]
        wrong += [f"{name}:{i}: above {WIDTH} characters" for i in long]
        wrong += [f"{name}: {word} is not used" for word in unused(source)]
        if path.parent.name == "specs" or (path.parent.name == "proofs" and path.stem not in HELPERS):
            for word in public(source):
                homes[word].add(str(name))
    wrong += [f"{word} is defined in {', '.join(sorted(where))}" for word, where in sorted(homes.items()) if len(where) > 1]
    if wrong:
        sys.exit("\n".join(wrong))
    print(f"OK: {len(sources)} sources")


main()
