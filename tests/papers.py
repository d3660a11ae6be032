#!/usr/bin/env python3
"""What the papers name is there: every edit, law, file and function of docs/PROMISES.md; the crates of docs/ARCHITECTURE.md,
in the order of crates.txt; every edit of every crate in docs/PROMISES.md; README's line of crates.txt. Ends in OK."""
import pathlib
import re
import sys

ROOT = pathlib.Path(__file__).resolve().parent.parent
CRATES = ROOT / "crates"


def text(path):
    return (ROOT / path).read_text()


def listed():
    return [line for line in text("crates.txt").splitlines() if line and not line.startswith("#")]


def theory(crate, name):
    """Where a file of definitions or theorems may stand."""
    return [CRATES / crate / folder / f"{name}.antt" for folder in ("specs", "proofs")]


def promises(names, wrong):
    page = text("docs/PROMISES.md")
    for crate, name in re.findall(r"`([a-z_0-9]+)/([A-Za-z_0-9]+)`", page):
        if crate not in names:
            continue
        here = CRATES / crate
        places = [here / "must-fail" / f"{name}.edit"] if name[0].islower() else theory(crate, name)
        if name != "proofs" and not any(place.exists() for place in places):
            wrong.append(f"PROMISES: {crate}/{name}")
    for crate, name, laws in re.findall(r"`([a-z_0-9]+)/([A-Z]\w+)` ((?:`[a-z][\w-]*`(?:, )?)+)", page):
        sources = [place.read_text() for place in theory(crate, name) if place.exists()]
        for law in re.findall(r"`([^`]+)`", laws):
            if sources and not any(re.search(rf"(?<![\w-]){re.escape(law)} :", source) for source in sources):
                wrong.append(f"PROMISES: {crate}/{name} {law}")
    for path in re.findall(r"`([a-z_0-9]+/(?:specs|src|proofs)/[\w./]+)`", page):
        if not (CRATES / path).exists():
            wrong.append(f"PROMISES: {path}")
    for crate, name in re.findall(r"`([a-z_0-9]+)::([a-z_0-9]+)`", page):
        if crate in names and not any(f"fn {name}" in f.read_text() for f in (CRATES / crate / "src").glob("*.rt")):
            wrong.append(f"PROMISES: {crate}::{name}")
    cited = set(re.findall(r"`([a-z_0-9]+/[a-z_0-9]+)`", page))
    edits = {f"{edit.parent.parent.name}/{edit.stem}" for edit in CRATES.glob("*/must-fail/*.edit")}
    wrong += [f"not in PROMISES: {edit}" for edit in sorted(edits - cited)]
    return len(edits)


def main():
    wrong = []
    names = [line.split(":")[0].split()[0] for line in listed()]
    edits = promises(names, wrong)
    rooms = re.findall(r"^\| `([a-z_0-9]+)` \| (?:code|theory|constants|types|program|C library|table, program) \|", text("docs/ARCHITECTURE.md"), re.M)
    if rooms != names:
        wrong.append("ARCHITECTURE's crates are not those of crates.txt, in their order")
    example = next(line for line in listed() if line.startswith("example:"))
    if f"\n    {example}\n" not in text("README.md"):
        wrong.append("README has another line for crate example than crates.txt")
    if wrong:
        sys.exit("\n".join(wrong))
    print(f"OK: {len(names)} crates, {edits} edits")


main()
