#!/usr/bin/env python3
"""Each file of definitions stands in DEFINITIONS.md, and each file of lemmas in PROOFS.md.

A heading that names crates (`sv_model`) is followed by the names of their files. A list item that begins
with a name in capitals (- `Reports`: ..) names a file. Says which files are missing from the pages, and
which names are of no file, and ends with 1 where there are some. Files of single functions, which stand in
folders, are not asked for.
"""

import pathlib
import re
import sys

ROOT = pathlib.Path(__file__).resolve().parent.parent
PAGES = {"specs": "DEFINITIONS.md", "proofs": "PROOFS.md"}
NAME = re.compile(r"`([A-Za-z_]+)`")


def named(page):
    """For each crate the names under its headings, and those of the list items alone."""
    all_names, items = {}, {}
    crates = []
    for line in page.read_text(encoding="utf-8").splitlines():
        if line.startswith("#"):
            crates = [name for name in NAME.findall(line) if name.startswith("sv")]
            continue
        names = NAME.findall(line)
        start = re.match(r"- ((?:`[A-Z][A-Za-z]*`(?:, | and )?)+):", line)
        for crate in crates:
            all_names.setdefault(crate, set()).update(names)
            if start:
                items.setdefault(crate, set()).update(NAME.findall(start.group(1)))
    return all_names, items


def files(kind):
    found = {}
    for path in ROOT.glob(f"crates/*/{kind}/*.antt"):
        if path.stem != "Lib":
            found.setdefault(path.parts[-3], set()).add(path.stem)
    return found


def main():
    faults = []
    for kind, page in PAGES.items():
        names, items = named(ROOT / "docs" / page)
        have = files(kind)
        for crate in sorted(have):
            for stem in sorted(have[crate] - names.get(crate, set())):
                faults.append(f"{page}: crates/{crate}/{kind}/{stem}.antt is missing")
        for crate in sorted(items):
            for stem in sorted(items[crate] - have.get(crate, set())):
                faults.append(f"{page}: {stem} is no file of crates/{crate}/{kind}")
    for fault in faults:
        print(fault)
    return 1 if faults else 0


if __name__ == "__main__":
    sys.exit(main())
