#!/usr/bin/env python3
"""Compares ARCHITECTURE.md with crates.txt, and writes its table of all crates.

The table stands between two comments of the page. Its rows have the order of crates.txt: what a crate keeps
is the first paragraph of the head of its lib.rt or main.rt, the rest is read from crates.txt and from the
folders. The second paragraph of a head is a list: what the crate knows, its definitions, and who uses it.

    crate-table.py            writes the table
    crate-table.py --check    says where page, heads and crates.txt differ; status 1 where they do
"""
import pathlib
import re
import sys

ROOT = pathlib.Path(__file__).resolve().parent.parent
PAGE = ROOT / "docs" / "ARCHITECTURE.md"
BEGIN, END = "<!-- docs/crate-table.py writes this table -->\n", "<!-- end of the table -->\n"
BELOW = {("sv_lines", "sv_pass")}  # who stands on a crate of a later layer
BASE = {"sv_mask", "sv_range"}  # left out of the page where a crate stands on sv_model


def read_crates():
    """The layers in their order, each a list of crates, and what each crate stands on."""
    layers, needs = [], {}
    for line in (ROOT / "crates.txt").read_text().splitlines():
        if line.startswith("#"):
            layers.append([])
        elif line.strip():
            name, _, rest = line.partition(":")
            name = name.split()[0]
            layers[-1].append(name)
            needs[name] = rest.split()
    return layers, needs


def everything(names, needs):
    """These crates and all that they stand on."""
    found = set()
    rest = list(names)
    while rest:
        name = rest.pop()
        if name not in found:
            found.add(name)
            rest += needs.get(name, [])
    return found


def nearest(name, needs):
    """What a crate stands on, without what is below another of these."""
    own = needs[name]
    return [low for low in own if not any(low in everything(needs.get(other, []), needs) for other in own)]


def root_file(name):
    source = ROOT / "crates" / name / "src"
    return next(path for path in (source / "lib.rt", source / "main.rt") if path.is_file())


def head(name):
    """The paragraphs of the head of a crate's root file, each as one line."""
    lines = []
    for line in root_file(name).read_text().splitlines():
        if not line.startswith("//!"):
            break
        lines.append(line[3:].strip())
    return [part.replace("\n", " ") for part in "\n".join(lines).split("\n\n")]


def specs(name):
    return [path for path in (ROOT / "crates" / name / "specs").glob("*.antt") if path.stem != "Lib"]


def quoted(names):
    return ", ".join(f"`{name}`" for name in names)


def table(layers, needs):
    rows = ["| Crate | Keeps | Stands on | Files of definitions | Used by |", "|---|---|---|---|---|"]
    low = {name: nearest(name, needs) for name in needs}
    for name in (name for layer in layers for name in layer):
        users = [user for user in needs if name in low[user]]
        count = len(specs(name)) or ""
        rows.append(f"| `{name}` | {head(name)[0]} | {quoted(low[name])} | {count} | {quoted(users)} |")
    return "".join(f"{row}\n" for row in rows)


def users_told(name, users):
    """What stands in a crate's head of its users, but for those that only test or compute."""
    why = {"tests": "it only tests", "examples": "it only computes"}
    told = [user for user in users if not user.endswith(("_tests", "_examples"))]
    told = quoted(told) if len(told) <= 4 else "every layer behind it"
    return told or f"nothing: {why.get(name.split('_')[-1], 'it is the program')}"


def wrong_heads(needs):
    low = {name: nearest(name, needs) for name in needs}
    for name in needs:
        parts = re.fullmatch(r"- knows .+ - definitions: .+ - used by (.+)", " ".join(head(name)[1:2]))
        owed = users_told(name, [user for user in needs if name in low[user]])
        if not parts:
            yield f"{name}: the head does not say what it knows, its definitions and who uses it"
        elif parts[1] != owed:
            yield f"{name}: the head is owed: used by {owed}"


def section(text, title):
    return re.search(rf"^## {title}\n(.*?)(?=^## |\Z)", text, re.M | re.S).group(1)


def cells(text):
    """The rows of the tables of a text, without their heads."""
    for line in text.splitlines():
        row = [cell.strip() for cell in line.strip()[2:-1].split(" | ")] if line.startswith("| ") else []
        if row and row[0] not in ("Crate", "Layer"):
            yield row


def names_in(text):
    return re.findall(r"`(\w+)`", text)


def differences(text, layers, needs):
    order = [name for layer in layers for name in layer]
    place = {name: number for number, layer in enumerate(layers) for name in layer}
    for name in order:
        for low in needs[name]:
            if low in needs and order.index(low) > order.index(name) and (name, low) not in BELOW:
                yield f"crates.txt: {name} stands before {low}, on which it stands"
    rows = list(cells(section(text, "Layers")))
    for row, layer in zip(rows, layers):
        if names_in(row[1]) != layer:
            yield f"Layers: {row[0]} is owed {quoted(layer)}"
    if len(rows) != len(layers):
        yield f"Layers: {len(rows)} rows, and crates.txt has {len(layers)} headings"
    offered = []
    for number, part in enumerate(re.split(r"^### ", section(text, "Crates"), flags=re.M)[1:]):
        for row in cells(part):
            name, named = names_in(row[0])[0], set(names_in(row[2]))
            offered.append(name)
            if place.get(name) != number:
                yield f"Crates: {name} stands in another part than in crates.txt"
            elif not named <= set(needs[name]):
                yield f"Crates: {name} does not stand on {quoted(sorted(named - set(needs[name])))}"
            elif not set(needs[name]) <= everything(named, needs) | BASE:
                lacking = sorted(set(needs[name]) - everything(named, needs) - BASE)
                yield f"Crates: {name} stands on {quoted(lacking)} too"
    if offered != order:
        yield f"Crates: missing, too many or in another order: {sorted(set(offered) ^ set(order))}"


def main(words):
    layers, needs = read_crates()
    text = PAGE.read_text()
    before, rest = text.split(BEGIN)
    made = before + BEGIN + "\n" + table(layers, needs) + "\n" + END + rest.split(END)[1]
    if words != ["--check"]:
        PAGE.write_text(made)
        return 0
    found = [*differences(text, layers, needs), *wrong_heads(needs)]
    if made != text:
        found.append("the table of all crates is not the one that would be written")
    print("\n".join(found) or f"{len(needs)} crates agree")
    return 1 if found else 0


if __name__ == "__main__":
    sys.exit(main(sys.argv[1:]))
