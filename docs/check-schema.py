#!/usr/bin/env python3
"""Compares the ops, the parts and their members in TRACE.md with those in trace.schema.json.

A member may be missing where the last column of its row in the document says what then holds, and where
the schema does not require it. Ends with status 1 where the two differ, after a line for each difference.
"""
import json
import pathlib
import re
import sys

HERE = pathlib.Path(__file__).parent


def rows(section):
    """The members of a section's table, as {name: {member: whether it may be missing}}."""
    table, name = {}, None
    for line in section.splitlines():
        cells = [cell.strip() for cell in line.strip().strip("|").split("|")]
        if not line.startswith("|") or len(cells) != 4 or set(cells[0]) == {"-"}:
            continue
        if cells[1] == "Member":
            continue
        name = cells[0].strip("`") or name
        table.setdefault(name, {})[cells[1].strip("`")] = cells[3] != ""
    return table


def members(form):
    """The members of an object of the schema, in the same shape."""
    return {name: name not in form["required"] for name in form["properties"]}


def differences(kind, document, schema):
    for name in sorted(document.keys() | schema.keys()):
        if name not in schema or name not in document:
            yield f"{kind} {name}: only in the {'document' if name in document else 'schema'}"
        elif document[name] != schema[name]:
            yield f"{kind} {name}: the document has {document[name]}, the schema {schema[name]}"


def main():
    text = (HERE / "TRACE.md").read_text()
    schema = json.loads((HERE / "trace.schema.json").read_text())
    sections = dict(re.findall(r"^## (.+?)\n(.*?)(?=^## |\Z)", text, re.M | re.S))
    forms = schema["$defs"]
    lines = {name[5:]: members(form) for name, form in forms.items() if name.startswith("line_")}
    parts = {
        name: members(form)
        for name, form in forms.items()
        if not name.startswith("line_") and form.get("type") == "object"
    }
    key = lambda name: re.sub(r"[^a-z]+", "_", name)
    found = list(differences("op", rows(sections["Lines"]), lines))
    found += differences("part", {key(name): row for name, row in rows(sections["Parts"]).items()}, parts)
    if set(schema["properties"]["op"]["enum"]) != set(lines):
        found.append("the schema's table of ops is not that of its lines")
    examples = re.search(r"```\n(.*?)```", sections["Examples"], re.S).group(1)
    shown = {json.loads(line)["op"] for line in examples.splitlines()}
    if shown != set(lines):
        found.append(f"examples are missing or too many: {sorted(shown ^ set(lines))}")
    print("\n".join(found) or f"{len(lines)} ops and {len(parts)} parts agree")
    return 1 if found else 0


if __name__ == "__main__":
    sys.exit(main())
