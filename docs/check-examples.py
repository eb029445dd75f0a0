#!/usr/bin/env python3
"""Runs `PROGRAM check` on the examples of these pages, and compares what it prints and its status.

The pages are OUTPUT.md, TRACE.md and GUIDE.md. An example is a fenced block of a trace with the block of its
whole output behind it; blocks that name a language are none. In TRACE.md the bad lines of a table stand each
behind the lines of the block before it.
Ends with status 1 where the program differs, after the two outputs of each example that does.
`--write FOLDER` in the place of PROGRAM writes NAME.trace and NAME.out for each example there.
"""
import pathlib
import re
import subprocess
import sys

HERE = pathlib.Path(__file__).parent


def plain_blocks(text):
    """The fenced blocks that name no language."""
    blocks = re.findall(r"^```(\w*)\n(.*?)^```$", text, re.M | re.S)
    return [block for language, block in blocks if not language]


def pairs(name):
    """The examples of a page: a block that begins with `{`, and the output in the block behind it."""
    blocks = plain_blocks((HERE / name).read_text())
    for number, (trace, out) in enumerate(zip(blocks, blocks[1:])):
        if trace.startswith("{") and not out.startswith("{"):
            yield f"{name[:-3].lower()}-{number:02}", trace, out


def bad_lines():
    """The bad lines of TRACE.md, each behind its first lines, and those alone."""
    text = (HERE / "TRACE.md").read_text()
    section = re.search(r"^### A bad line for each\n(.*?)(?=^## )", text, re.M | re.S).group(1)
    first = plain_blocks(section)[0]
    yield "bad-alone", first, re.search(r"Alone they give `(.*?)`", section).group(1) + "\n"
    many = ",".join(["{}"] * 65)
    submit = f'{{"op":"submit","lane":0,"queue":0,"batches":[{many}]}}\n'
    out = re.search(r"With a `submit` of 65 batches.*?`(line .*?)`", section, re.S).group(1)
    yield "bad-batches", first + submit, out + "\n"
    for number, (line, out) in enumerate(re.findall(r"^\| `(.*)` \| `(.*)` \|$", section, re.M)):
        yield f"bad-{number:02}", first + line + "\n", out + "\n"


def status(out):
    """The status that belongs to an output."""
    if " refused " in out:
        return 2
    return 0 if re.search(r"reports 0 notes 0 held 0\n$", out) else 1


def main():
    if len(sys.argv) < 2:
        sys.exit(__doc__)
    examples = [*pairs("OUTPUT.md"), *pairs("TRACE.md"), *pairs("GUIDE.md"), *bad_lines()]
    if sys.argv[1] == "--write":
        for name, trace, out in examples:
            (pathlib.Path(sys.argv[2]) / f"{name}.trace").write_text(trace)
            (pathlib.Path(sys.argv[2]) / f"{name}.out").write_text(out)
        return 0
    differ = 0
    for name, trace, out in examples:
        run = subprocess.run([sys.argv[1], "check"], input=trace.encode(), capture_output=True)
        if (run.stdout.decode(), run.returncode) != (out, status(out)):
            differ += 1
            print(f"{name}: status {run.returncode}, printed\n{run.stdout.decode()}the page has\n{out}")
    print(f"{len(examples) - differ} examples agree, {differ} differ")
    return 1 if differ else 0


if __name__ == "__main__":
    sys.exit(main())
