#!/usr/bin/env python3
"""Tests of trace_writer.py, of what make_patterns.py writes with it, and of examples/check-examples.

Run: python3 tools/test_trace_writer.py
"""
import json
import os
import pathlib
import re
import shutil
import subprocess
import sys
import tempfile
import unittest

import make_patterns
from trace_writer import (
    BadLine, Schema, Trace, barrier, batch, check_bytes, image_barrier, names, on_bytes, semaphore_use,
    subpass, subpass_dependency)

ROOT = pathlib.Path(__file__).resolve().parent.parent
PATTERNS = ROOT / "examples" / "patterns"

ACCESS = {"res": 0, "stage": "copy", "access": "transfer_read", "start": 0, "end": 16}
CELLS = {"res": 1, "stage": "copy", "access": "transfer_write", "mip": 0, "mips": 1, "layer": 0, "layers": 1,
         "layout": "transfer_dst_optimal"}
ELEMENT = {"src": [], "src_access": [], "dst": [], "dst_access": []}
IMAGE_PART = {"res": 1, "mip": 0, "mips": 1, "layer": 0, "layers": 1}
PASS = {"op": "render_pass", "pass": 0, "attachments": [], "subpasses": [{"uses": []}], "deps": []}
PASS_DEP = {"from": "external", "to": 0} | ELEMENT


def work(**changed):
    return {"op": "work", "rec": 0, "accesses": [ACCESS, ACCESS | changed]}


def without(members, name):
    return {key: value for key, value in members.items() if key != name}


# Each line that the schema refuses, and the place that the refusal names.
BROKEN = [
    ("no op", {"queue": 0}, ""),
    ("an op that is not known", {"op": "draw", "rec": 0}, "op"),
    ("a missing member", {"op": "queue", "queue": 0, "family": 0}, ""),
    ("a number above its bound", {"op": "queue", "queue": 16, "family": 0, "lane": 0}, "queue"),
    ("a number below its bound", {"op": "buffer", "res": 0, "size": 0}, "size"),
    ("a number that is a text", {"op": "end", "rec": "0"}, "rec"),
    ("a number that is a truth value", {"op": "end", "rec": True}, "rec"),
    ("a number with a point", {"op": "event", "event": 1.0}, "event"),
    ("a null", {"op": "semaphore", "sem": 0, "kind": "timeline", "initial": None}, "initial"),
    ("a version that is not known", {"op": "version", "number": 2}, "number"),
    ("a version with a point", {"op": "version", "number": 1.0}, "number"),
    ("a first layout that is none", {"op": "image", "res": 0, "mips": 1, "layers": 1, "initial": "general"},
     "initial"),
    ("a stage that is not known", work(stage="pixel_shader"), "accesses[1].stage"),
    ("a mask in the place of a stage", work(stage="all_commands"), "accesses[1].stage"),
    ("an access without its end", {"op": "work", "rec": 0, "accesses": [without(ACCESS, "end")]},
     "accesses[0]"),
    ("an image access without its layout", {"op": "work", "rec": 0,
                                            "accesses": [ACCESS, without(CELLS, "layout")]},
     "accesses[1]"),
    ("a mask that is no list", {"op": "barrier", "rec": 0, "deps": [ELEMENT | {"src": "copy"}]},
     "deps[0].src"),
    ("an unknown name in a mask", {"op": "barrier", "rec": 0,
                                   "deps": [ELEMENT, ELEMENT | {"dst": ["copy", "all"]}]},
     "deps[1].dst[1]"),
    ("an old layout alone", {"op": "barrier", "rec": 0, "deps": [ELEMENT | IMAGE_PART | {"old": "general"}]},
     "deps[0]"),
    ("a later layout that is none",
     {"op": "barrier", "rec": 0, "deps": [ELEMENT | IMAGE_PART | {"old": "general", "new": "undefined"}]},
     "deps[0].new"),
    ("a family alone",
     {"op": "barrier", "rec": 0, "deps": [ELEMENT | {"res": 0, "start": 0, "end": 1, "dst_family": 0}]},
     "deps[0]"),
    ("no subpass", PASS | {"subpasses": []}, "subpasses"),
    ("both ends external", PASS | {"deps": [PASS_DEP | {"to": "external"}]}, "deps[0]"),
    ("an end that is another text", PASS | {"deps": [PASS_DEP | {"to": "outside"}]}, "deps[0].to"),
    ("a batch that is no object", {"op": "submit", "lane": 0, "queue": 0, "batches": [{}, 3]}, "batches[1]"),
    ("a wait without stages", {"op": "submit", "lane": 0, "queue": 0, "batches": [{"waits": [{"sem": 0}]}]},
     "batches[0].waits[0]"),
]

# Lines that the schema takes, since two of their members disagree, and the place that the refusal names.
DISAGREEING = [
    ("an attachment past the list", PASS | {"subpasses": [{"uses": [{"att": 0, "layout": "general"}]}]},
     "subpasses[0].uses[0].att"),
    ("a subpass past the list", PASS | {"deps": [PASS_DEP | {"to": 1}]}, "deps[0].to"),
    ("a dependency on an earlier subpass",
     PASS | {"subpasses": [{"uses": []}, {"uses": []}], "deps": [PASS_DEP | {"from": 1, "to": 0}]},
     "deps[0].to"),
]


class Refusals(unittest.TestCase):
    def test_the_schema_refuses_each_broken_line_with_its_place(self):
        self.assertGreaterEqual(len(BROKEN), 20)
        schema = Schema()
        for what, line, place in BROKEN:
            with self.subTest(what):
                self.assertEqual(next(schema.faults(line), ("no fault",))[0], place)

    def test_each_broken_line_is_refused_when_it_is_added(self):
        for what, line, place in BROKEN + DISAGREEING:
            with self.subTest(what):
                trace = Trace()
                trace.queue(family=0, lane=0)
                with self.assertRaises(BadLine) as refused:
                    trace.add(line)
                self.assertEqual((refused.exception.line, refused.exception.place), (2, place))
                self.assertEqual(len(trace.lines), 1)

    def test_the_lines_that_the_document_refuses(self):
        text = (ROOT / "docs" / "TRACE.md").read_text()
        refused = re.findall(r"^\| `(\{.*\})` \| \d+ \|$", text, re.M)
        self.assertGreaterEqual(len(refused), 20)
        for line in refused:
            with self.subTest(line), self.assertRaises(BadLine):
                check_bytes(line.encode())

    def test_a_call_with_a_wrong_name_is_refused_at_its_line(self):
        trace = Trace()
        trace.queue(family=0, lane=0)
        data = trace.buffer(64)
        rec = trace.begin(recorder=0, family=0)
        with self.assertRaisesRegex(BadLine, r'^line 4, accesses\[0\]\.stage: "pixel_shader" is none of '):
            rec.work(on_bytes(data, "pixel_shader", "shader_storage_read", 0, 64))
        rec.barrier(barrier("copy", "transfer_write", "copy", "transfer_read"))
        self.assertEqual([line["op"] for line in trace.lines], ["queue", "buffer", "begin", "barrier"])

    def test_a_text_that_is_not_json(self):
        for text, line in [(b'{"op":"end","rec":\n', 1), (b"\n \t\r\n\xff", 3),
                           (b'{"op":"end","rec":0,"x":NaN}', 1), (b'{"op":"end","rec":0,"x":1e400}', 1)]:
            with self.subTest(text), self.assertRaises(BadLine) as refused:
                check_bytes(text)
            self.assertEqual((refused.exception.line, refused.exception.place), (line, ""))

    def test_a_number_is_decimal_digits_alone(self):
        for number in ["-0", "0.0", "0e0", "65536", "18446744073709551616"]:
            with self.subTest(number), self.assertRaises(BadLine) as refused:
                check_bytes(b'{"op":"end","rec":%s}' % number.encode())
            self.assertEqual(refused.exception.place, "rec")
        check_bytes(b'{"op":"end","rec":65535,"passed over":[-0,1.5,1e3,18446744073709551616,null]}')

    def test_as_a_program(self):
        with tempfile.TemporaryDirectory() as name:
            good, bad = pathlib.Path(name) / "good", pathlib.Path(name) / "bad"
            good.write_text('{"op":"event","event":0}\n')
            bad.write_text('\n{"op":"barrier","rec":0,"deps":[{"src":["copies"]}]}\n')
            words = [sys.executable, ROOT / "tools" / "trace_writer.py"]
            done = subprocess.run([*words, good, bad], capture_output=True, text=True)
            lines = done.stdout.splitlines()
            self.assertEqual((len(lines), lines[-1], done.returncode), (2, "1 in their forms, 1 not", 1))
            self.assertRegex(lines[0], r'/bad: line 2, deps\[0\]\.src\[0\]: "copies" is none of ')
            self.assertEqual(subprocess.run([*words, good], capture_output=True).returncode, 0)

    def test_a_keyword_that_is_not_known_is_no_silence(self):
        schema = Schema()
        schema.root = {"pattern": "a"}
        with self.assertRaises(NotImplementedError):
            list(schema.faults("b"))


class Lines(unittest.TestCase):
    def test_the_lines_that_the_document_shows(self):
        text = (ROOT / "docs" / "TRACE.md").read_text()
        shown = re.search(r"^## Examples\n.*?```\n(.*?)```", text, re.M | re.S).group(1)
        self.assertGreaterEqual(len(shown.splitlines()), 20)
        check_bytes(shown.encode())

    def test_the_examples(self):
        for path in sorted((ROOT / "examples").rglob("*.trace")):
            with self.subTest(path):
                check_bytes(path.read_bytes())

    def test_the_first_examples_from_calls(self):
        for name, ordered in (("write-then-read", False), ("write-barrier-read", True)):
            trace = Trace()
            queue = trace.queue(family=0, lane=0)
            data = trace.buffer(size=64)
            rec = trace.begin(recorder=0, family=0)
            rec.work(on_bytes(data, "copy", "transfer_write", 0, 16))
            if ordered:
                rec.barrier(barrier("copy", "transfer_write", "copy", "transfer_read"))
            rec.work(on_bytes(data, "copy", "transfer_read", 0, 16))
            rec.end()
            trace.submit(queue, batch(recs=[rec]))
            with self.subTest(name):
                self.assertEqual(trace.text(), (ROOT / "examples" / f"{name}.trace").read_text())

    def test_a_line_of_each_op_from_calls(self):
        trace = Trace()
        trace.version()
        queue = trace.queue(family=3, lane=2)
        data = trace.buffer(16, sharing="concurrent")
        image = trace.image(mips=2, layers=3, initial="preinitialized")
        sem, event, fence = trace.semaphore("timeline", initial=5), trace.event(), trace.fence(signaled=True)
        dep = subpass_dependency("external", 0, "", "", "copy", "")
        render_pass = trace.render_pass([], [subpass()], [dep])
        rec = trace.begin(recorder=1, family=3)
        rec.work(on_bytes(data, "copy", "transfer_read", 0, 16))
        rec.barrier(image_barrier("copy", None, ["copy", "blit"], "transfer_read", image, "undefined",
                                  "general"))
        rec.reset_event(event)
        rec.set_event(event, barrier("", "", "", ""))
        rec.wait_event(event)
        rec.begin_rendering()
        rec.end_rendering()
        rec.begin_pass(render_pass)
        rec.next_subpass()
        rec.end_pass()
        rec.end()
        trace.submit(queue, batch(recs=[rec], waits=[semaphore_use(sem, "copy", 5)]), batch(), fence=fence)
        trace.wait_fence(2, fence)
        trace.reset_fence(2, fence)
        trace.wait_queue(queue)
        trace.wait_device(2)
        ops = Schema().root["properties"]["op"]["enum"]
        self.assertEqual({line["op"] for line in trace.lines}, set(ops))
        element = next(line for line in trace.lines if line["op"] == "barrier")["deps"][0]
        self.assertEqual((element["src"], element["src_access"], element["dst"]),
                         (["copy"], [], ["copy", "blit"]))
        submit = next(line for line in trace.lines if line["op"] == "submit")
        self.assertEqual(submit, {
            "op": "submit", "lane": 2, "queue": 0, "fence": 0,
            "batches": [{"waits": [{"sem": 0, "value": 5, "stages": ["copy"]}], "recs": [0]}, {"recs": []}]})

    def test_numbers(self):
        trace = Trace()
        self.assertEqual([trace.buffer(1), trace.image(), trace.buffer(1, number=9), trace.buffer(1)],
                         [0, 1, 9, 10])
        self.assertEqual([trace.event(), trace.fence(), trace.event()], [0, 0, 1])

    def test_masks(self):
        self.assertEqual([names("copy|blit"), names(""), names(None), names(["copy"])],
                         [["copy", "blit"], [], [], ["copy"]])


class Gallery(unittest.TestCase):
    def test_the_committed_traces_are_those_that_are_written(self):
        self.assertEqual(list(make_patterns.differing()), [])

    def rows(self):
        """The rows of the index: a pattern's name, what is missing, and what mends it."""
        index = (PATTERNS / "README.md").read_text()
        return re.findall(r"^\| `([a-z-]+)` \|[^|]+\| ([^|]+) \| ([^|]+) \|$", index, re.M)

    def test_each_pattern_stands_in_the_index(self):
        self.assertEqual(sorted(name for name, *_ in self.rows()), sorted(make_patterns.PATTERNS))

    def test_right_forms_owe_nothing_and_broken_ones_what_the_index_says(self):
        for name, missing, _ in self.rows():
            with self.subTest(name):
                right, broken = (PATTERNS / out for out in (f"{name}.out", f"{name}-broken.out"))
                self.assertEqual(re.findall(r"^(?:  |held ).*$", right.read_text(), re.M), [])
                owed = re.findall(r"^(?:  note |  |(?=held ))(\w+)", broken.read_text(), re.M)
                said = re.findall(r"`[rw]a[rw]`|\w+(?= notes?\b)|held", missing)
                self.assertEqual(set(owed), {word.strip("`") for word in said})
                self.assertNotEqual(owed, [])

    def test_what_mends_a_pattern_stands_in_its_right_form(self):
        for name, _, mends in self.rows():
            lines = [json.loads(line) for line in (PATTERNS / f"{name}.trace").read_text().splitlines()]
            halves = [(dep[half], dep[f"{half}_access"])
                      for line in lines for dep in line.get("deps", []) for half in ("src", "dst")]
            for stage, access in re.findall(r"(\w+|-)/(\w+|-)", mends):
                with self.subTest(name, half=f"{stage}/{access}"):
                    self.assertTrue(any((stage in stages or stage == "-" and not stages)
                                        and (access in accesses or access == "-" and not accesses)
                                        for stages, accesses in halves))
            for word in re.findall(r"[a-z]+(?:_[a-z]+)+", mends):
                with self.subTest(name, word=word):
                    self.assertTrue(f'"{word}"' in json.dumps(lines))


class Shown(unittest.TestCase):
    """What the documents show of the examples and of the writer."""

    def test_an_output_is_that_of_its_example(self):
        for page, example in (("README.md", "frame/frame-without-a-barrier"),
                              ("docs/GUIDE.md", "patterns/vertex-buffer-upload-broken")):
            with self.subTest(page):
                text = (ROOT / page).read_text()
                self.assertIn(f"examples/{example}.trace", text)
                shown = re.search(r"^```\n(event .*?)```", text, re.M | re.S).group(1)
                self.assertEqual(shown, (ROOT / "examples" / f"{example}.out").read_text())

    def test_each_line_has_its_calls(self):
        rows = re.findall(r"^\| [^|]+ \| ([^|]+) \| [^|]*\|$", (ROOT / "docs/GUIDE.md").read_text(), re.M)
        ops = set(Schema().root["properties"]["op"]["enum"])
        self.assertEqual(ops & {name for row in rows for name in re.findall(r"`(\w+)`", row)},
                         ops - {"version"})

    def test_the_code_of_the_guide_runs(self):
        code = re.search(r"^```python\n(.*?)```", (ROOT / "docs/GUIDE.md").read_text(), re.M | re.S).group(1)
        with tempfile.TemporaryDirectory() as name:
            path = {"PYTHONPATH": str(ROOT / "tools")}
            subprocess.run([sys.executable, "-c", code], cwd=name, env=os.environ | path, check=True)
            written = (pathlib.Path(name) / "upload.trace").read_bytes()
        check_bytes(written)
        self.assertEqual(written.count(b'"op":"work"'), 2)

    def test_the_rattle_code_of_the_guide_is_that_of_tests(self):
        shown = re.findall(r"^```rust\n(.*?)^```", (ROOT / "docs/GUIDE.md").read_text(), re.M | re.S)
        self.assertEqual(len(shown), 2)
        for code, file in zip(shown, ("sv_run_tests/src/runs.rt", "sv_hub/src/tests.rt")):
            tests = (ROOT / "crates" / file).read_text()
            with self.subTest(file):
                self.assertIn("\n".join(line.strip() for line in code.splitlines()),
                              "\n".join(line.strip() for line in tests.splitlines()))

    def test_links_lead_somewhere(self):
        pages = [ROOT / "README.md", *ROOT.glob("docs/*.md"), *ROOT.glob("examples/**/README.md")]
        for page in pages:
            for link in re.findall(r"\]\(((?!http)[^)]+)\)", page.read_text()):
                with self.subTest(page.relative_to(ROOT), link=link):
                    file, _, place = link.partition("#")
                    target = page.parent / file if file else page
                    self.assertTrue(target.is_file())
                    heads = re.findall(r"^#+ (.*)$", target.read_text(), re.M) if place else []
                    places = {re.sub(r"[^\w -]", "", head.lower()).replace(" ", "-") for head in heads}
                    self.assertIn(place, places | {""})


class CheckExamples(unittest.TestCase):
    TOTAL = "total events 0 reports 0 notes 0 held 0\n"
    HELD = "held lane 0 call 0\ntotal events 1 reports 0 notes 0 held 1\n"
    NOTE = ("event 0 lane 0 call 0 submit queue 0\n  note fence 0 0\n"
            "total events 1 reports 0 notes 1 held 0\n")
    REFUSED = "line 1 refused 1 BadJson\n"
    PROGRAM = """#!/bin/sh
[ "$*" = check ] || exit 9
cat "{root}/written"
exit {status}
"""
    TRY = """#!/bin/sh
[ "$1 $2 $4 $5 $#" = "try --cases -- check 5" ] || exit 9
[ "$(pwd -P)" = "$(cd "{root}/crates/svval" && pwd -P)" ] || exit 9
for case in "$3"/*; do
  echo "== ${{case##*/}}"
  cat "{root}/written"
  echo "case=${{case##*/}} run=ended status={status} runners=1 proved=no" >&2
done
"""

    def check(self, owed, written, status, unproved=False):
        """What check-examples prints last, and its status, where two examples owe the same."""
        with tempfile.TemporaryDirectory() as name:
            root = pathlib.Path(name)
            for folder in ("bin", "examples", "crates/svval"):
                (root / folder).mkdir(parents=True)
            shutil.copy(ROOT / "examples" / "check-examples", root / "examples")
            for example in ("one", "two"):
                (root / "examples" / f"{example}.trace").write_text("")
                (root / "examples" / f"{example}.out").write_text(owed)
            (root / "written").write_text(written)
            program = root / "bin" / ("rt" if unproved else "program")
            program.write_text((self.TRY if unproved else self.PROGRAM).format(root=root, status=status))
            program.chmod(0o755)
            path = {"PATH": f"{root / 'bin'}{os.pathsep}{os.environ['PATH']}"}
            words = [root / "examples" / "check-examples", "--unproved" if unproved else program]
            done = subprocess.run(words, capture_output=True, text=True, env=os.environ | path)
            return (done.stdout.splitlines() or [""])[-1], done.returncode

    def test_the_status_goes_with_the_text(self):
        for owed, status in [(self.TOTAL, 0), (self.HELD, 1), (self.NOTE, 1), (self.REFUSED, 2)]:
            for unproved in (False, True):
                with self.subTest(owed, unproved=unproved):
                    self.assertEqual(self.check(owed, owed, status, unproved), ("2 passed, 0 failed", 0))
                    self.assertEqual(self.check(owed, owed, status + 1, unproved), ("0 passed, 2 failed", 1))

    def test_another_text_fails(self):
        for written in ["", self.TOTAL[:-1], self.TOTAL * 2, self.TOTAL.replace("0", "1", 1)]:
            for unproved in (False, True):
                with self.subTest(written, unproved=unproved):
                    self.assertEqual(self.check(self.TOTAL, written, 0, unproved), ("0 passed, 2 failed", 1))

    def test_a_file_without_its_other_fails(self):
        with tempfile.TemporaryDirectory() as name:
            shutil.copy(ROOT / "examples" / "check-examples", name)
            for example in ("one.trace", "two.out"):
                (pathlib.Path(name) / example).write_text("")
            words = [pathlib.Path(name) / "check-examples", "true"]
            done = subprocess.run(words, capture_output=True, text=True)
            self.assertEqual((done.stdout.splitlines(), done.returncode),
                             (["stands alone: one.trace", "stands alone: two.out", "0 passed, 2 failed"], 1))

    def test_a_try_that_does_not_run_is_told(self):
        self.TRY = "#!/bin/sh\necho no such flag >&2\nexit {status}\n"
        self.assertEqual(self.check(self.TOTAL, self.TOTAL, 2, unproved=True), ("", 1))


if __name__ == "__main__":
    unittest.main()
