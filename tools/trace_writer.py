#!/usr/bin/env python3
"""Writes traces for svval: a line for each call, each line checked against docs/trace.schema.json.

    trace = Trace()
    queue = trace.queue(family=0, lane=0)
    buffer = trace.buffer(size=64)
    rec = trace.begin(recorder=0, family=0)
    rec.work(on_bytes(buffer, "copy", "transfer_write", 0, 64))
    rec.barrier(barrier("copy", "transfer_write", "compute_shader", "shader_storage_read"))
    rec.work(on_bytes(buffer, "compute_shader", "shader_storage_read", 0, 64))
    rec.end()
    trace.submit(queue, batch(recs=[rec]))
    trace.write("first.trace")

A mask is a list of names or a text of names joined by "|". A line that is not in its form raises BadLine,
which names the line, the place in it and the cause. What lines say of each other (that a number is declared,
that a recording is open) svval checks itself: docs/TRACE.md, "Refusals".

Run as a program with files as arguments, it checks the lines of these traces in the same way.
"""
import json
import math
import pathlib
import sys

SCHEMA = pathlib.Path(__file__).resolve().parent.parent / "docs" / "trace.schema.json"
PASSED_OVER = {"$comment", "$schema", "$defs", "title", "default"}
KINDS = {"object": dict, "array": list, "boolean": bool}


class BadLine(ValueError):
    """A line that is not in its form."""

    def __init__(self, line, place, cause):
        self.line, self.place, self.cause = line, place, cause
        super().__init__(f"line {line}, {place or 'the whole line'}: {cause}")


def shown(value):
    return json.dumps(value)


class Schema:
    """The keywords of JSON Schema that the schema of lines uses; a keyword that is not known here raises."""

    def __init__(self, path=SCHEMA):
        self.root = json.loads(pathlib.Path(path).read_text())

    def faults(self, value, form=None, place=""):
        """Each fault of a value as (place, cause)."""
        form = self.root if form is None else form
        for key, rule in form.items():
            if key in PASSED_OVER or key in ("then", "else"):
                continue
            check = getattr(self, "check_" + key.replace("$", ""), None)
            if check is None:
                raise NotImplementedError(f"the keyword {key} of the schema")
            yield from check(value, rule, form, place)

    def holds(self, value, form):
        return next(self.faults(value, form), None) is None

    def check_ref(self, value, rule, form, place):
        found = self.root
        for name in rule.removeprefix("#/").split("/"):
            found = found[name]
        yield from self.faults(value, found, place)

    def check_type(self, value, rule, form, place):
        if rule == "integer":
            # A number of a trace is decimal digits alone, so 1.0 is none; True is none either.
            right = isinstance(value, int) and not isinstance(value, bool)
        else:
            right = isinstance(value, KINDS[rule])
        if not right:
            yield place, f"{shown(value)} is not of the type {rule}"

    def check_properties(self, value, rule, form, place):
        for name, inner in rule.items():
            if isinstance(value, dict) and name in value:
                yield from self.faults(value[name], inner, f"{place}.{name}" if place else name)

    def check_required(self, value, rule, form, place):
        for name in rule:
            if isinstance(value, dict) and name not in value:
                yield place, f"the member {name} is missing"

    def check_dependentRequired(self, value, rule, form, place):
        for name, others in rule.items():
            for other in others:
                if isinstance(value, dict) and name in value and other not in value:
                    yield place, f"the member {name} stands without {other}"

    def check_items(self, value, rule, form, place):
        for at, item in enumerate(value if isinstance(value, list) else []):
            yield from self.faults(item, rule, f"{place}[{at}]")

    def check_minItems(self, value, rule, form, place):
        if isinstance(value, list) and len(value) < rule:
            yield place, f"a list of {len(value)}, and at least {rule} are asked for"

    def check_enum(self, value, rule, form, place):
        if value not in rule:
            yield place, f"{shown(value)} is none of {', '.join(map(str, rule))}"

    def check_const(self, value, rule, form, place):
        if value != rule or type(value) is not type(rule):  # 1.0 and True equal 1 in Python
            yield place, f"{shown(value)} is not {shown(rule)}"

    def check_minimum(self, value, rule, form, place):
        if isinstance(value, int) and value < rule:
            yield place, f"{value} is below {rule}"

    def check_maximum(self, value, rule, form, place):
        if isinstance(value, int) and value > rule:
            yield place, f"{value} is above {rule}"

    def check_allOf(self, value, rule, form, place):
        for inner in rule:
            yield from self.faults(value, inner, place)

    def check_anyOf(self, value, rule, form, place):
        if not any(self.holds(value, inner) for inner in rule):
            yield place, f"{shown(value)} is in none of its forms"

    def check_not(self, value, rule, form, place):
        if self.holds(value, rule):
            yield place, "it is in a form that is not allowed"

    def check_if(self, value, rule, form, place):
        branch = "then" if self.holds(value, rule) else "else"
        if branch in form:
            yield from self.faults(value, form[branch], place)


def between_members(line):
    """The faults of a line that no schema tells: what two members of it say of each other."""
    if line["op"] != "render_pass":
        return
    attachments, subpasses = len(line["attachments"]), len(line["subpasses"])
    for i, subpass in enumerate(line["subpasses"]):
        for k, use in enumerate(subpass["uses"]):
            if use["att"] >= attachments:
                place = f"subpasses[{i}].uses[{k}].att"
                yield place, f"{use['att']}, and the line has {attachments} attachments"
    for i, dep in enumerate(line["deps"]):
        ends = [dep[end] for end in ("from", "to") if dep[end] != "external"]
        for end in ("from", "to"):
            if dep[end] != "external" and dep[end] >= subpasses:
                yield f"deps[{i}].{end}", f"{dep[end]}, and the line has {subpasses} subpasses"
        if len(ends) == 2 and ends[1] < ends[0]:
            yield f"deps[{i}].to", f"{ends[1]} is an earlier subpass than {ends[0]}"


def check_line(number, line, schema):
    """Raises BadLine at the first fault of a line."""
    for place, cause in schema.faults(line):
        raise BadLine(number, place, cause)
    for place, cause in between_members(line):
        raise BadLine(number, place, cause)


def names(mask):
    """A mask as the list of its names: from "copy|blit", from "" or None (no name), or from a list."""
    if mask is None:
        return []
    return [name for name in mask.split("|") if name] if isinstance(mask, str) else list(mask)


def given(**members):
    """The members that are given: None stands for a missing one."""
    return {name: value for name, value in members.items() if value is not None}


def number_of(thing):
    """A recording stands for its number; every other thing is its number."""
    return thing.number if isinstance(thing, Recording) else thing


def on_bytes(res, stage, access, start, end):
    """An access to bytes of a buffer; `end` is not included."""
    return given(res=res, stage=stage, access=access, start=start, end=end)


def on_cells(res, stage, access, layout, mip=0, mips=1, layer=0, layers=1):
    """An access to mips and layers of an image, in the layout that the command names."""
    return given(res=res, stage=stage, access=access, mip=mip, mips=mips, layer=layer, layers=layers,
                 layout=layout)


def barrier(src, src_access, dst, dst_access):
    """VkMemoryBarrier2."""
    return {"src": names(src), "src_access": names(src_access), "dst": names(dst),
            "dst_access": names(dst_access)}


def buffer_barrier(src, src_access, dst, dst_access, res, start, end, src_family=None, dst_family=None):
    """VkBufferMemoryBarrier2; the families are given for an ownership transfer alone."""
    part = given(res=res, start=start, end=end, src_family=src_family, dst_family=dst_family)
    return barrier(src, src_access, dst, dst_access) | part


def image_barrier(src, src_access, dst, dst_access, res, old=None, new=None, mip=0, mips=1, layer=0, layers=1,
                  src_family=None, dst_family=None):
    """VkImageMemoryBarrier2 with its subresource range."""
    part = given(res=res, mip=mip, mips=mips, layer=layer, layers=layers, old=old, new=new,
                 src_family=src_family, dst_family=dst_family)
    return barrier(src, src_access, dst, dst_access) | part


def attachment(res, kind, layout, load, store, mip=0, layer=0, layers=1):
    """VkRenderingAttachmentInfo; `kind` is color or depth."""
    return {"res": res, "class": kind, "mip": mip, "layer": layer, "layers": layers, "layout": layout,
            "load": load, "store": store}


def pass_attachment(kind, load, store, initial, final):
    """VkAttachmentDescription2."""
    return {"class": kind, "load": load, "store": store, "initial": initial, "final": final}


def subpass(*uses):
    """VkSubpassDescription2: pairs of an attachment's number and the layout it is used in."""
    return {"uses": [{"att": att, "layout": layout} for att, layout in uses]}


def subpass_dependency(first, second, src, src_access, dst, dst_access):
    """VkSubpassDependency2: from subpass `first` to subpass `second`; one of them may be "external"."""
    return {"from": first, "to": second} | barrier(src, src_access, dst, dst_access)


def view(res, mip=0, layer=0, layers=1):
    """An image view of the framebuffer."""
    return {"res": res, "mip": mip, "layer": layer, "layers": layers}


def semaphore_use(sem, stages="all_commands", value=None):
    """VkSemaphoreSubmitInfo; `value` is given for a timeline semaphore alone."""
    return given(sem=sem, value=value, stages=names(stages))


def batch(recs=(), waits=(), signals=()):
    """VkSubmitInfo2."""
    lists = {"waits": list(waits), "recs": [number_of(rec) for rec in recs], "signals": list(signals)}
    return {name: items for name, items in lists.items() if items or name == "recs"}


class Recording:
    """A command buffer that is being recorded. Each call is a line of it."""

    def __init__(self, trace, number):
        self.trace, self.number = trace, number

    def add(self, op, **members):
        self.trace.add({"op": op, "rec": self.number} | members)

    def work(self, *accesses):
        """A draw, a dispatch, a copy, a resolve, a blit or a clear, with the accesses that it makes."""
        self.add("work", accesses=list(accesses))

    def barrier(self, *elements):
        """vkCmdPipelineBarrier2, with its memory, buffer and image barriers."""
        self.add("barrier", deps=list(elements))

    def set_event(self, event, *elements):
        """vkCmdSetEvent2, with the barriers of its VkDependencyInfo."""
        self.add("set_event", event=event, deps=list(elements))

    def wait_event(self, event):
        """vkCmdWaitEvents2 for one event; the barriers are those of the set."""
        self.add("wait_event", event=event)

    def reset_event(self, event):
        """vkCmdResetEvent2."""
        self.add("reset_event", event=event)

    def begin_rendering(self, *attachments):
        """vkCmdBeginRendering."""
        self.add("begin_rendering", attachments=list(attachments))

    def end_rendering(self):
        """vkCmdEndRendering."""
        self.add("end_rendering")

    def begin_pass(self, render_pass, *views):
        """vkCmdBeginRenderPass2, with the views of the framebuffer."""
        self.add("begin_pass", **{"pass": render_pass}, views=list(views))

    def next_subpass(self):
        """vkCmdNextSubpass2."""
        self.add("next_subpass")

    def end_pass(self):
        """vkCmdEndRenderPass2."""
        self.add("end_pass")

    def end(self):
        """vkEndCommandBuffer."""
        self.add("end")


class Trace:
    """The lines so far. A call that declares something returns its number: the given one, or the next."""

    def __init__(self, schema=None):
        self.schema = schema or Schema()
        self.lines = []
        self.lanes = {}
        self.next = {}

    def add(self, line):
        """Adds a line that is given as its members, if it is in its form."""
        check_line(len(self.lines) + 1, line, self.schema)
        self.lines.append(line)

    def declare(self, op, kind, number, /, **members):
        number = self.next.get(kind, 0) if number is None else number
        self.add({"op": op, kind: number} | given(**members))
        self.next[kind] = max(self.next.get(kind, 0), number + 1)
        return number

    def version(self):
        self.add({"op": "version", "number": 1})

    def queue(self, family, lane, number=None):
        number = self.declare("queue", "queue", number, family=family, lane=lane)
        self.lanes[number] = lane
        return number

    def buffer(self, size, sharing=None, number=None):
        return self.declare("buffer", "res", number, size=size, sharing=sharing)

    def image(self, mips=1, layers=1, initial=None, sharing=None, number=None):
        return self.declare("image", "res", number, mips=mips, layers=layers, initial=initial,
                            sharing=sharing)

    def semaphore(self, kind, initial=None, number=None):
        return self.declare("semaphore", "sem", number, kind=kind, initial=initial)

    def event(self, number=None):
        return self.declare("event", "event", number)

    def fence(self, signaled=None, number=None):
        return self.declare("fence", "fence", number, signaled=signaled)

    def render_pass(self, attachments, subpasses, deps, number=None):
        return self.declare("render_pass", "pass", number, attachments=list(attachments),
                            subpasses=list(subpasses), deps=list(deps))

    def begin(self, recorder, family, number=None):
        """vkBeginCommandBuffer; the number is that of the recording, which is new for each."""
        return Recording(self, self.declare("begin", "rec", number, recorder=recorder, family=family))

    def submit(self, queue, *batches, fence=None):
        """vkQueueSubmit2, by the lane that the queue was declared with."""
        lane = self.lanes.get(queue, 0)
        self.add(given(op="submit", lane=lane, queue=queue, batches=list(batches), fence=fence))

    def wait_fence(self, lane, fence):
        """vkWaitForFences for one fence, without a timeout."""
        self.add({"op": "wait_fence", "lane": lane, "fence": fence})

    def reset_fence(self, lane, fence):
        """vkResetFences for one fence."""
        self.add({"op": "reset_fence", "lane": lane, "fence": fence})

    def wait_queue(self, queue):
        """vkQueueWaitIdle, by the lane that the queue was declared with."""
        self.add({"op": "wait_queue", "lane": self.lanes.get(queue, 0), "queue": queue})

    def wait_device(self, lane):
        """vkDeviceWaitIdle."""
        self.add({"op": "wait_device", "lane": lane})

    def text(self):
        return "".join(json.dumps(line, separators=(",", ":")) + "\n" for line in self.lines)

    def write(self, path):
        pathlib.Path(path).write_text(self.text())


def no_number(text):
    raise ValueError(f"{text} is no number")


def digits(text):
    """A number that json takes for whole; -0 is no decimal digits alone, so it is not."""
    return float(text) if text == "-0" else int(text)


def fraction(text):
    """A number with a point or an exponent."""
    return float(text) if math.isfinite(float(text)) else no_number(text)


def read(line):
    """The value of a line's bytes, with numbers kept apart as svval keeps them."""
    return json.loads(line.decode("utf-8"), parse_constant=no_number, parse_int=digits, parse_float=fraction)


def check_bytes(text, schema=None):
    """Raises BadLine at the first line of a text that is not in its form."""
    schema = schema or Schema()
    for number, line in enumerate(text.split(b"\n"), 1):
        if line.strip(b" \t\r") == b"":
            continue
        try:
            members = read(line)
        except (ValueError, RecursionError) as cause:
            raise BadLine(number, "", f"it is not JSON: {cause}") from None
        check_line(number, members, schema)


def main(paths):
    bad = 0
    for path in paths:
        try:
            check_bytes(pathlib.Path(path).read_bytes())
        except BadLine as refusal:
            print(f"{path}: {refusal}")
            bad += 1
    print(f"{len(paths) - bad} in their forms, {bad} not")
    return 1 if bad else 0


if __name__ == "__main__":
    sys.exit(main(sys.argv[1:]))
