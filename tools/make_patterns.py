#!/usr/bin/env python3
"""Writes the traces of examples/patterns and examples/frame.

Each pattern is a function that makes the trace of its right form or, where `right` is false, of its broken
form; the frame is in frame_traces.py. What svval owes for a trace, the .out file beside it, is written by
hand and not by this program.

    make_patterns.py           writes the files
    make_patterns.py --check   says which files differ from what would be written; status 1 where one does
"""
import pathlib
import sys

from frame_traces import FRAMES
from trace_parts import (
    COLOR, COLOR_ACCESS, COLOR_WRITE, DEPTH, DEPTH_ACCESS, DEPTH_WRITE, DST, SAMPLED, SAMPLED_DEPTH, SRC,
    TESTS, color_from_undefined, draw, draw_color, draw_depth, one_queue, submit_one, two_queues)
from trace_writer import (
    Trace, attachment, barrier, batch, buffer_barrier, image_barrier, on_bytes, on_cells, pass_attachment,
    semaphore_use, subpass, subpass_dependency, view)

EXAMPLES = pathlib.Path(__file__).resolve().parent.parent / "examples"
PATTERNS = {}


def pattern(make):
    PATTERNS[make.__name__.replace("_", "-")] = make
    return make


# Buffers


@pattern
def compute_write_then_compute_read(right):
    trace, queue = one_queue()
    data, result = trace.buffer(1024), trace.buffer(1024)
    rec = trace.begin(recorder=0, family=0)
    rec.work(on_bytes(data, "compute_shader", "shader_storage_write", 0, 1024))
    if right:
        rec.barrier(barrier("compute_shader", "shader_storage_write", "compute_shader",
                            "shader_storage_read"))
    rec.work(on_bytes(data, "compute_shader", "shader_storage_read", 0, 1024),
             on_bytes(result, "compute_shader", "shader_storage_write", 0, 1024))
    submit_one(trace, queue, rec)
    return trace


@pattern
def compute_read_then_compute_write(right):
    trace, queue = one_queue()
    data, result = trace.buffer(1024), trace.buffer(1024)
    rec = trace.begin(recorder=0, family=0)
    rec.work(on_bytes(data, "compute_shader", "shader_storage_read", 0, 1024),
             on_bytes(result, "compute_shader", "shader_storage_write", 0, 1024))
    if right:
        rec.barrier(barrier("compute_shader", "", "compute_shader", ""))
    rec.work(on_bytes(data, "compute_shader", "shader_storage_write", 0, 1024))
    submit_one(trace, queue, rec)
    return trace


def compute_then_draw(size, dst, dst_access, stage, access):
    """A dispatch writes a buffer, a barrier with this destination half follows, and a draw reads it."""
    trace, queue = one_queue()
    data = trace.buffer(size)
    rec = trace.begin(recorder=0, family=0)
    rec.work(on_bytes(data, "compute_shader", "shader_storage_write", 0, size))
    rec.barrier(barrier("compute_shader", "shader_storage_write", dst, dst_access))
    draw(rec, on_bytes(data, stage, access, 0, size))
    submit_one(trace, queue, rec)
    return trace


@pattern
def compute_write_then_indirect_draw(right):
    dst = ("draw_indirect", "indirect_command_read") if right else ("vertex_shader", "shader_storage_read")
    return compute_then_draw(16, *dst, "draw_indirect", "indirect_command_read")


@pattern
def compute_write_then_index_buffer(right):
    dst = ("index_input", "index_read") if right else ("vertex_attribute_input", "vertex_attribute_read")
    return compute_then_draw(600, *dst, "index_input", "index_read")


@pattern
def compute_write_then_uniform_buffer(right):
    access = "uniform_read" if right else "shader_storage_read"
    return compute_then_draw(256, "fragment_shader", access, "fragment_shader", "uniform_read")


@pattern
def compute_write_then_indirect_and_uniform(right):
    trace, queue = one_queue()
    data = trace.buffer(256)
    rec = trace.begin(recorder=0, family=0)
    rec.work(on_bytes(data, "compute_shader", "shader_storage_write", 0, 256))
    dst = ("draw_indirect", "indirect_command_read")
    if right:
        dst = ("draw_indirect|fragment_shader", "indirect_command_read|uniform_read")
    rec.barrier(barrier("compute_shader", "shader_storage_write", *dst))
    draw(rec, on_bytes(data, "draw_indirect", "indirect_command_read", 0, 16),
         on_bytes(data, "fragment_shader", "uniform_read", 0, 256))
    submit_one(trace, queue, rec)
    return trace


@pattern
def particles_updated_then_drawn(right):
    trace, queue = one_queue()
    particles = trace.buffer(512)
    rec = trace.begin(recorder=0, family=0)
    rec.work(on_bytes(particles, "compute_shader", "shader_storage_write", 0, 512))
    rec.barrier(buffer_barrier("compute_shader", "shader_storage_write", "vertex_attribute_input",
                               "vertex_attribute_read", particles, 0, 512 if right else 256))
    draw(rec, on_bytes(particles, "vertex_attribute_input", "vertex_attribute_read", 0, 512))
    submit_one(trace, queue, rec)
    return trace


@pattern
def fill_then_copy(right):
    trace, queue = one_queue()
    target, source = trace.buffer(1024), trace.buffer(256)
    rec = trace.begin(recorder=0, family=0)
    rec.work(on_bytes(target, "clear", "transfer_write", 0, 1024))
    if right:
        rec.barrier(barrier("clear", "transfer_write", "copy", "transfer_write"))
    rec.work(on_bytes(source, "copy", "transfer_read", 0, 256),
             on_bytes(target, "copy", "transfer_write", 0, 256))
    submit_one(trace, queue, rec)
    return trace


@pattern
def vertex_buffer_upload(right):
    trace, queue = one_queue()
    staging, vertices = trace.buffer(4096), trace.buffer(4096)
    rec = trace.begin(recorder=0, family=0)
    rec.work(on_bytes(staging, "copy", "transfer_read", 0, 4096),
             on_bytes(vertices, "copy", "transfer_write", 0, 4096))
    dst = ("vertex_attribute_input", "vertex_attribute_read") if right else ("vertex_shader", "memory_read")
    rec.barrier(barrier("copy", "transfer_write", *dst))
    draw(rec, on_bytes(vertices, "vertex_attribute_input", "vertex_attribute_read", 0, 4096))
    submit_one(trace, queue, rec)
    return trace


@pattern
def chain_of_barriers(right):
    trace, queue = one_queue()
    data = trace.buffer(1024)
    rec = trace.begin(recorder=0, family=0)
    rec.work(on_bytes(data, "copy", "transfer_write", 0, 1024))
    rec.barrier(barrier("copy", "transfer_write", "compute_shader", "shader_storage_read"))
    rec.work(on_bytes(data, "compute_shader", "shader_storage_read", 0, 1024))
    src = "compute_shader" if right else "vertex_shader"
    rec.barrier(barrier(src, "", "fragment_shader", "shader_storage_read"))
    draw(rec, on_bytes(data, "fragment_shader", "shader_storage_read", 0, 1024))
    submit_one(trace, queue, rec)
    return trace


@pattern
def split_barrier(right):
    trace, queue = one_queue()
    data, other = trace.buffer(1024), trace.buffer(1024)
    written = trace.event()
    rec = trace.begin(recorder=0, family=0)
    element = barrier("compute_shader", "shader_storage_write", "compute_shader", "shader_storage_read")
    if not right:
        rec.set_event(written, element)
    rec.work(on_bytes(data, "compute_shader", "shader_storage_write", 0, 1024))
    if right:
        rec.set_event(written, element)
    rec.work(on_bytes(other, "compute_shader", "shader_storage_write", 0, 1024))
    rec.wait_event(written)
    rec.work(on_bytes(data, "compute_shader", "shader_storage_read", 0, 1024))
    submit_one(trace, queue, rec)
    return trace


@pattern
def full_barrier(right):
    trace, queue = one_queue()
    data = trace.buffer(1024)
    rec = trace.begin(recorder=0, family=0)
    rec.work(on_bytes(data, "clear", "transfer_write", 0, 1024))
    accesses = ("memory_write", "memory_read|memory_write") if right else ("", "")
    rec.barrier(barrier("all_commands", accesses[0], "all_commands", accesses[1]))
    rec.work(on_bytes(data, "compute_shader", "shader_storage_read", 0, 1024))
    submit_one(trace, queue, rec)
    return trace


@pattern
def frames_in_flight(right):
    trace, queue = one_queue()
    staging, uniforms = trace.buffer(768), [trace.buffer(256), trace.buffer(256)]
    done = [trace.fence(), trace.fence()]
    recs = []
    for frame in range(3):
        rec = trace.begin(recorder=0, family=0)
        own = uniforms[frame % 2]
        rec.work(on_bytes(staging, "copy", "transfer_read", 256 * frame, 256 * (frame + 1)),
                 on_bytes(own, "copy", "transfer_write", 0, 256))
        rec.barrier(barrier("copy", "transfer_write", "vertex_shader", "uniform_read"))
        draw(rec, on_bytes(own, "vertex_shader", "uniform_read", 0, 256))
        rec.end()
        recs.append(rec)
    trace.submit(queue, batch(recs=[recs[0]]), fence=done[0])
    trace.submit(queue, batch(recs=[recs[1]]), fence=done[1])
    if right:
        trace.wait_fence(lane=0, fence=done[0])
    trace.submit(queue, batch(recs=[recs[2]]))
    return trace


# Images


@pattern
def storage_image_then_sampled(right):
    trace, queue = one_queue()
    image = trace.image()
    rec = trace.begin(recorder=0, family=0)
    rec.barrier(image_barrier("", "", "compute_shader", "shader_storage_write", image, "undefined",
                              "general"))
    rec.work(on_cells(image, "compute_shader", "shader_storage_write", "general"))
    rec.barrier(image_barrier("compute_shader", "shader_storage_write" if right else "", "fragment_shader",
                              "shader_sampled_read", image, "general", SAMPLED))
    draw(rec, on_cells(image, "fragment_shader", "shader_sampled_read", SAMPLED))
    submit_one(trace, queue, rec)
    return trace


@pattern
def texture_upload(right):
    trace, queue = one_queue()
    staging, texture = trace.buffer(4096), trace.image()
    rec = trace.begin(recorder=0, family=0)
    rec.barrier(image_barrier("", "", "copy", "transfer_write", texture, "undefined", DST))
    rec.work(on_bytes(staging, "copy", "transfer_read", 0, 4096),
             on_cells(texture, "copy", "transfer_write", DST))
    if right:
        rec.barrier(image_barrier("copy", "transfer_write", "fragment_shader", "shader_sampled_read",
                                  texture, DST, SAMPLED))
    draw(rec, on_cells(texture, "fragment_shader", "shader_sampled_read", SAMPLED))
    submit_one(trace, queue, rec)
    return trace


@pattern
def mip_chain_by_blits(right):
    trace, queue = one_queue()
    staging, texture = trace.buffer(4096), trace.image(mips=3)
    rec = trace.begin(recorder=0, family=0)
    rec.barrier(image_barrier("", "", "copy|blit", "transfer_write", texture, "undefined", DST, mips=3))
    rec.work(on_bytes(staging, "copy", "transfer_read", 0, 4096),
             on_cells(texture, "copy", "transfer_write", DST))
    rec.barrier(image_barrier("copy", "transfer_write", "blit", "transfer_read", texture, DST, SRC))
    rec.work(on_cells(texture, "blit", "transfer_read", SRC),
             on_cells(texture, "blit", "transfer_write", DST, mip=1))
    if right:
        rec.barrier(image_barrier("blit", "transfer_write", "blit", "transfer_read", texture, DST, SRC,
                                  mip=1))
    rec.work(on_cells(texture, "blit", "transfer_read", SRC, mip=1),
             on_cells(texture, "blit", "transfer_write", DST, mip=2))
    rec.barrier(
        image_barrier("blit", "", "fragment_shader", "shader_sampled_read", texture, SRC, SAMPLED, mips=2),
        image_barrier("blit", "transfer_write", "fragment_shader", "shader_sampled_read", texture, DST,
                      SAMPLED, mip=2))
    draw(rec, on_cells(texture, "fragment_shader", "shader_sampled_read", SAMPLED, mips=3))
    submit_one(trace, queue, rec)
    return trace


# Attachments


@pattern
def color_attachment_then_sampled(right):
    trace, queue = one_queue()
    image = trace.image()
    rec = trace.begin(recorder=0, family=0)
    color_from_undefined(rec, image)
    draw_color(rec, image)
    src = ("color_attachment_output", COLOR_WRITE) if right else ("top_of_pipe", "")
    rec.barrier(image_barrier(*src, "fragment_shader", "shader_sampled_read", image, COLOR, SAMPLED))
    draw(rec, on_cells(image, "fragment_shader", "shader_sampled_read", SAMPLED))
    submit_one(trace, queue, rec)
    return trace


@pattern
def color_attachment_then_compute(right):
    trace, queue = one_queue()
    scene, result = trace.image(), trace.image()
    rec = trace.begin(recorder=0, family=0)
    rec.barrier(
        image_barrier("", "", "color_attachment_output", COLOR_ACCESS, scene, "undefined", COLOR),
        image_barrier("", "", "compute_shader", "shader_storage_write", result, "undefined", "general"))
    draw_color(rec, scene)
    rec.barrier(image_barrier("color_attachment_output", COLOR_WRITE,
                              "compute_shader" if right else "fragment_shader", "shader_sampled_read",
                              scene, COLOR, SAMPLED))
    rec.work(on_cells(scene, "compute_shader", "shader_sampled_read", SAMPLED),
             on_cells(result, "compute_shader", "shader_storage_write", "general"))
    submit_one(trace, queue, rec)
    return trace


@pattern
def depth_attachment_then_sampled(right):
    trace, queue = one_queue()
    image = trace.image()
    rec = trace.begin(recorder=0, family=0)
    rec.barrier(image_barrier("", "", TESTS, DEPTH_ACCESS, image, "undefined", DEPTH))
    draw_depth(rec, image)
    rec.barrier(image_barrier(TESTS if right else "early_fragment_tests", DEPTH_WRITE, "fragment_shader",
                              "shader_sampled_read", image, DEPTH, SAMPLED_DEPTH))
    draw(rec, on_cells(image, "fragment_shader", "shader_sampled_read", SAMPLED_DEPTH))
    submit_one(trace, queue, rec)
    return trace


@pattern
def depth_tested_and_sampled(right):
    trace, queue = one_queue()
    image = trace.image()
    rec = trace.begin(recorder=0, family=0)
    rec.barrier(image_barrier("", "", TESTS, DEPTH_ACCESS, image, "undefined", DEPTH))
    draw_depth(rec, image)
    rec.barrier(image_barrier(TESTS, DEPTH_WRITE, f"{TESTS}|fragment_shader",
                              "depth_stencil_attachment_read|shader_sampled_read", image, DEPTH,
                              SAMPLED_DEPTH))
    rec.begin_rendering(attachment(image, "depth", SAMPLED_DEPTH, "load", "none" if right else "store"))
    rec.work(on_cells(image, "early_fragment_tests", "depth_stencil_attachment_read", SAMPLED_DEPTH),
             on_cells(image, "fragment_shader", "shader_sampled_read", SAMPLED_DEPTH))
    rec.end_rendering()
    submit_one(trace, queue, rec)
    return trace


@pattern
def shadow_map_cascades(right):
    trace, queue = one_queue()
    shadow = trace.image(layers=2)
    rec = trace.begin(recorder=0, family=0)
    rec.barrier(image_barrier("", "", TESTS, DEPTH_ACCESS, shadow, "undefined", DEPTH, layers=2))
    draw_depth(rec, shadow, layer=0)
    draw_depth(rec, shadow, layer=1)
    rec.barrier(image_barrier(TESTS, DEPTH_WRITE, "fragment_shader", "shader_sampled_read", shadow, DEPTH,
                              SAMPLED_DEPTH, layers=2 if right else 1))
    draw(rec, on_cells(shadow, "fragment_shader", "shader_sampled_read", SAMPLED_DEPTH, layers=2))
    submit_one(trace, queue, rec)
    return trace


@pattern
def depth_attachment_used_again(right):
    trace, queue = one_queue()
    image = trace.image()
    rec = trace.begin(recorder=0, family=0)
    rec.barrier(image_barrier("", "", TESTS, DEPTH_ACCESS, image, "undefined", DEPTH))
    draw_depth(rec, image)
    rec.barrier(barrier(TESTS, DEPTH_WRITE, TESTS if right else "late_fragment_tests", DEPTH_ACCESS))
    draw_depth(rec, image)
    submit_one(trace, queue, rec)
    return trace


@pattern
def color_attachment_drawn_over(right):
    trace, queue = one_queue()
    image = trace.image()
    rec = trace.begin(recorder=0, family=0)
    color_from_undefined(rec, image)
    draw_color(rec, image)
    rec.barrier(barrier("color_attachment_output", COLOR_WRITE, "color_attachment_output",
                        COLOR_ACCESS if right else COLOR_WRITE))
    blend = on_cells(image, "color_attachment_output", "color_attachment_read", COLOR)
    draw_color(rec, image, load="load", accesses=[blend])
    submit_one(trace, queue, rec)
    return trace


@pattern
def sampled_then_rendered(right):
    trace, queue = one_queue()
    image = trace.image()
    rec = trace.begin(recorder=0, family=0)
    color_from_undefined(rec, image)
    draw_color(rec, image)
    rec.barrier(image_barrier("color_attachment_output", COLOR_WRITE, "fragment_shader",
                              "shader_sampled_read", image, COLOR, SAMPLED))
    draw(rec, on_cells(image, "fragment_shader", "shader_sampled_read", SAMPLED))
    rec.barrier(image_barrier("fragment_shader" if right else "top_of_pipe", "", "color_attachment_output",
                              COLOR_ACCESS, image, "undefined", COLOR))
    draw_color(rec, image)
    submit_one(trace, queue, rec)
    return trace


@pattern
def rendering_then_resolve(right):
    trace, queue = one_queue()
    samples, image = trace.image(), trace.image()
    rec = trace.begin(recorder=0, family=0)
    rec.barrier(
        image_barrier("", "", "color_attachment_output", COLOR_ACCESS, samples, "undefined", COLOR),
        image_barrier("", "", "resolve", "transfer_write", image, "undefined", DST))
    draw_color(rec, samples)
    rec.barrier(image_barrier("color_attachment_output", COLOR_WRITE, "resolve" if right else "copy",
                              "transfer_read", samples, COLOR, SRC))
    rec.work(on_cells(samples, "resolve", "transfer_read", SRC),
             on_cells(image, "resolve", "transfer_write", DST))
    submit_one(trace, queue, rec)
    return trace


@pattern
def resolve_attachment_then_sampled(right):
    trace, queue = one_queue()
    samples, image = trace.image(), trace.image()
    rec = trace.begin(recorder=0, family=0)
    rec.barrier(*(image_barrier("", "", "color_attachment_output", COLOR_ACCESS, each, "undefined", COLOR)
                  for each in (samples, image)))
    rec.begin_rendering(attachment(samples, "color", COLOR, "clear", "dont_care"))
    rec.work(on_cells(samples, "color_attachment_output", COLOR_WRITE, COLOR))
    # The resolve at the end of the rendering.
    rec.work(on_cells(samples, "color_attachment_output", "color_attachment_read", COLOR),
             on_cells(image, "color_attachment_output", COLOR_WRITE, COLOR))
    rec.end_rendering()
    src = ("color_attachment_output", COLOR_WRITE) if right else ("resolve", "transfer_write")
    rec.barrier(image_barrier(*src, "fragment_shader", "shader_sampled_read", image, COLOR, SAMPLED))
    draw(rec, on_cells(image, "fragment_shader", "shader_sampled_read", SAMPLED))
    submit_one(trace, queue, rec)
    return trace


# Render passes


@pattern
def deferred_subpasses(right):
    trace, queue = one_queue()
    surface, depth, lit = trace.image(), trace.image(), trace.image()
    deps = [subpass_dependency("external", 0, f"color_attachment_output|{TESTS}", "",
                               f"color_attachment_output|{TESTS}", f"{COLOR_WRITE}|{DEPTH_ACCESS}")]
    if right:
        deps.append(subpass_dependency(0, 1, "color_attachment_output", COLOR_WRITE, "fragment_shader",
                                       "input_attachment_read"))
    deferred = trace.render_pass(
        [pass_attachment("color", "clear", "none", "undefined", SAMPLED),
         pass_attachment("depth", "clear", "none", "undefined", DEPTH),
         pass_attachment("color", "clear", "store", "undefined", SAMPLED)],
        [subpass((0, COLOR), (1, DEPTH)), subpass((0, SAMPLED), (2, COLOR))],
        deps)
    rec = trace.begin(recorder=0, family=0)
    rec.begin_pass(deferred, view(surface), view(depth), view(lit))
    rec.work(on_cells(surface, "color_attachment_output", COLOR_WRITE, COLOR),
             on_cells(depth, "early_fragment_tests", "depth_stencil_attachment_read", DEPTH),
             on_cells(depth, "late_fragment_tests", DEPTH_WRITE, DEPTH))
    rec.next_subpass()
    rec.work(on_cells(surface, "fragment_shader", "input_attachment_read", SAMPLED),
             on_cells(lit, "color_attachment_output", COLOR_WRITE, COLOR))
    rec.end_pass()
    submit_one(trace, queue, rec)
    return trace


@pattern
def upload_before_a_render_pass(right):
    trace, queue = one_queue()
    uniforms, staging, image = trace.buffer(256), trace.buffer(256), trace.image()
    if right:
        dep = subpass_dependency("external", 0, "copy|color_attachment_output", "transfer_write",
                                 "fragment_shader|color_attachment_output", f"uniform_read|{COLOR_WRITE}")
    else:
        dep = subpass_dependency("external", 0, "color_attachment_output", "", "color_attachment_output",
                                 COLOR_WRITE)
    render_pass = trace.render_pass([pass_attachment("color", "clear", "store", "undefined", SRC)],
                                    [subpass((0, COLOR))], [dep])
    rec = trace.begin(recorder=0, family=0)
    rec.work(on_bytes(staging, "copy", "transfer_read", 0, 256),
             on_bytes(uniforms, "copy", "transfer_write", 0, 256))
    rec.begin_pass(render_pass, view(image))
    rec.work(on_bytes(uniforms, "fragment_shader", "uniform_read", 0, 256),
             on_cells(image, "color_attachment_output", COLOR_WRITE, COLOR))
    rec.end_pass()
    submit_one(trace, queue, rec)
    return trace


# Queues


def produce_and_draw(stage, access, reads, read_access, waits, signals, kind="binary", wait_first=False):
    """Queue 1 writes a buffer that both families share, queue 0 draws from it."""
    trace, graphics, other = two_queues()
    data = trace.buffer(1024, sharing="concurrent")
    sem = trace.semaphore(kind, initial=0 if kind == "timeline" else None)
    value = 1 if kind == "timeline" else None
    first = trace.begin(recorder=1, family=1)
    first.work(on_bytes(data, stage, access, 0, 1024))
    first.end()
    second = trace.begin(recorder=0, family=0)
    draw(second, on_bytes(data, reads, read_access, 0, 1024))
    second.end()
    produced = batch(recs=[first], signals=[semaphore_use(sem, mask, value) for mask in signals])
    drawn = batch(recs=[second], waits=[semaphore_use(sem, mask, value) for mask in waits])
    calls = [(other, produced), (graphics, drawn)]
    for queue, work in reversed(calls) if wait_first else calls:
        trace.submit(queue, work)
    return trace


@pattern
def compute_queue_then_graphics_queue(right):
    waits, signals = (["vertex_shader"], ["compute_shader"]) if right else ([], [])
    return produce_and_draw("compute_shader", "shader_storage_write", "vertex_shader", "shader_storage_read",
                            waits, signals)


@pattern
def semaphore_waited_at_a_stage(right):
    wait = "vertex_attribute_input" if right else "color_attachment_output"
    return produce_and_draw("copy", "transfer_write", "vertex_attribute_input", "vertex_attribute_read",
                            [wait], ["copy"])


@pattern
def upload_then_queue_idle(right):
    trace = Trace()
    graphics, transfer = trace.queue(family=0, lane=0), trace.queue(family=1, lane=0)
    staging, vertices = trace.buffer(4096), trace.buffer(4096, sharing="concurrent")
    first = trace.begin(recorder=0, family=1)
    first.work(on_bytes(staging, "copy", "transfer_read", 0, 4096),
               on_bytes(vertices, "copy", "transfer_write", 0, 4096))
    first.end()
    second = trace.begin(recorder=0, family=0)
    draw(second, on_bytes(vertices, "vertex_attribute_input", "vertex_attribute_read", 0, 4096))
    second.end()
    trace.submit(transfer, batch(recs=[first]))
    if right:
        trace.wait_queue(transfer)
    trace.submit(graphics, batch(recs=[second]))
    return trace


@pattern
def swapchain_image_drawn_again(right):
    trace, queue = one_queue()
    presentation = trace.queue(family=0, lane=0)
    image = trace.image()
    acquired, drawn = trace.semaphore("binary"), trace.semaphore("binary")
    frames = []
    for old in ("undefined", "present_src"):
        rec = trace.begin(recorder=0, family=0)
        src = "color_attachment_output" if right else "top_of_pipe"
        rec.barrier(image_barrier(src, "", "color_attachment_output", COLOR_WRITE, image, old, COLOR))
        draw_color(rec, image)
        rec.barrier(image_barrier("color_attachment_output", COLOR_WRITE, "", "", image, COLOR,
                                  "present_src"))
        rec.end()
        frames.append(rec)
    for rec in frames:
        trace.submit(presentation, batch(signals=[semaphore_use(acquired)]))
        trace.submit(queue, batch(recs=[rec], waits=[semaphore_use(acquired, "color_attachment_output")],
                                  signals=[semaphore_use(drawn)]))
        trace.submit(presentation, batch(waits=[semaphore_use(drawn)]))
    return trace


@pattern
def timeline_wait_before_its_signal(right):
    signal = "compute_shader" if right else "copy"
    return produce_and_draw("compute_shader", "shader_storage_write", "fragment_shader",
                            "shader_storage_read",
                            ["fragment_shader"], [signal], kind="timeline", wait_first=True)


@pattern
def timeline_counts_frames(right):
    trace, graphics, compute = two_queues()
    data = trace.buffer(1024, sharing="concurrent")
    frames = trace.semaphore("timeline", initial=0)
    first = trace.begin(recorder=1, family=1)
    first.work(on_bytes(data, "compute_shader", "shader_storage_write", 0, 1024))
    first.end()
    second = trace.begin(recorder=1, family=1)
    second.barrier(barrier("compute_shader", "shader_storage_write", "compute_shader",
                           "shader_storage_write"))
    second.work(on_bytes(data, "compute_shader", "shader_storage_write", 0, 1024))
    second.end()
    last = trace.begin(recorder=0, family=0)
    draw(last, on_bytes(data, "fragment_shader", "shader_storage_read", 0, 1024))
    last.end()
    trace.submit(compute, batch(recs=[first], signals=[semaphore_use(frames, "compute_shader", 1)]))
    trace.submit(compute, batch(recs=[second], signals=[semaphore_use(frames, "compute_shader",
                                                                      2 if right else 1)]))
    trace.submit(graphics, batch(recs=[last], waits=[semaphore_use(frames, "fragment_shader", 2)]))
    return trace


@pattern
def buffer_changes_its_family(right):
    trace, graphics, transfer = two_queues()
    staging, vertices = trace.buffer(4096), trace.buffer(4096)
    sem = trace.semaphore("binary")
    first = trace.begin(recorder=1, family=1)
    first.work(on_bytes(staging, "copy", "transfer_read", 0, 4096),
               on_bytes(vertices, "copy", "transfer_write", 0, 4096))
    first.barrier(buffer_barrier("copy", "transfer_write", "", "", vertices, 0, 4096, src_family=1,
                                 dst_family=0))
    first.end()
    second = trace.begin(recorder=0, family=0)
    if right:
        second.barrier(buffer_barrier("vertex_attribute_input", "", "vertex_attribute_input",
                                      "vertex_attribute_read", vertices, 0, 4096, src_family=1, dst_family=0))
    draw(second, on_bytes(vertices, "vertex_attribute_input", "vertex_attribute_read", 0, 4096))
    second.end()
    trace.submit(transfer, batch(recs=[first], signals=[semaphore_use(sem)]))
    trace.submit(graphics, batch(recs=[second], waits=[semaphore_use(sem, "vertex_attribute_input")]))
    return trace


@pattern
def image_changes_its_family(right):
    trace, graphics, transfer = two_queues()
    staging, texture = trace.buffer(4096), trace.image()
    sem = trace.semaphore("binary")
    first = trace.begin(recorder=1, family=1)
    first.barrier(image_barrier("", "", "copy", "transfer_write", texture, "undefined", DST))
    first.work(on_bytes(staging, "copy", "transfer_read", 0, 4096),
               on_cells(texture, "copy", "transfer_write", DST))
    if right:
        first.barrier(image_barrier("copy", "transfer_write", "", "", texture, DST, SAMPLED, src_family=1,
                                    dst_family=0))
    first.end()
    second = trace.begin(recorder=0, family=0)
    second.barrier(image_barrier("fragment_shader", "", "fragment_shader", "shader_sampled_read", texture,
                                 DST, SAMPLED, src_family=1, dst_family=0))
    draw(second, on_cells(texture, "fragment_shader", "shader_sampled_read", SAMPLED))
    second.end()
    trace.submit(transfer, batch(recs=[first], signals=[semaphore_use(sem)]))
    trace.submit(graphics, batch(recs=[second], waits=[semaphore_use(sem, "fragment_shader")]))
    return trace


def files():
    """Each file that this program writes, with its text."""
    for name, make in PATTERNS.items():
        yield EXAMPLES / "patterns" / f"{name}.trace", make(True).text()
        yield EXAMPLES / "patterns" / f"{name}-broken.trace", make(False).text()
    for name, make in FRAMES.items():
        yield EXAMPLES / "frame" / f"{name}.trace", make().text()


def differing():
    """The files that are not as this program would write them, and traces that it does not write."""
    made = dict(files())
    kept = {path for folder in ("patterns", "frame") for path in (EXAMPLES / folder).glob("*.trace")}
    for path in sorted(made.keys() | kept):
        if path not in made or path not in kept or path.read_text() != made[path]:
            yield path


def main(words):
    if words == ["--check"]:
        found = list(differing())
        for path in found:
            print(f"differs: {path}")
        return 1 if found else 0
    for path, text in files():
        path.parent.mkdir(parents=True, exist_ok=True)
        path.write_text(text)
    return 0


if __name__ == "__main__":
    sys.exit(main(sys.argv[1:]))
