"""The traces of examples/frame: a frame on two queues, whole, changed, and with one fault."""
from trace_parts import (
    COLOR, COLOR_ACCESS, COLOR_WRITE, DEPTH, DEPTH_ACCESS, DEPTH_WRITE, DST, SAMPLED, TESTS, draw_color,
    two_queues)
from trace_writer import (
    attachment, barrier, batch, image_barrier, on_bytes, on_cells, pass_attachment, semaphore_use, subpass,
    subpass_dependency, view)

FRAMES = {}


def upload(trace, staging, texture):
    """Family 1 copies the texture and releases it to family 0."""
    rec = trace.begin(recorder=1, family=1)
    rec.barrier(image_barrier("", "", "copy", "transfer_write", texture, "undefined", DST))
    rec.work(on_bytes(staging, "copy", "transfer_read", 0, 4096),
             on_cells(texture, "copy", "transfer_write", DST))
    rec.barrier(image_barrier("copy", "transfer_write", "", "", texture, DST, SAMPLED, src_family=1,
                              dst_family=0))
    rec.end()
    return rec


def shadow_pass(trace, shadow, render_pass):
    """The shadow map is drawn: by dynamic rendering between two barriers, or in a render pass."""
    rec = trace.begin(recorder=0, family=0)
    draws = [on_cells(shadow, "early_fragment_tests", "depth_stencil_attachment_read", DEPTH),
             on_cells(shadow, "late_fragment_tests", DEPTH_WRITE, DEPTH)]
    if render_pass is None:
        rec.barrier(image_barrier("", "", TESTS, DEPTH_ACCESS, shadow, "undefined", DEPTH))
        rec.begin_rendering(attachment(shadow, "depth", DEPTH, "clear", "store"))
        rec.work(*draws)
        rec.end_rendering()
        rec.barrier(image_barrier("late_fragment_tests", DEPTH_WRITE, "fragment_shader",
                                  "shader_sampled_read", shadow, DEPTH, SAMPLED))
    else:
        rec.begin_pass(render_pass, view(shadow))
        rec.work(*draws)
        rec.end_pass()
    rec.end()
    return rec


def color_pass(trace, images, buffers, families, between):
    """The scene is drawn with both images, a compute shader reads it, and a copy reads what that wrote."""
    texture, shadow, color = images
    computed, readback = buffers
    rec = trace.begin(recorder=1, family=0)
    rec.barrier(
        image_barrier("all_commands", "", "fragment_shader", "shader_sampled_read", texture, DST, SAMPLED,
                      **families),
        image_barrier("", "", "color_attachment_output", COLOR_ACCESS, color, "undefined", COLOR))
    draw_color(rec, color, accesses=[on_cells(image, "fragment_shader", "shader_sampled_read", SAMPLED)
                                     for image in (texture, shadow)])
    rec.barrier(image_barrier("color_attachment_output", COLOR_WRITE, "compute_shader",
                              "shader_sampled_read", color, COLOR, SAMPLED))
    rec.work(on_cells(color, "compute_shader", "shader_sampled_read", SAMPLED),
             on_bytes(computed, "compute_shader", "shader_storage_write", 0, 4096))
    between(rec)
    rec.work(on_bytes(computed, "copy", "transfer_read", 0, 4096),
             on_bytes(readback, "copy", "transfer_write", 0, 4096))
    rec.end()
    return rec


TO_COPY = barrier("compute_shader", "shader_storage_write", "copy", "transfer_read")


def frame(between=lambda rec: rec.barrier(TO_COPY), event=False, in_pass=False, wait_first=False,
          acquire=True):
    trace, graphics, transfer = two_queues()
    staging, texture, shadow, color = trace.buffer(4096), trace.image(), trace.image(), trace.image()
    buffers = trace.buffer(4096), trace.buffer(4096)
    uploaded = trace.semaphore("timeline", initial=0)
    done = trace.fence()
    if event:
        computed = trace.event()
        between = lambda rec: (rec.set_event(computed, TO_COPY), rec.wait_event(computed))
    render_pass = None
    if in_pass:
        render_pass = trace.render_pass(
            [pass_attachment("depth", "clear", "store", "undefined", SAMPLED)], [subpass((0, DEPTH))],
            [subpass_dependency("external", 0, TESTS, "", TESTS, DEPTH_ACCESS),
             subpass_dependency(0, "external", TESTS, DEPTH_WRITE, "fragment_shader", "shader_sampled_read")])
    families = {"src_family": 1, "dst_family": 0} if acquire else {}
    first = upload(trace, staging, texture)
    second = shadow_pass(trace, shadow, render_pass)
    third = color_pass(trace, (texture, shadow, color), buffers, families, between)
    filled = batch(recs=[first], signals=[semaphore_use(uploaded, value=1)])
    drawn = batch(recs=[second, third], waits=[semaphore_use(uploaded, value=1)])
    if not wait_first:
        trace.submit(transfer, filled)
    trace.submit(graphics, drawn, fence=done)
    trace.wait_fence(lane=0, fence=done)
    if wait_first:
        trace.submit(transfer, filled)
    return trace


FRAMES["frame"] = lambda: frame()
FRAMES["frame-without-a-barrier"] = lambda: frame(between=lambda rec: None)
FRAMES["frame-with-a-render-pass"] = lambda: frame(in_pass=True)
FRAMES["frame-with-an-event"] = lambda: frame(event=True)
FRAMES["frame-with-the-wait-first"] = lambda: frame(wait_first=True)
FRAMES["frame-with-a-wrong-transfer"] = lambda: frame(acquire=False)
