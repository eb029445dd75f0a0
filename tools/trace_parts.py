"""What the traces of the examples share: names of masks and layouts, queues, and draws."""
from trace_writer import Trace, attachment, batch, image_barrier, on_cells

COLOR, DEPTH = "color_attachment_optimal", "depth_stencil_attachment_optimal"
SAMPLED, SAMPLED_DEPTH = "shader_read_only_optimal", "depth_stencil_read_only_optimal"
SRC, DST = "transfer_src_optimal", "transfer_dst_optimal"
TESTS = "early_fragment_tests|late_fragment_tests"
DEPTH_ACCESS = "depth_stencil_attachment_read|depth_stencil_attachment_write"
COLOR_ACCESS = "color_attachment_read|color_attachment_write"
DEPTH_WRITE, COLOR_WRITE = "depth_stencil_attachment_write", "color_attachment_write"


def one_queue():
    """A trace with one queue, which lane 0 submits to."""
    trace = Trace()
    return trace, trace.queue(family=0, lane=0)


def two_queues():
    """Queue 0 for graphics, of family 0, and queue 1 of family 1, each with a lane of its own."""
    trace = Trace()
    return trace, trace.queue(family=0, lane=0), trace.queue(family=1, lane=1)


def submit_one(trace, queue, rec):
    rec.end()
    trace.submit(queue, batch(recs=[rec]))


def draw(rec, *accesses):
    """A draw in a render scope of its own, whose attachments are left out."""
    rec.begin_rendering()
    rec.work(*accesses)
    rec.end_rendering()


def draw_color(rec, image, load="clear", accesses=()):
    """A draw to a colour attachment, which is loaded and stored."""
    rec.begin_rendering(attachment(image, "color", COLOR, load, "store"))
    rec.work(*accesses, on_cells(image, "color_attachment_output", COLOR_WRITE, COLOR))
    rec.end_rendering()


def draw_depth(rec, image, layer=0):
    """A draw to a depth attachment, which is cleared and stored."""
    rec.begin_rendering(attachment(image, "depth", DEPTH, "clear", "store", layer=layer))
    rec.work(on_cells(image, "early_fragment_tests", "depth_stencil_attachment_read", DEPTH, layer=layer),
             on_cells(image, "late_fragment_tests", DEPTH_WRITE, DEPTH, layer=layer))
    rec.end_rendering()


def color_from_undefined(rec, image):
    rec.barrier(image_barrier("", "", "color_attachment_output", COLOR_ACCESS, image, "undefined", COLOR))
