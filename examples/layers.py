"""The proved core from Python, by ctypes: draw, heights, slopes, probe, formulas as text.

    python3 examples/layers.py          draws a ring to the terminal

The first use links target/staticlib/liblayers_c.a, which ./lezantsiro (or .ci/run) puts there, into a shared
object with cc. Pictures come as numpy arrays where numpy is at hand, otherwise as bytes and arrays of the standard library.
What is drawn is the core's; this module only lends it buffers, of the lengths that it asks for.
"""

import array
import ctypes
import os
import pathlib
import subprocess
import tempfile

try:
    import numpy
except ImportError:
    numpy = None

ROOT = pathlib.Path(__file__).resolve().parent.parent
ARCHIVE = ROOT / "target/staticlib/liblayers_c.a"
SHARED = ROOT / "target/staticlib/liblayers.so"

ONE = 65536
WORK = 32768
TEXT_TAPE = 10248


class Answer(ctypes.Structure):
    _fields_ = [("number", ctypes.c_uint8), ("place", ctypes.c_uint32), ("count", ctypes.c_uint64)]


class Grid(ctypes.Structure):
    """Where the samples are, in units of 1/65,536: sample i is origin + i * step + step / 2."""

    _fields_ = [(name, ctypes.c_uint32) for name in ("width", "height", "depth")] + [
        (name, ctypes.c_int32) for name in ("xorigin", "yorigin", "zorigin", "xstep", "ystep", "zstep")
    ]


class Point(ctypes.Structure):
    _fields_ = [("x", ctypes.c_double), ("y", ctypes.c_double), ("z", ctypes.c_double)]


class Probed(ctypes.Structure):
    _fields_ = [("answer", Answer), ("side", ctypes.c_uint8), ("value", ctypes.c_double)]


class Refused(Exception):
    """A line of the table of refusals (docs/FORMATS.md): its number, and the clause at fault for 5 to 9."""

    def __init__(self, number, place):
        super().__init__(f"refused {number} at {place}")
        self.number, self.place = number, place


def _linked():
    """The shared object, made anew where the archive is newer; whole or not there."""
    if not SHARED.exists() or SHARED.stat().st_mtime < ARCHIVE.stat().st_mtime:
        handle, made = tempfile.mkstemp(suffix=".so", dir=SHARED.parent)
        os.close(handle)
        whole = ["-Wl,--whole-archive", str(ARCHIVE), "-Wl,--no-whole-archive"]
        try:
            subprocess.run(["cc", "-shared", "-o", made, *whole], check=True)
            os.replace(made, SHARED)
        finally:
            pathlib.Path(made).unlink(missing_ok=True)
    return ctypes.CDLL(str(SHARED))


_core = _linked()
_core.layers_probe.restype = Probed
for _name in ("read_text", "tile_flat", "tile_solid", "tile_slopes"):
    getattr(_core, "layers_" + _name).restype = Answer


def _lent(kind, count):
    """A buffer of the core's own element type, with its pointer and length as the call takes them."""
    buffer = (kind * count)()
    return buffer, (buffer, ctypes.c_size_t(count))


def _given(data):
    return (ctypes.c_uint8 * len(data)).from_buffer_copy(data), ctypes.c_size_t(len(data))


def _done(answer):
    if answer.number != 0:
        raise Refused(answer.number, answer.place)
    return answer


def text(formula):
    """The tape of a formula, read by the proved reader."""
    out, lent = _lent(ctypes.c_uint8, TEXT_TAPE)
    _done(_core.layers_read_text(*_given(formula.encode()), *lent))
    return bytes(out)[: 8 + 10 * (out[4] + 256 * out[5])]


def units(length):
    """A length in units, rounded down. One that no number of 32 bits has is an error, as ctypes would wrap it."""
    found = int(length * ONE // 1)
    if not -(2**31) <= found < 2**31:
        raise OverflowError(f"{length} is beyond 32,768")
    return found


def _sizes(*sizes):
    for size in sizes:
        if not 0 <= size < 2**32:
            raise OverflowError(f"{size} is no size")
    return sizes


def flat(width, height, step, origin=(0.0, 0.0), z=0.0):
    """The grid of one layer: pixels of side `step` from `origin` on, at the height `z`."""
    width, height = _sizes(width, height)
    return Grid(width, height, 0, units(origin[0]), units(origin[1]), units(z), units(step), units(step), 1)


def solid(width, height, depth, step, origin=(0.0, 0.0, 0.0)):
    """The grid of a solid: cells of side `step` from `origin` on."""
    width, height, depth = _sizes(width, height, depth)
    return Grid(width, height, depth, *(units(at) for at in origin), *(units(step) for _ in range(3)))


def _shaped(values, code, shape):
    if numpy is None:
        return array.array(code, values)
    return numpy.array(values, dtype={"H": numpy.uint16, "i": numpy.int32}[code]).reshape(shape)


def draw(tape, grid):
    """One layer by tiles: rows of booleans (a numpy array, or lists), and the clauses that were run."""
    stride = (grid.width + 7) // 8
    picture, lent = _lent(ctypes.c_uint8, stride * grid.height)
    _, work = _lent(ctypes.c_uint8, WORK)
    answer = _done(_core.layers_tile_flat(*_given(tape), grid, *lent, *work))
    rows = [bytes(picture)[stride * row : stride * (row + 1)] for row in range(grid.height)]
    bits = [[bool(row[x // 8] >> (7 - x % 8) & 1) for x in range(grid.width)] for row in rows]
    return (bits if numpy is None else numpy.array(bits)), answer.count


def heights(tape, grid):
    """1 + the highest layer with material of each pixel, or 0, and the clauses that were run."""
    picture, lent = _lent(ctypes.c_uint16, grid.width * grid.height)
    _, work = _lent(ctypes.c_uint8, WORK)
    answer = _done(_core.layers_tile_solid(*_given(tape), grid, *lent, *work))
    return _shaped(picture, "H", (grid.height, grid.width)), answer.count


def slopes(tape, grid):
    """Heights, and how much the formula grows along x, y and z at each visible sample, in units for each 1."""
    picture, lent = _lent(ctypes.c_uint16, grid.width * grid.height)
    slopes_, lent_slopes = _lent(ctypes.c_int32, 3 * grid.width * grid.height)
    _, work = _lent(ctypes.c_uint8, WORK)
    answer = _done(_core.layers_tile_slopes(*_given(tape), grid, *lent, *lent_slopes, *work))
    shape = (grid.height, grid.width)
    return _shaped(picture, "H", shape), _shaped(slopes_, "i", (*shape, 3)), answer.count


def probe(tape, x, y, z):
    """'inside', 'outside' or 'surface', and the formula's value at the point."""
    found = _core.layers_probe(*_given(tape), Point(x, y, z))
    _done(found.answer)
    return ("", "inside", "outside", "surface")[found.side], found.value


def main():
    ring = text("max(root(sqr(x) + sqr(y)) - 24, 8 - root(sqr(x) + sqr(y)))")
    picture, count = draw(ring, flat(64, 32, 1.0, origin=(-32.0, -16.0)))
    for row in picture:
        print("".join("#" if pixel else "." for pixel in row))
    print(f"{count} clauses run; at (10, 0, 0): {probe(ring, 10.0, 0.0, 0.0)}")
    try:
        text("max(x")
    except Refused as refused:
        print(f"max(x: {refused}")


if __name__ == "__main__":
    main()
