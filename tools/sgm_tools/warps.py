"""The warps of a calibration for whole pictures: where rectified pixels are taken from, what they are,
and which rectified place shows a place of the photograph.

Needs numpy. Places are pixels, (0, 0) being the middle of the upper left one.
"""

from __future__ import annotations

from typing import TYPE_CHECKING, Any

from sgm_tools.kinds import Floats, Ints, Json, Place, Samples
from sgm_tools.running import Wrong, numpy

if TYPE_CHECKING:
    from numpy.typing import NDArray

# How near the way back has to come, in pixels, after at most so many steps.
NEAR_ENOUGH, MOST_STEPS = 1e-4, 60
# The greatest element of a matrix of a calibration.
MOST_ELEMENT = 1 << 40
# Over so many pixels a slope of the warp is taken.
SPAN = 0.25


def warp_of(calibration: Json, side: str) -> Json:
    """The side's warp, with all that its kind needs."""
    if "warp" not in calibration:
        return {"kind": "identity"}
    try:
        warp: Json = calibration["warp"][side]
        if warp["kind"] == "identity":
            return warp
        if warp["kind"] == "projective":
            numbers, count = warp["matrix"], 9
        else:
            numbers, count = warp["nodes"], 2 * warp["cols"] * warp["rows"]
        if len(numbers) == count and all(type(it) is int for it in numbers) and warp.get("step", 1) >= 1:
            return warp
    except (KeyError, TypeError, AttributeError):
        pass
    raise Wrong(f"the calibration's warp of the {side} picture isn't one")


def place(warp: Json, x: int, y: int) -> tuple[int, int]:
    """Where in the camera's picture the rectified pixel is taken from, in 1/256 of a pixel."""
    kind = warp["kind"]
    if kind == "identity":
        return 256 * x, 256 * y
    if kind == "projective":
        a = warp["matrix"]
        below = a[6] * x + a[7] * y + a[8]
        if below <= 0:
            raise Wrong("a matrix of the calibration has a denominator that isn't positive")
        return 256 * (a[0] * x + a[1] * y + a[2]) // below, 256 * (a[3] * x + a[4] * y + a[5]) // below
    # A mesh: between four nodes, in proportion.
    step, cols, nodes = warp["step"], warp["cols"], warp["nodes"]
    (col, a), (row, b) = divmod(x, step), divmod(y, step)
    corners = [(col, row, (step - a) * (step - b)), (col + 1, row, a * (step - b))]
    corners += [(col, row + 1, (step - a) * b), (col + 1, row + 1, a * b)]
    u = sum(weight * nodes[2 * (j * cols + i)] for i, j, weight in corners)
    v = sum(weight * nodes[2 * (j * cols + i) + 1] for i, j, weight in corners)
    return u // step**2, v // step**2


class Warp:
    """One side's warp, as tools/check_trace.py gives it, for pictures of that size."""

    def __init__(self, warp: Json, width: int, height: int) -> None:
        self.warp, self.kind, self.size = warp, warp["kind"], (width, height)
        if self.kind == "projective" and max(abs(it) for it in warp["matrix"]) > MOST_ELEMENT:
            raise Wrong("a matrix of the calibration is out of range")
        if self.kind == "mesh":
            step, cols, rows = (warp[key] for key in ("step", "cols", "rows"))
            if [cols, rows] != [(side - 1) // step + 2 for side in (width, height)]:
                raise Wrong("a mesh of the calibration isn't made for pictures of this size")
            self.nodes = numpy.array(warp["nodes"], numpy.int64).reshape(rows, cols, 2)

    def places(self, x: Ints, y: Ints) -> tuple[Ints, Ints]:
        """Where the rectified pixels are taken from, in 1/256 of a pixel: u and v, as the program rounds
        them. The pixels are arrays of whole numbers."""
        if self.kind == "identity":
            return 256 * x, 256 * y
        if self.kind == "projective":
            # Places are below 2^12, so a product is below 2^52, and 256 times three of them below 2^62.
            x, y = (numpy.asarray(it, numpy.int64) for it in (x, y))
            a = self.warp["matrix"]
            below = a[6] * x + a[7] * y + a[8]
            self.check_below(below)
            u, v = (256 * (a[i] * x + a[i + 1] * y + a[i + 2]) // below for i in (0, 3))
            return u, v
        step = self.warp["step"]
        blended = self.blended(x // step, y // step, x % step, y % step, step)
        return blended[..., 0] // step**2, blended[..., 1] // step**2

    def place(self, x: float, y: float) -> Floats:
        """The same for any place, in pixels and not rounded."""
        if self.kind == "identity":
            return numpy.array([x, y], float)
        if self.kind == "projective":
            a = [float(it) for it in self.warp["matrix"]]
            below = a[6] * x + a[7] * y + a[8]
            self.check_below(numpy.array([below]))
            return numpy.array([(a[i] * x + a[i + 1] * y + a[i + 2]) / below for i in (0, 3)])
        step = self.warp["step"]
        rows, cols, _ = self.nodes.shape
        # Beside the nodes the outermost cells go on.
        col, row = (min(max(int(it // step), 0), most - 2) for it, most in ((x, cols), (y, rows)))
        blended = self.blended(col, row, x - col * step, y - row * step, step)
        made: Floats = blended / (256 * step**2)
        return made

    def check_below(self, below: NDArray[Any]) -> None:
        if (below <= 0).any():
            raise Wrong("a matrix of the calibration has a denominator that isn't positive")

    def blended(self, col: Any, row: Any, a: Any, b: Any, step: int) -> NDArray[Any]:
        """Of four nodes of the mesh, step * step times what lies between them."""
        corners = (
            (self.nodes[row, col], (step - a) * (step - b)),
            (self.nodes[row, col + 1], a * (step - b)),
            (self.nodes[row + 1, col], (step - a) * b),
            (self.nodes[row + 1, col + 1], a * b),
        )
        parts = [node * numpy.asarray(weight)[..., None] for node, weight in corners]
        return numpy.asarray(sum(parts))

    def rectified(self, samples: Samples, xs: Ints, ys: Ints) -> Ints:
        """The rectified picture's values at these pixels, and -1 where it is void."""
        u, v = self.places(xs, ys)
        (left, to_right), (top, to_bottom) = divmod(u, 256), divmod(v, 256)
        height, width = samples.shape
        total, is_void = numpy.full(left.shape, 32768, numpy.int64), numpy.zeros(left.shape, bool)
        for i, across in ((left, 256 - to_right), (left + 1, to_right)):
            for j, down in ((top, 256 - to_bottom), (top + 1, to_bottom)):
                outside = (i < 0) | (i >= width) | (j < 0) | (j >= height)
                is_void |= outside & (across * down > 0)
                near = samples[j.clip(0, height - 1), i.clip(0, width - 1)]
                total += across * down * near.astype(numpy.int64)
        return numpy.where(is_void, -1, total // 65536)

    def back(self, u: float, v: float) -> Place | None:
        """The rectified place that shows the place (u, v) of the photograph, or None.

        A warp leads from the rectified picture to the photograph. The way back begins at the one of a
        lattice of pixels whose source is nearest, and goes on by Newton's steps.
        """
        if self.kind == "identity":
            return u, v
        wanted = numpy.array([u, v], float)
        width, height = self.size
        xs, ys = (numpy.arange(0, side, max(1, side // 64)) for side in (width, height))
        y, x = (it.ravel() for it in numpy.meshgrid(ys, xs, indexing="ij"))
        away = numpy.hypot(*(it / 256 - at for it, at in zip(self.places(x, y), wanted)))
        at = numpy.array([x[away.argmin()], y[away.argmin()]], float)
        for _ in range(MOST_STEPS):
            off = wanted - self.place(*at)
            if numpy.hypot(*off) <= NEAR_ENOUGH:
                is_inside = -0.5 <= at[0] <= width - 0.5 and -0.5 <= at[1] <= height - 0.5
                return (float(at[0]), float(at[1])) if is_inside else None
            slopes = [self.place(*(at + it)) - self.place(*(at - it)) for it in SPAN * numpy.eye(2)]
            try:
                step = numpy.linalg.solve(numpy.array(slopes).T / (2 * SPAN), off)
            except numpy.linalg.LinAlgError:
                return None
            # A step stays near the picture, where the warp is what it says.
            at = (at + step).clip(-width - height, [2 * width + height, 2 * height + width])
        return None
