"""The points of a match as a point cloud (PLY)."""

from __future__ import annotations

from collections.abc import Callable, Iterator, Sequence

from sgm_tools.exact import decimal
from sgm_tools.files import read_pgm
from sgm_tools.kinds import Flags, Greys, Ints, Json
from sgm_tools.points import Points
from sgm_tools.running import Wrong, numpy, progress
from sgm_tools.site import Site
from sgm_tools.warps import Warp, warp_of

# Rows of the picture that are worked on at once.
BAND = 64


def bands(values: Ints, filled: Flags, points: Points) -> Iterator[tuple[Ints, ...]]:
    """Columns, rows, east, north and height of the points, some rows of the picture at a time."""
    for top in range(0, len(values), BAND):
        xs, ys, _, *place = in_band(values, filled, points, top)
        yield (xs, ys, *place)


def in_band(values: Ints, filled: Flags, points: Points, top: int) -> tuple[Ints, ...]:
    ys, xs = numpy.nonzero(filled[top : top + BAND])
    ys, found = ys + top, values[top : top + BAND][ys, xs]
    east, north, up, there = points.of_all(xs, ys, found)
    return tuple(it[there] for it in (xs, ys, found, east, north, up))


def greys_of(left: str, calibration: Json, shape: tuple[int, ...]) -> Callable[[Ints, Ints], Greys]:
    """A reader of grey values of 8 bits at rectified pixels; black where a pixel is void."""
    samples, most = read_pgm(left)
    if samples.shape != shape:
        raise Wrong(f"{left}: not of the size of the disparities")
    height, width = shape
    warp = Warp(warp_of(calibration, "left"), width, height)

    def read(xs: Ints, ys: Ints) -> Greys:
        found = warp.rectified(samples, xs, ys)
        return (255 * found.clip(min=0) // most).astype(numpy.uint8)

    return read


def head_of(count: int, kind: str, has_greys: bool, site: Site) -> bytes:
    """The head of the file, with what is known of its place."""
    lines = ["ply", "format binary_little_endian 1.0", "comment metres: x east, y north, z up"]
    offset = " ".join(decimal(it, 6) for it in (site.east, site.north))
    if site.east or site.north:
        said = "is in x and y" if kind == "double" else "has to be added to x and y"
        lines.append(f"comment offset {offset} {said}")
    if site.epsg is not None:
        lines.append(f"comment epsg {site.epsg}")
    lines.append(f"element vertex {count}")
    lines += [f"property {kind} {axis}" for axis in "xyz"]
    if has_greys:
        lines += [f"property uchar {colour}" for colour in ("red", "green", "blue")]
    return "\n".join([*lines, "end_header", ""]).encode()


def vertices(place: Sequence[Ints], greys: Greys | None, kind: str, site: Site) -> bytes:
    """The bytes of some vertices."""
    number = "<f8" if kind == "double" else "<f4"
    fields = [(axis, number) for axis in "xyz"]
    if greys is not None:
        fields += [(colour, "u1") for colour in ("red", "green", "blue")]
    made = numpy.empty(len(place[0]), fields)
    shifts = (site.east, site.north, 0) if kind == "double" else (0, 0, 0)
    for axis, micrometres, shift in zip("xyz", place, shifts):
        made[axis] = (micrometres + shift) / 1e6
    if greys is not None:
        for colour in ("red", "green", "blue"):
            made[colour] = greys
    return made.tobytes()


def write_points(
    out: str,
    disparities: tuple[Ints, Flags],
    points: Points,
    greys: Callable[[Ints, Ints], Greys] | None,
    site: Site,
    kind: str = "double",
) -> int:
    """Writes the file; how many points it has. Coordinates are `double`, or `float` without the site's offset."""
    progress("counting")
    count = sum(len(xs) for xs, *_ in bands(*disparities, points))
    with open(out, "wb") as file:
        file.write(head_of(count, kind, greys is not None, site))
        for xs, ys, *place in bands(*disparities, points):
            if len(ys):
                part = 100 * int(ys[0]) // len(disparities[0])
                progress(f"writing {out}: {part} %")
            shades = greys(xs, ys) if greys is not None else None
            file.write(vertices(place, shades, kind, site))
    return count
