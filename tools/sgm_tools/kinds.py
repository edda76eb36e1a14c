"""Names of the kinds of things that the annotations speak of."""

from __future__ import annotations

import decimal
from typing import TYPE_CHECKING, Any

if TYPE_CHECKING:
    import numpy
    from numpy.typing import NDArray

    # Whole numbers, floating point ones, samples and greys of pictures, and what is true or isn't.
    Ints = NDArray[numpy.int64]
    Floats = NDArray[numpy.float64]
    Samples = NDArray[Any]
    Greys = NDArray[numpy.uint8]
    Flags = NDArray[numpy.bool_]
else:
    # Without numpy a tool that needs none runs.
    Ints = Floats = Samples = Greys = Flags = Any

# The object of a JSON file, or one in it: a calibration, its grid, a region, a warp.
Json = dict[str, Any]
# The size of a picture, width and height, and a place in it in pixels.
Size = tuple[int, int]
Place = tuple[float, float]
# Three lengths: east, north and up, or X, Y and h.
Point = tuple[int, int, int]
Metres = list[decimal.Decimal]
Colour = tuple[int, int, int]
