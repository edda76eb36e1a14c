"""The files of all tools: pictures as PGM, photographs, PNG and JSON.

A file that is broken is a Wrong with the file's name in it; one that can't be opened an OSError.
"""

from __future__ import annotations

import io
import json
import re
from collections.abc import Sequence

from sgm_tools.kinds import Colour, Flags, Greys, Ints, Json, Samples
from sgm_tools.running import Image, ImageOps, Wrong, need, numpy, progress


def read_bytes(name: str) -> bytes:
    progress(f"reading {name}")
    with open(name, "rb") as file:
        return file.read()


# Pictures


# The magic, width, height and greatest value, with comments where white bytes may stand, and one white byte.
WHITE = rb"(?:[ \t\n\v\f\r]|#[^\n\r]*[\n\r])+"
PGM_HEAD = re.compile(rb"P5" + 3 * (WHITE + rb"([0-9]+)") + rb"[ \t\n\v\f\r]")


def head_in(data: bytes) -> re.Match[bytes] | None:
    """The head of a binary PGM at the beginning, with groups for the width, the height and the greatest value."""
    head = PGM_HEAD.match(data)
    is_one = head and max(len(number.lstrip(b"0")) for number in head.groups()) <= 9
    return head if is_one else None


def pgm_head(width: int, height: int, most: int) -> bytes:
    """The head of a binary PGM that is written."""
    return f"P5\n{width} {height}\n{most}\n".encode()


def read_pgm(name: str) -> tuple[Samples, int]:
    """The samples as rows of 8 or 16 bits, and the greatest value, of a binary PGM."""
    need(numpy=numpy)
    data = read_bytes(name)
    head = head_in(data)
    if not head:
        raise Wrong(f"{name}: not a binary PGM")
    width, height, most = map(int, head.groups())
    if not (1 <= width <= 4096 and 1 <= height <= 4096 and 1 <= most <= 65535):
        raise Wrong(f"{name}: sides are 1 to 4096 and the greatest value is 1 to 65535")
    kind = numpy.dtype(">u2" if most > 255 else "u1")
    if len(data) - head.end() < width * height * kind.itemsize:
        raise Wrong(f"{name}: {len(data) - head.end()} bytes of samples, {width * height * kind.itemsize} needed")
    samples = numpy.frombuffer(data, kind, width * height, head.end()).reshape(height, width)
    if int(samples.max()) > most:
        raise Wrong(f"{name}: a sample is above {most}")
    return samples.astype(kind.newbyteorder("=")), most


def read_disparities(name: str) -> tuple[Ints, Flags]:
    """OUT.pgm: rows of sixteenths of a pixel above the first disparity, and where there is one."""
    samples, most = read_pgm(name)
    if most != 65535:
        raise Wrong(f"{name}: not a disparity picture of sgm")
    return samples.astype(numpy.int64) - 16, samples != 0


def write_pgm(name: str, grey: Greys) -> None:
    """Writes grey values of 8 bits as a binary PGM."""
    with open(name, "wb") as file:
        file.write(pgm_bytes(grey))


def pgm_bytes(samples: Samples) -> bytes:
    """The bytes of a binary PGM of samples of 8 bits, or of 16."""
    height, width = samples.shape
    if samples.dtype == numpy.uint8:
        return pgm_head(width, height, 255) + samples.tobytes()
    return pgm_head(width, height, 65535) + samples.astype(">u2").tobytes()


def read_grey(name: str) -> Greys:
    """A photograph as rows of grey values of 8 bits, turned as its EXIF says that it is to be seen."""
    need(numpy=numpy, PIL=Image)
    progress(f"reading {name}")
    try:
        with Image.open(name) as opened:
            picture = ImageOps.exif_transpose(opened)
            if picture.mode.startswith("I"):
                return (numpy.asarray(picture, numpy.int64) >> 8).clip(0, 255).astype(numpy.uint8)
            return numpy.array(picture.convert("L"))
    except (SyntaxError, ValueError, EOFError, Image.DecompressionBombError) as error:
        raise Wrong(f"{name}: {error}")
    except OSError as error:
        if error.errno is None:
            raise Wrong(f"{name}: not a picture")
        raise


def png_bytes(pixels: Greys, palette: Sequence[Colour] | None = None) -> bytes:
    """The bytes of a PNG: rows of colours, or of greys, or of numbers of a palette of colours."""
    need(numpy=numpy, PIL=Image)
    image = Image.fromarray(pixels)
    if palette is not None:
        image.putpalette([channel for colour in palette for channel in colour])
    made = io.BytesIO()
    image.save(made, "PNG", compress_level=6 if pixels.size < 1 << 22 else 2)
    return made.getvalue()


def write_png(name: str, pixels: Greys, palette: Sequence[Colour] | None = None) -> None:
    progress(f"writing {name}")
    data = png_bytes(pixels, palette)
    with open(name, "wb") as file:
        file.write(data)


# JSON


def read_json(name: str) -> Json:
    """The object of a JSON file."""
    try:
        top = json.loads(read_bytes(name).decode("utf-8"))
    except (ValueError, RecursionError) as error:
        raise Wrong(f"{name}: not JSON: {error}")
    if not isinstance(top, dict):
        raise Wrong(f"{name}: not a JSON object")
    return top
