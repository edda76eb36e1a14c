"""Pictures of a chessboard, and the cameras that they give. Needs OpenCV."""

from __future__ import annotations

import os
from collections.abc import Sequence
from dataclasses import dataclass
from typing import TYPE_CHECKING

from sgm_tools.files import read_grey
from sgm_tools.kinds import Floats, Greys, Samples, Size
from sgm_tools.pairs import Cameras
from sgm_tools.running import Wrong, numpy, package, progress

if TYPE_CHECKING:
    from numpy.typing import NDArray

    Corners = NDArray[numpy.float32]
    # The parts of the file by their names: M1, D1, M2, D2, R and T.
    Parts = dict[str, Floats]

cv2 = package("cv2")
ENDINGS = (".png", ".jpg", ".jpeg", ".tif", ".tiff", ".bmp", ".pgm", ".ppm", ".webp")
LEAST_PAIRS = 5
LONGEST_SIDE = 4096
# How corners are refined: by how many pixels the greys are smoothed, how far the window of a corner reaches at
# least, and how often each place is mended.
SMOOTHING = 0.7
LEAST_HALF = 2
SADDLE_STEPS = 5


# Pictures and boards


@dataclass(frozen=True)
class Boards:
    """The boards that both cameras saw: the names of the left pictures, the corners in the left and in the right
    ones, the corners' places on the board itself, and the pictures' size."""

    names: list[str]
    left: list[Corners]
    right: list[Corners]
    places: Corners
    size: Size

    def on_board(self) -> Floats:
        """The corners' places as they are reckoned with."""
        return self.places.astype(numpy.float64)

    def board(self) -> Size:
        """How many inner corners stand along a row and along a column."""
        across = int((self.places[:, 1] == self.places[0, 1]).sum())
        return across, len(self.places) // across

    def without(self, index: int) -> Boards:
        """All but one of them."""
        kept = [number for number in range(len(self.names)) if number != index]
        left, right = ([it[number] for number in kept] for it in (self.left, self.right))
        return Boards([self.names[number] for number in kept], left, right, self.places, self.size)


def pictures_of(paths: Sequence[str]) -> list[str]:
    """The pictures that are named, those of each folder sorted by name."""
    names = []
    for path in paths:
        if os.path.isdir(path):
            found = sorted(name for name in os.listdir(path) if name.lower().endswith(ENDINGS))
            if not found:
                raise Wrong(f"{path}: no picture in this folder")
            names += [os.path.join(path, name) for name in found]
        else:
            # A missing one is told before the others are looked at.
            os.stat(path)
            names.append(path)
    return names


def corners_in(grey: Greys, board: Size) -> Corners | None:
    """The board's inner corners row by row, or None where it isn't found."""
    plain = cv2.CALIB_CB_NORMALIZE_IMAGE + cv2.CALIB_CB_ACCURACY
    for flags in (plain, plain + cv2.CALIB_CB_EXHAUSTIVE):
        is_found, corners = cv2.findChessboardCornersSB(grey, board, flags=flags)
        if is_found:
            return refined(grey, corners.reshape(-1, 2).astype(numpy.float32), board)
    return None


def least_step(corners: Samples, board: Size) -> float:
    """The least side of a square as it is seen, in pixels."""
    rows = corners.reshape(board[1], board[0], 2)
    return min(float(numpy.hypot(*numpy.moveaxis(numpy.diff(rows, axis=axis), -1, 0)).min()) for axis in (0, 1))


def refined(grey: Greys, corners: Corners, board: Size) -> Corners:
    """The corners anew, each from the greys within two fifths of the least square around it."""
    half = max(int(least_step(corners, board) * 2 / 5), LEAST_HALF)
    smooth = cv2.GaussianBlur(grey.astype(numpy.float32), (0, 0), SMOOTHING)
    places = corners.astype(numpy.float64)
    for _ in range(SADDLE_STEPS):
        places += to_saddles(smooth, places, half).clip(-half, half)
    # What has led out of the window was no corner's saddle.
    is_near = (abs(places - corners) <= half).all(axis=1)
    made: Corners = numpy.where(is_near[:, None], places, corners).astype(numpy.float32)
    return made


def to_saddles(grey: Samples, places: Floats, half: int) -> Floats:
    """How far each of the places is from the saddle of the greys around it.

    Where four squares meet the greys fall to two sides and rise to the other two. The surface of the second
    degree that lies nearest to them, near ones counting more, has its saddle at the corner. It takes all greys
    of the window, where cv2.cornerSubPix takes those at the edges alone: on made-up boards of squares of some
    ten pixels its corners are three times as exact.
    """
    y, x = (it.ravel() for it in numpy.mgrid[-half : half + 1, -half : half + 1].astype(float))
    weights = numpy.exp(-(x * x + y * y) / (2 * (half / 1.5) ** 2))
    terms = numpy.stack([x * x, x * y, y * y, x, y, numpy.ones(len(x))], axis=-1)
    root = numpy.sqrt(weights)
    fit = numpy.linalg.pinv(terms * root[:, None]) * root
    window = (2 * half + 1, 2 * half + 1)
    greys = numpy.stack([cv2.getRectSubPix(grey, window, place).ravel() for place in places.tolist()])
    a, b, c, d, e, _ = fit @ greys.T
    # Where both slopes, 2 a x + b y + d and b x + 2 c y + e, are 0. Of a saddle 4 a c - b b is below 0.
    bend = 4 * a * c - b * b
    is_saddle = bend < 0
    divisor = numpy.where(is_saddle, bend, 1)
    away = numpy.stack([b * e - 2 * c * d, b * d - 2 * a * e], axis=-1) / divisor[:, None]
    made: Floats = numpy.where(is_saddle[:, None], away, 0)
    return made


def corners_of(names: Sequence[str], board: Size) -> tuple[list[Corners | None], Size]:
    """The corners, or None, of each picture, and the size of all of them."""
    found: list[Corners | None] = []
    size: Size = (0, 0)
    for number, name in enumerate(names, 1):
        grey = read_grey(name)
        shape = (grey.shape[1], grey.shape[0])
        if found and shape != size:
            sizes = f"{shape[0]} x {shape[1]}, but {names[0]} is {size[0]} x {size[1]}"
            raise Wrong(f"{name}: {sizes}: one size is needed")
        size = shape
        if max(size) > LONGEST_SIDE:
            raise Wrong(f"{name}: {size[0]} x {size[1]}, sides are up to {LONGEST_SIDE}: scale all pictures down")
        progress(f"looking for the board: {number} of {len(names)}")
        found.append(corners_in(grey, board))
    return found, size


def alike(left: Corners, right: Corners) -> Corners:
    """The right corners in the order of the left ones: a board that looks the same upside down may be counted from
    its other end."""
    is_turned = (left[-1] - left[0]) @ (right[-1] - right[0]) < 0
    return right[::-1].copy() if is_turned else right


# Calibrating


def places_of(board: Size, square: float) -> Corners:
    """The corners on the board itself."""
    across, down = board
    grid = numpy.mgrid[0:across, 0:down].T.reshape(-1, 2) * square
    return numpy.column_stack([grid, numpy.zeros(len(grid))]).astype(numpy.float32)


def calibrate(boards: Boards, with_k3: bool) -> tuple[Parts, dict[str, float]]:
    """The parts of the file, the errors of both cameras, of the pair and of the rows, all in pixels."""
    flags, objects = flags_of(with_k3), [boards.places] * len(boards.left)
    progress("calibrating each camera")
    first, k1, d1, *_ = cv2.calibrateCamera(objects, boards.left, boards.size, None, None, flags=flags)
    second, k2, d2, *_ = cv2.calibrateCamera(objects, boards.right, boards.size, None, None, flags=flags)
    progress("calibrating the pair")
    pair, parts = calibrate_together(boards, {"M1": k1, "D1": d1, "M2": k2, "D2": d2}, with_k3)
    rows = rows_apart(boards, parts)
    return parts, {"left camera": first, "right camera": second, "pair": pair, "rows of the rectified pair": rows}


def flags_of(with_k3: bool) -> int:
    return 0 if with_k3 else int(cv2.CALIB_FIX_K3)


def calibrate_together(boards: Boards, begin: Parts, with_k3: bool) -> tuple[float, Parts]:
    """The pair's error and the parts of the file, beginning with the lenses of others.

    Both cameras see the same boards, so all numbers together are better known than each camera's alone.
    """
    lenses = [begin[name].copy() for name in ("M1", "D1", "M2", "D2")]
    flags = flags_of(with_k3) | cv2.CALIB_USE_INTRINSIC_GUESS
    objects = [boards.places] * len(boards.left)
    made = cv2.stereoCalibrate(objects, boards.left, boards.right, *lenses, boards.size, flags=flags)
    return made[0], dict(zip(("M1", "D1", "M2", "D2", "R", "T"), made[1:7]))


def rows_apart(boards: Boards, parts: Parts) -> float:
    """How far a corner's rows in the rectified pair are apart: the root of the mean square."""
    cameras = Cameras.of(parts, boards.size)
    first, second, _ = cameras.rectified(numpy.concatenate(boards.left), numpy.concatenate(boards.right))
    apart = first[:, 1] - second[:, 1]
    return float(numpy.sqrt((apart**2).mean()))


def refuse_bad(errors: dict[str, float], shift: Floats, worst: float) -> None:
    """Stops where the errors are too large, or the cameras don't stand side by side."""
    for name, error in errors.items():
        if not error <= worst:
            advice = "were both pictures of each pair taken at one moment? --worst allows more"
            raise Wrong(f"{name}: an error of {error:.2f} pixels, {worst:g} at most: {advice}")
    across, down, _ = (float(part) for part in numpy.ravel(shift))
    if abs(down) >= abs(across):
        raise Wrong("the cameras stand one above the other: turn the pictures and calibrate anew")
    if across >= 0:
        raise Wrong("the second camera stands to the left of the first one: exchange --left and --right")


def boards_in(left: Sequence[str], right: Sequence[str], board: Size, square: float) -> Boards:
    """The boards of the pairs in which both pictures show one."""
    lefts, rights = pictures_of(left), pictures_of(right)
    if len(lefts) != len(rights):
        raise Wrong(f"{len(lefts)} left and {len(rights)} right pictures: they belong together one by one")
    found, size = corners_of(lefts + rights, board)
    progress("")
    for name, corners in zip(lefts + rights, found):
        if corners is None:
            print(f"no board: {name}")
    pairs = zip(lefts, found, found[len(lefts) :])
    both = [(name, a, alike(a, b)) for name, a, b in pairs if a is not None and b is not None]
    if len(both) < LEAST_PAIRS:
        across, down = board
        raise Wrong(f"{len(both)} pairs show a board of {across} x {down} inner corners, {LEAST_PAIRS} needed")
    names, firsts, seconds = (list(it) for it in zip(*both))
    return Boards(names, firsts, seconds, places_of(board, square), size)
