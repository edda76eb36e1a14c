"""Where boards lie that a pair was calibrated by, and which further ones would make a volume surer. Needs OpenCV.

All numbers of both cameras are found together with how each board lies, so that all corners are as near as can be.
By the corners' derivatives each board has an amount of information about the cameras, whatever its own place is
known to; the sum over all boards is, but for the corners' own error, the inverse of what the numbers' errors are.
A board that isn't there yet has its information too, and so what a volume's error would be with it is known before.
"""

from __future__ import annotations

import math
from collections.abc import Iterator, Sequence
from dataclasses import dataclass, replace

from sgm_tools.boards import Boards, least_step
from sgm_tools.kinds import Floats, Samples
from sgm_tools.pairs import Cameras
from sgm_tools.running import numpy, package
from sgm_tools.spreads import volume_factor

cv2 = package("cv2")
# Boards that are thought of: in so many places across and down the left picture, at these parts of the taken boards'
# mean distance, flat or with one edge nearer by so many degrees. Their squares are to have some pixels, and around the
# inner corners so many squares are to be seen, the outer ones and a part of the white rim, or the board isn't found.
PLACES = 5
NEARNESS = (0.6, 0.8, 1, 1.3, 1.7)
TILT = 35
LEAST_SQUARE = 6
AROUND = 1.75
# A step in each number from which a derivative is taken.
STEP = 1e-6
# Boards are added until the error is half of what it is, and no more than so many.
MOST = 12
TILTS = {
    "flat on": (0, 0),
    "its upper edge nearer": (TILT, 0),
    "its lower edge nearer": (-TILT, 0),
    "its right edge nearer": (0, TILT),
    "its left edge nearer": (0, -TILT),
}
ROWS, COLUMNS = ("upper", "middle", "lower"), ("left", "middle", "right")


@dataclass(frozen=True)
class Lying:
    """How a board lies: its turn and the place of its first corner in the left camera's frame."""

    turn: Floats
    shift: Floats


# Numbers of the cameras


def numbers_of(cameras: Cameras, lens: int) -> Floats:
    """All numbers that a calibration finds, so many of them of each lens."""
    parts = [(k[0, 0], k[1, 1], k[0, 2], k[1, 2], *d[:lens]) for k, d in lenses_of(cameras)]
    turn = cv2.Rodrigues(cameras.turn)[0].ravel()
    return numpy.array([*parts[0], *parts[1], *turn, *cameras.shift])


def lenses_of(cameras: Cameras) -> tuple[tuple[Floats, Floats], tuple[Floats, Floats]]:
    return (cameras.k1, cameras.d1), (cameras.k2, cameras.d2)


def with_numbers(cameras: Cameras, numbers: Floats, lens: int) -> Cameras:
    """The cameras with these numbers in place of their own."""
    made = []
    for (_, d), own in zip(lenses_of(cameras), (numbers[: 4 + lens], numbers[4 + lens : 8 + 2 * lens])):
        k = numpy.array([[own[0], 0, own[2]], [0, own[1], own[3]], [0, 0, 1]])
        made.append((k, numpy.concatenate([own[4:], d[lens:]])))
    (k1, d1), (k2, d2) = made
    turn = cv2.Rodrigues(numbers[-6:-3])[0]
    return replace(cameras, k1=k1, d1=d1, k2=k2, d2=d2, turn=turn, shift=numbers[-3:])


def volume_slope(cameras: Cameras, distance: float, lens: int) -> Floats:
    """By what part of a volume changes with each number."""
    numbers, slopes = numbers_of(cameras, lens), []
    for index, step in enumerate(STEP * numpy.maximum(abs(numbers), 1)):
        moved = [numbers.copy(), numbers.copy()]
        moved[0][index] += step
        moved[1][index] -= step
        more, less = (volume_factor(cameras, with_numbers(cameras, it, lens), distance) for it in moved)
        slopes.append((more - less) / (2 * step))
    return numpy.array(slopes)


# What a board tells


def information(cameras: Cameras, lying: Lying, places: Floats, lens: int) -> Floats:
    """What the board's corners tell of the cameras' numbers when it isn't known how it lies, for corners that are
    off by a pixel."""
    left = cv2.projectPoints(places, lying.turn, lying.shift, cameras.k1, cameras.d1)[1]
    of_pair = cv2.composeRT(lying.turn, lying.shift, cv2.Rodrigues(cameras.turn)[0], cameras.shift)
    right = cv2.projectPoints(places, of_pair[0], of_pair[1], cameras.k2, cameras.d2)[1]
    # How the right camera's turn and shift to the board change with the board's own and with the pair's.
    of_board = numpy.block([[of_pair[2], of_pair[3]], [of_pair[6], of_pair[7]]])
    of_shift = numpy.block([[of_pair[4], of_pair[5]], [of_pair[8], of_pair[9]]])
    none = numpy.zeros((len(left), 4 + lens))
    own = slice(6, 10 + lens)
    by_cameras = numpy.block(
        [[left[:, own], none, numpy.zeros((len(left), 6))], [none, right[:, own], right[:, :6] @ of_shift]]
    )
    by_board = numpy.concatenate([left[:, :6], right[:, :6] @ of_board])
    # What the board's own place can make up for tells nothing.
    held = numpy.linalg.qr(by_board)[0]
    rest = by_cameras - held @ (held.T @ by_cameras)
    made: Floats = rest.T @ rest
    return made


def error_of(whole: Floats, slope: Floats) -> float:
    """The volume's error where the corners together tell so much, in parts for corners that are off by a pixel."""
    # Numbers of pixels, of lenses and of lengths are brought to one size.
    sizes = 1 / numpy.sqrt(numpy.diag(whole))
    scaled = whole * sizes * sizes[:, None]
    return float(numpy.sqrt((slope * sizes) @ numpy.linalg.solve(scaled, slope * sizes)))


# How boards lie


def lying_of(cameras: Cameras, places: Floats, corners: Samples) -> Lying:
    """How a board lies by its corners in the left picture."""
    _, turn, shift = cv2.solvePnP(places, corners.astype(float), cameras.k1, cameras.d1)
    return Lying(turn.ravel(), shift.ravel())


def lyings_of(cameras: Cameras, boards: Boards) -> list[Lying]:
    places = boards.on_board()
    return [lying_of(cameras, places, corners) for corners in boards.left]


def mean_distance(cameras: Cameras, boards: Boards) -> float:
    """That of the boards' middles along the left camera's axis."""
    return float(numpy.mean([middle_of(it, boards)[2] for it in lyings_of(cameras, boards)]))


def middle_of(lying: Lying, boards: Boards) -> Floats:
    made: Floats = cv2.Rodrigues(lying.turn)[0] @ boards.on_board().mean(axis=0) + lying.shift
    return made


def tilt_of(lying: Lying, boards: Boards) -> float:
    """By how many degrees the board is turned away from facing the left camera."""
    middle, across = middle_of(lying, boards), cv2.Rodrigues(lying.turn)[0][:, 2]
    return math.degrees(math.acos(min(1, abs(float(middle @ across)) / math.hypot(*middle))))


def part_of(place: Samples, boards: Boards) -> str:
    """The name of the ninth of a picture in which a place is."""
    width, height = boards.size
    column, row = (min(max(int(3 * at / side), 0), 2) for at, side in zip(place, (width, height)))
    return "middle" if row == column == 1 else f"{ROWS[row]} {COLUMNS[column]}"


def empty_parts(corners: Sequence[Samples], boards: Boards) -> list[str]:
    """The ninths of a picture in which no corner is."""
    found = {part_of(place, boards) for board in corners for place in board}
    width, height = boards.size
    thirds = [numpy.array([width * (2 * col + 1) / 6, height * (2 * row + 1) / 6]) for row in range(3) for col in range(3)]
    return [name for name in (part_of(place, boards) for place in thirds) if name not in found]


# Boards that would help


@dataclass(frozen=True)
class Further:
    """A board that would help: the part of the left picture in which its middle is, its distance, how it is held and
    lies, and by what the volume's error is multiplied with it and those before it."""

    part: str
    away: float
    held: str
    lying: Lying
    remains: float


def thought_of(cameras: Cameras, boards: Boards, away: float) -> Iterator[tuple[str, str, Lying]]:
    """Boards at that distance that both cameras would see whole, with a rim: their part, how held, how they lie."""
    width, height = boards.size
    columns, rows = ((numpy.arange(PLACES) + 0.5) / PLACES * side for side in (width, height))
    at = numpy.stack(numpy.meshgrid(columns, rows), axis=-1).reshape(-1, 1, 2)
    rays = cv2.undistortPoints(at, cameras.k1, cameras.d1)[:, 0]
    for ray, place in zip(rays, at[:, 0]):
        for held, angles in TILTS.items():
            turn = numpy.radians([*angles, 0])
            middle = away * numpy.array([*ray, 1])
            lying = Lying(turn, middle - cv2.Rodrigues(turn)[0] @ boards.on_board().mean(axis=0))
            if is_seen(cameras, boards, lying):
                yield part_of(place, boards), held, lying


def is_seen(cameras: Cameras, boards: Boards, lying: Lying) -> bool:
    """Whether both pictures show the whole board with what is around it, and the squares large enough."""
    places = boards.on_board()
    beyond = AROUND * (places[1, 0] - places[0, 0])
    low, high = places.min(axis=0) - beyond, places.max(axis=0) + beyond
    rim = numpy.array([[x, y, 0] for x in (low[0], high[0]) for y in (low[1], high[1])])
    points = numpy.concatenate([rim, places]) @ cv2.Rodrigues(lying.turn)[0].T + lying.shift
    moved = points @ cameras.turn.T + cameras.shift
    if points[:, 2].min() <= 0 or moved[:, 2].min() <= 0:
        return False
    pictures = cameras.seen(points)
    is_inside = all((it >= 0).all() and (it <= numpy.array(boards.size) - 1).all() for it in pictures)
    return is_inside and all(least_step(it[4:], boards.board()) >= LEAST_SQUARE for it in pictures)


def further_boards(cameras: Cameras, boards: Boards, distance: float, lens: int) -> list[Further]:
    """The boards that would help most, each the best one after those before it, until the error is halved."""
    places = boards.on_board()
    taken, mean = lyings_of(cameras, boards), mean_distance(cameras, boards)
    thought = [(it, part * mean) for part in NEARNESS for it in thought_of(cameras, boards, part * mean)]
    told = [information(cameras, lying, places, lens) for (_, _, lying), _ in thought]
    whole = sum((information(cameras, it, places, lens) for it in taken), numpy.zeros(()))
    slope = volume_slope(cameras, distance, lens)
    begin = error_of(whole, slope)
    found: list[Further] = []
    while thought and len(found) < MOST and (not found or found[-1].remains > 0.5):
        errors = [error_of(whole + it, slope) for it in told]
        best = int(numpy.argmin(errors))
        # Each is asked for once: what is wrong with a picture is wrong with one that is just like it.
        whole = whole + told.pop(best)
        (part, held, lying), away = thought.pop(best)
        found.append(Further(part, away, held, lying, errors[best] / begin))
    return found
