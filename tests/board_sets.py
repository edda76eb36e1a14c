"""Made-up pairs of cameras and sets of boards, each by a seed, for tests of the calibration.

The cameras differ from those of examples/photographs in every number; the boards lie anywhere where both see them
whole, with a rim. Nothing here looks at what a calibration makes of them. Needs numpy and OpenCV.
"""

import os
import sys

TOP = os.path.dirname(os.path.dirname(os.path.abspath(__file__)))
sys.path[:0] = [os.path.join(TOP, "examples", "photographs"), os.path.join(TOP, "tools")]

import make_photographs as made
import make_stockpile as heap
from sgm_tools import boards
from sgm_tools.boards import cv2
from sgm_tools.pairs import Cameras
from sgm_tools.running import numpy

SIZE = (heap.WIDTH, heap.HEIGHT)
BASELINE = heap.BASELINE / 1_000_000
# Pixels between a board's rim and the side of a picture.
MARGIN = 2


def camera_of(draw):
    focal = draw.uniform(146, 156)
    matrix = ((focal, 0, draw.uniform(155, 165)), (0, focal * draw.uniform(0.99, 1.01), draw.uniform(115, 125)), (0, 0, 1))
    lens = (draw.uniform(-0.15, -0.08), draw.uniform(0.01, 0.03), *draw.uniform(-0.0008, 0.0008, 2), 0.0)
    return matrix, lens, tuple(draw.uniform(-0.02, 0.02, 3))


def cameras_of(seed):
    """The left and the right camera, as make_photographs.LEFT and RIGHT are."""
    draw = numpy.random.default_rng([1, seed])
    return camera_of(draw), camera_of(draw)


def true_cameras(pair):
    """The same as sgm_tools has them, with lengths in metres."""
    (k1, d1, _), (k2, d2, _) = pair
    left, right = (made.turned(it) for it in pair)
    shift = right @ [-BASELINE, 0, 0]
    return Cameras(*(numpy.array(it, float) for it in (k1, d1, k2, d2)), right @ left.T, shift, SIZE)


def is_whole(pair, pose):
    """Whether both pictures show the whole board and a rim of one square around it."""
    turn, middle = pose
    across, down = (it / 2 + 1 + 1 / 2 for it in made.BOARD)
    rim = made.SQUARE * numpy.array([(x, y, 0) for x in (-across, across) for y in (-down, down)])
    points = (rim @ cv2.Rodrigues(numpy.array(turn))[0].T + middle) @ made.turned(pair[0]).T
    seen = true_cameras(pair).seen(points)
    return all((it >= MARGIN).all() and (it <= numpy.array(SIZE) - 1 - MARGIN).all() for it in seen)


def poses_of(seed, count, pair):
    """How so many boards are held, as make_photographs.POSES has it."""
    draw = numpy.random.default_rng([2, seed])
    found = []
    while len(found) < count:
        away = draw.uniform(2.5, 4.5)
        turn = (*draw.uniform(-0.5, 0.5, 2).tolist(), draw.uniform(-0.3, 0.3))
        pose = turn, (draw.uniform(-0.5, 2.1) * away / 3, draw.uniform(-1, 1) * away / 3, away)
        if is_whole(pair, pose):
            found.append(pose)
    return found


def pose_of(pair, lying):
    """The same of a board that lies so before the left camera."""
    level = made.turned(pair[0]).T
    middle = cv2.Rodrigues(lying.turn)[0] @ places().mean(axis=0) + lying.shift
    turn = cv2.Rodrigues(level @ cv2.Rodrigues(lying.turn)[0])[0].ravel()
    return tuple(turn.tolist()), tuple((level @ middle).tolist())


def held_by_hand(seed, poses):
    """The poses, each a little off: by up to 0.08 in each part of the turn and 0.03 of the distance in each direction.

    The pictures are the means of 4 x 4 places a pixel, and edges that lie exactly along the pixels' rows, which no hand
    holds so, come out up to an eighth of a pixel off all along.
    """
    draw = numpy.random.default_rng([3, seed])
    moved = []
    for turn, middle in poses:
        away = middle[2] * draw.uniform(-0.03, 0.03, 3)
        moved.append(((draw.uniform(-0.08, 0.08, 3) + turn).tolist(), (middle + away).tolist()))
    return moved


def places():
    return boards.places_of(made.BOARD, made.SQUARE)


def boards_of(pair, poses):
    """What is found in the pictures of these boards; one that isn't found in both is left out."""
    left, right = [], []
    for pose in poses:
        first = boards.corners_in(made.board_picture(pair[0], 0, pose), made.BOARD)
        second = boards.corners_in(made.board_picture(pair[1], BASELINE, pose), made.BOARD)
        if first is not None and second is not None:
            left.append(first)
            right.append(boards.alike(first, second))
    return boards.Boards([f"board {number}" for number in range(1, len(left) + 1)], left, right, places(), SIZE)
