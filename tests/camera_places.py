"""Places of the made-up cameras of examples/photographs for tests, drawn by a rule, so that none is picked for what is
measured from it.

The pair stands on any side of the heap, 8.0 to 8.8 m above the ground, and is tilted by 6 to 14 degrees, towards the
top of its picture or within 30 degrees of that. The middle between both cameras looks at a place within 0.3 m east and
north of the scene's middle. A place counts where both cameras see the heap's toe, all targets and the middle of each
piece of ground, eight pixels or more from their pictures' sides, as well before as after these are rectified. Nothing
else decides.
"""

import math
import os
import random
import sys

TOP = os.path.dirname(os.path.dirname(os.path.abspath(__file__)))
sys.path[:0] = [os.path.join(TOP, name) for name in ("tools", "examples/photographs", "examples/stockpile")]

import make_photographs as made
import make_stockpile as heap
from sgm_tools import opencv
from sgm_tools.running import numpy

TURN, TILT, TOWARDS, HEIGHT = (-180, 180), (6, 14), (-30, 30), (8_000_000, 8_800_000)
MIDDLE, ASIDE = (600_000, -800_000), 300_000
# How far from the pictures' sides all has to be seen, in pixels.
MARGIN = 8
# The middles of the pieces of ground, to the east, west, north and south of the heap.
GROUNDS = [(6_537_500, 0), (-5_400_000, 125_000), (2_225_000, 4_875_000), (-25_000, -6_437_500)]


def rig_of(chance):
    """The next pair that the rule draws, wherever it looks."""
    turn, tilt, towards, height = (chance.uniform(*it) for it in (TURN, TILT, TOWARDS, HEIGHT))
    aim = numpy.array([*(it + chance.uniform(-ASIDE, ASIDE) for it in MIDDLE), 0])
    axes = made.Rig((0, 0, height), turn, tilt, towards).axes
    ahead = -axes[:, 2]
    place = aim - ahead * height / -ahead[2] - heap.BASELINE / 2 * axes[:, 0]
    return made.Rig((*place[:2], height), turn, tilt, towards)


def looked_at():
    """What both cameras have to see: places in micrometres."""
    angles, radius = [math.radians(angle) for angle in range(0, 360, 15)], heap.CONE_RADIUS
    toe = [(heap.CONE_X + radius * math.cos(it), heap.CONE_Y + radius * math.sin(it)) for it in angles]
    return [(*place, 0) for place in toe + GROUNDS] + [place for place, _ in made.TARGETS.values()]


def rectified_at(camera, rig, is_right, place):
    """Where the rectified picture of a camera shows a place of the site, in pixels."""
    parts = {name: numpy.array(value, float) for name, value in made.calibration().items()}
    parts = {{"M1": "K1", "M2": "K2"}.get(name, name): value for name, value in parts.items()}
    parts |= {"size": (heap.WIDTH, heap.HEIGHT), "T": parts["T"].reshape(3, 1)}
    turns_and_views = opencv.rectification(parts, False, None)
    turn, view = turns_and_views[int(is_right)], turns_and_views[2 + int(is_right)]
    away = made.FLIP @ rig.axes.T @ (numpy.array(place) - rig.camera(is_right))
    seen = view[:, :3] @ turn @ made.turned(camera) @ away
    return seen[:2] / seen[2]


def sees_all(rig):
    """Whether both cameras see what they have to."""
    for camera, is_right in ((made.LEFT, False), (made.RIGHT, True)):
        for place in looked_at():
            for show in (made.seen_at, rectified_at):
                x, y = show(camera, rig, is_right, place)
                if not (MARGIN <= x <= heap.WIDTH - 1 - MARGIN and MARGIN <= y <= heap.HEIGHT - 1 - MARGIN):
                    return False
    return True


def drawn(seed, count):
    """The first so many pairs of a seed that see all."""
    chance, found = random.Random(seed), []
    while len(found) < count:
        rig = rig_of(chance)
        if sees_all(rig):
            found.append(rig)
    return found
