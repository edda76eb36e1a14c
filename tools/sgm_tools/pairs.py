"""A calibrated pair of cameras: where it sees points, and where points lie that it sees. Needs OpenCV."""

from __future__ import annotations

from collections.abc import Mapping
from dataclasses import dataclass

from sgm_tools.kinds import Floats, Size
from sgm_tools.running import Wrong, numpy, package

cv2 = package("cv2")


@dataclass(frozen=True)
class Cameras:
    """The matrix and the lens of each camera, and the turn and the shift from the left one to the right one."""

    k1: Floats
    d1: Floats
    k2: Floats
    d2: Floats
    turn: Floats
    shift: Floats
    size: Size

    @classmethod
    def of(cls, parts: Mapping[str, Floats], size: Size) -> Cameras:
        """Those of the parts by their names in calibrate_pair.py's file."""
        lenses = (parts[name].astype(float) for name in ("M1", "D1", "M2", "D2"))
        k1, d1, k2, d2 = lenses
        return cls(k1, d1.ravel(), k2, d2.ravel(), parts["R"], parts["T"].ravel(), size)

    def baseline(self) -> float:
        return float(numpy.linalg.norm(self.shift))

    def focal(self) -> float:
        """The mean of both focal lengths, in pixels."""
        return float(self.k1[0, 0] + self.k2[0, 0]) / 2

    def rectification(self) -> tuple[Floats, Floats, Floats, Floats]:
        """R1, R2, P1 and P2 of cv2.stereoRectify, as tools/opencv_calibration.py takes them."""
        lenses = (self.k1, self.d1, self.k2, self.d2)
        try:
            made = cv2.stereoRectify(*lenses, self.size, self.turn, self.shift, flags=cv2.CALIB_ZERO_DISPARITY)
        except cv2.error as error:
            raise Wrong(f"no cameras have these numbers: {error.err}")
        r1, r2, p1, p2 = made[:4]
        return r1, r2, p1, p2

    def seen(self, points: Floats) -> tuple[Floats, Floats]:
        """Where the left and the right picture show points of the left camera's frame, to the right, down, away."""
        none = numpy.zeros(3)
        left = cv2.projectPoints(points[:, None], none, none, self.k1, self.d1)[0][:, 0]
        moved = points @ self.turn.T + self.shift
        right = cv2.projectPoints(moved[:, None], none, none, self.k2, self.d2)[0][:, 0]
        return left, right

    def rectified(self, left: Floats, right: Floats) -> tuple[Floats, Floats, Floats]:
        """The places in the rectified pictures of places in the photographs, and P2."""
        r1, r2, p1, p2 = self.rectification()
        ends = (cv2.TERM_CRITERIA_COUNT + cv2.TERM_CRITERIA_EPS, 100, 1e-10)
        first = cv2.undistortPointsIter(left[:, None], self.k1, self.d1, r1, p1, ends)[:, 0]
        second = cv2.undistortPointsIter(right[:, None], self.k2, self.d2, r2, p2, ends)[:, 0]
        return first, second, p2

    def points(self, left: Floats, right: Floats) -> Floats:
        """The points of places in both photographs, as the program has them: by the columns of both and the left
        one's row. They are in the rectified left camera's frame."""
        first, second, p2 = self.rectified(left, right)
        # Both principal points are one, so f * B / Z is the disparity.
        away = -p2[0, 3] / (first[:, 0] - second[:, 0])
        across, down = ((first[:, axis] - p2[axis, 2]) / p2[axis, axis] * away for axis in (0, 1))
        made: Floats = numpy.stack([across, down, away], axis=-1)
        return made
