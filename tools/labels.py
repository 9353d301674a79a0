"""Places for labels in a picture, in pixels, y downwards: near what they name, and over nothing else."""
import math

from svg import steps_along

CELL = 3
LETTER, LINE, RIM = 7.0, 13.0, 4.0


def width_of(text):
    return LETTER * len(text) + 2


class Labels:
    """What is taken, by cells. `left` and `right` bound the picture."""

    def __init__(self, left, right):
        self.left, self.right = left, right
        self.lines, self.boxes = set(), set()

    def take_line(self, points):
        for start, end in zip(points, points[1:]):
            self.lines.update(map(cell, steps_along(start, end, CELL)))

    def take_box(self, middle, arm):
        """A mark's, so far to each side."""
        x, y = middle
        for dy in range(-arm, arm + 1, CELL):
            self.take_line([(x - arm, y + dy), (x + arm, y + dy)])

    def place(self, text, anchor, offsets):
        """The middle of the label's foot: the first of the offsets from the anchor where it is free, or else the first.
        The line that leads from the label to the anchor may cross other lines, but no label."""
        feet = [(anchor[0] + dx, anchor[1] + dy) for dx, dy in offsets]
        foot = next((foot for foot in feet if self.is_free(text, foot, anchor)), feet[0])
        self.boxes |= box(text, foot)
        self.lines |= leader(foot, anchor)
        return foot

    def is_free(self, text, foot, anchor):
        half = width_of(text) / 2
        if foot[0] - half < self.left or foot[0] + half > self.right:
            return False
        own = box(text, foot)
        return not (own & self.lines or own & self.boxes or leader(foot, anchor) & self.boxes)


def cell(point):
    return int(point[0] // CELL), int(point[1] // CELL)


def box(text, foot):
    """The cells that a label covers, and a little around it."""
    half = width_of(text) / 2
    (left, top), (right, bottom) = cell((foot[0] - half, foot[1] - LINE)), cell((foot[0] + half, foot[1] + RIM))
    return {(i, j) for i in range(left, right + 1) for j in range(top, bottom + 1)}


def leader(foot, anchor):
    return set(map(cell, steps_along(foot, anchor, CELL)))


def nearest_first(offsets):
    return sorted(offsets, key=lambda offset: (math.hypot(*offset), offset))


# above, and if need be aside
ABOVE = nearest_first([(dx, -dy) for dx in range(-72, 73, 6) for dy in range(8, 130, 3)])


def around(text):
    """Beside a mark, to its right or left, or above or below it."""
    half = width_of(text) / 2
    heights = (-8, 4, 20, -22, 36, -38, 54, -56)
    sides = [(side * (half + gap), dy) for side in (1, -1) for gap in (9, 18, 36, 60) for dy in heights]
    return nearest_first([*sides, *((0, dy) for dy in (-14, 26, -30, 42, 60, -50))])
