"""The shapes of surfaces, for drawing."""
import math

import optics

PIECES = 40


def sag(surface, x, y):
    """How far behind the vertex the surface lies at x and y; None where it has no such point."""
    try:
        z = optics.sag(surface, x, y)
    except optics.Refusal:
        return None
    return z if math.isfinite(z) else None


def section(surface, across, height):
    """The sag in the section across which x or y runs, as `across` is 0 or 1. It is the same on both sides of the
    axis."""
    return sag(surface, *((height, 0.0) if across == 0 else (0.0, height)))


def reach(surface, across):
    """How far from the axis the section goes: to the semi-diameter, or to where the sag ends."""
    semi = surface.named()["semi"]
    if section(surface, across, semi) is not None:
        return semi
    return halved(0.0, semi, lambda height: section(surface, across, height) is not None)


def profile(surface, across, height=None):
    """Points of a section up to a height, or as far as it goes: z, and what runs across."""
    height = reach(surface, across) if height is None else height
    heights = [height * i / PIECES for i in range(-PIECES, PIECES + 1)]
    points = ((at, section(surface, across, at)) for at in heights)
    return [(surface.vertex + z, at) for at, z in points if z is not None]


def crossing(front, back, across):
    """How far from the axis two surfaces cross, with nothing between them farther out; None if they do not."""
    shared = min(reach(front, across), reach(back, across))

    def thickness(height):
        depths = section(front, across, height), section(back, across, height)
        return 0.0 if None in depths else back.vertex + depths[1] - front.vertex - depths[0]

    on_axis = thickness(0.0)
    heights = [shared * i / PIECES for i in range(PIECES + 1)]
    outside = next((height for height in heights if thickness(height) * on_axis < 0), None)
    if outside is None:
        return None
    return halved(outside - shared / PIECES, outside, lambda height: thickness(height) * on_axis >= 0)


def halved(inside, outside, is_inside):
    """The last number from inside on that is so."""
    middle = (inside + outside) / 2
    while middle not in (inside, outside):
        if is_inside(middle):
            inside = middle
        else:
            outside = middle
        middle = (inside + outside) / 2
    return inside


def way_to(surface, origin, direction, farthest, pieces=2000):
    """How far a beam goes, in lengths of its direction, until it comes to the surface as it is drawn; None if not
    within reach."""

    def height(t):
        x, y, z = (a + t * b for a, b in zip(origin, direction))
        depth = sag(surface, x, y)
        return None if depth is None else z - surface.vertex - depth

    # a beam begins on the surface before, which may be this one's neighbour at its edge
    times = [farthest * i / pieces for i in range(1, pieces + 1)]
    before = height(times[0])
    for t, after in zip(times[1:], map(height, times[1:])):
        if before is not None and after is not None and (before < 0) != (after < 0):
            return t
        before = after
    return None
