"""What a beam does at a surface, each operation as in `surfaces` and `trace`, to refuse what differs from it."""
import math
from typing import NamedTuple, Tuple

from records import SHAPES
from table import HIT

FLAT = 1e-15
TINY = 1e-30
BEHIND = -1e-7
BACKWARDS = (0.0, 0.0, -1.0)


class Refusal(Exception):
    """A number of SCOPE's table (T1), and for a 7 r and the limit."""

    def __init__(self, number, r=0.0, limit=0.0):
        super().__init__(number)
        self.number, self.slots = number, [r, limit]


class Beam(NamedTuple):
    origin: Tuple[float, ...]
    direction: Tuple[float, ...]
    index: float
    path: float = 0.0

    def at(self, t):
        return tuple(a + t * b for a, b in zip(self.origin, self.direction))

    def path_to(self, number, t):
        """Up to the surface of a number: t counts lengths of the direction, which behind a surface is a unit vector."""
        way = t if number else t * length(self.direction)
        return self.path + way * self.index

    def behind(self, number, surface, t, point, direction):
        """The beam that leaves a surface."""
        index = self.index if surface.mirror else surface.index
        return Beam(point, direction, index, self.path_to(number, t))


def leg(number, surface, beam):
    """What a beam leaves at the surface of a number: status, steps, and the record's slots from 1 on, of a refusal r
    and limit."""
    begun = []
    try:
        t = crossing(surface, beam, begun)
        point = beam.at(t)
        facing = normal(surface, point)
        direction = onward(surface, beam, facing)
        refuse_if(not all_finite((t, *point, *facing, *direction, beam.path_to(number, t))), 9)
    except Refusal as refusal:
        return refusal.number, len(begun), refusal.slots
    return HIT, len(begun), [t, *point, *facing, *direction, float(dot(beam.direction, facing) < 0)]


def refuse_if(is_refused, number):
    if is_refused:
        raise Refusal(number)


def all_finite(numbers):
    return all(map(math.isfinite, numbers))


def dot(a, b):
    return a[0] * b[0] + a[1] * b[1] + a[2] * b[2]


def length(vector):
    return root(dot(vector, vector))


def distance(x, y):
    return root(x * x + y * y)


def root(x):
    return math.nan if x < 0 else math.sqrt(x)


def at_least_0(x):
    """+0 for a NaN and for -0 too."""
    return x if x > 0 else 0.0


def sign(x):
    return 1.0 if x >= 0 else -1.0


def over(vector, length):
    return tuple(x / length for x in vector)


def sag(surface, x, y):
    """How far behind the vertex the surface lies at x and y."""
    return SAGS[surface.kind](surface.named(), surface.coefficients(), x, y)


def normal(surface, point):
    """The unit normal towards -z."""
    return NORMALS[surface.kind](surface, point)


def crossing(surface, beam, begun):
    """How far the beam goes to the surface, in lengths of its direction. `begun` gets the t of each pass."""
    if surface.kind == "conic":
        begun.append(0.0)
        return landed(surface, beam, conic_crossing(surface, beam))
    t, is_there = vertex_plane(surface, beam), False
    while not is_there:
        refuse_if(len(begun) == SHAPES[surface.kind].steps, 6)
        begun.append(t)
        refuse_if(abs(beam.direction[2]) < FLAT, 6)
        t, is_there = passed(surface, beam, t)
    return t


def landed(surface, beam, t):
    """The same t, unless r is beyond the semi-diameter."""
    r, semi = distance(*beam.at(t)[:2]), surface.named()["semi"]
    if r > semi:
        raise Refusal(7, r, semi)
    return t


def vertex_plane(surface, beam):
    dz = beam.direction[2]
    t = (surface.vertex - beam.origin[2]) / dz if dz else math.nan
    return 0.0 if t < 0 else t


def passed(surface, beam, t):
    """Where one of Newton's passes comes to, and whether it ends there."""
    x, y, z = beam.at(t)
    refuse_if(distance(x, y) > surface.named()["semi"] * 1.5, 6)
    residual = z - surface.vertex - or_missed(sag, surface, x, y)
    if abs(residual) < 1e-11:
        return landed(surface, beam, t), True
    (dx, dy, dz), (along_x, along_y) = beam.direction, or_missed(slopes, surface, x, y)
    slope = dz - (along_x * dx + along_y * dy)
    refuse_if(abs(slope) < FLAT, 4)
    move = residual / slope
    if not abs(move) < 1e-12:
        return t - move, False
    # an even asphere's r is not asked for here
    return t - move if surface.kind == "even" else landed(surface, beam, t - move), True


def or_missed(function, surface, x, y):
    """Where it is refused, a pass has missed."""
    try:
        return function(surface, x, y)
    except Refusal:
        raise Refusal(6) from None


def conic_crossing(surface, beam):
    own, (dx, dy, dz) = surface.named(), beam.direction
    c, k1, (px, py), pz = own["c"], 1.0 + own["k"], beam.origin[:2], beam.origin[2] - surface.vertex
    if abs(c) < FLAT:
        refuse_if(abs(dz) < FLAT, 6)
        t = -pz / dz
        refuse_if(t < BEHIND, 6)
        return at_least_0(t)
    a = c * (dx * dx + dy * dy + k1 * dz * dz)
    b = 2.0 * (c * (px * dx + py * dy + k1 * pz * dz) - dz)
    e = c * (px * px + py * py + k1 * pz * pz) - 2.0 * pz
    t = next((t for t in candidates(a, b, e) if is_on_sheet(surface, beam.at(t))), None)
    refuse_if(t is None, 6)
    return t


def candidates(a, b, c):
    """The roots of a t^2 + b t + c = 0 that are ahead, in ascending order."""
    discriminant = b * b - 4.0 * a * c
    if discriminant < 0:
        return []
    q = -0.5 * (b + sign(b) * root(discriminant))
    roots = ([c / q] if abs(q) > TINY else []) + ([q / a] if abs(q) > TINY and abs(a) > TINY else [])
    return sorted(at_least_0(t) for t in roots if t > BEHIND)


def is_on_sheet(surface, point):
    """Whether a point of the quadric is on the sheet through the vertex."""
    try:
        return abs(point[2] - surface.vertex - sag(surface, *point[:2])) < 1e-4
    except Refusal:
        return False


def conic_sag(own, _, x, y):
    c, k, r = own["c"], own["k"], distance(x, y)
    refuse_if(not math.isfinite(r), 4)
    if abs(c) < FLAT or r < FLAT:
        return 0.0
    r2 = r * r
    radicand = 1.0 - (1.0 + k) * c * c * r2
    refuse_if(radicand < 0, 5)
    return c * r2 / (1.0 + root(radicand))


def conic_normal(surface, point):
    own, (x, y, z) = surface.named(), point
    c, k = own["c"], own["k"]
    if abs(c) < FLAT:
        return BACKWARDS
    refuse_if(not all_finite(point), 4)
    refuse_if(1.0 - (1.0 + k) * c * c * (x * x + y * y) < 0, 5)
    gradient = c * x, c * y, (1.0 + k) * c * (z - surface.vertex) - 1.0
    squared = dot(gradient, gradient)
    refuse_if(squared < TINY or not math.isfinite(squared), 4)
    return over(gradient, root(squared))


def edge_root(radicand):
    """In every sag but the conic's, which takes no radicand below 0."""
    refuse_if(radicand < -1e-12, 5)
    return root(at_least_0(radicand))


def base_root(c, k, r2):
    return 1.0 if abs(c) < FLAT else edge_root(1.0 - (1.0 + k) * c * c * r2)


def power_sum(coefficients, power, r2):
    """Coefficients times their powers of r, of which the first is given."""
    powers = 0.0
    for a in coefficients:
        powers, power = powers + a * power, power * r2
    return powers


def slope_sum(coefficients, exponent, power, r2):
    """Their slopes; the first exponent is given, and the power below it."""
    powers = 0.0
    for i, a in enumerate(coefficients):
        powers, power = powers + (2.0 * i + exponent) * a * power, power * r2
    return powers


def base_sag(own, r):
    """Of an asphere without its coefficients."""
    refuse_if(not math.isfinite(r), 2)
    c, r2 = own["c"], r * r
    s = base_root(c, own["k"], r2)
    return 0.0 if abs(c) < FLAT else c * r2 / (1.0 + s)


def even_sag(own, coefficients, x, y):
    r = distance(x, y)
    return base_sag(own, r) + power_sum(coefficients, r * r, r * r)


def even_slope(own, coefficients, r):
    """Along r."""
    refuse_if(not math.isfinite(r), 2)
    c, r2 = own["c"], r * r
    s = base_root(c, own["k"], r2)
    refuse_if(s <= FLAT, 4)
    return (0.0 if abs(c) < FLAT else c * r / s) + slope_sum(coefficients, 2.0, r, r2)


def radial_slopes(slope, x, y, r, near):
    """A slope along r, in x and y; and what it is near the axis."""
    return (slope * (x / r), slope * (y / r)) if r > 1e-14 else near


def even_slopes(own, coefficients, x, y):
    r = distance(x, y)
    return radial_slopes(even_slope(own, coefficients, r), x, y, r, (0.0, 0.0))


def even_normal(surface, point):
    x, y, _ = point
    r = distance(x, y)
    if r < FLAT:
        return BACKWARDS
    slope = even_slope(surface.named(), surface.coefficients(), r)
    dx, dy = slope * (x / r), slope * (y / r)
    refuse_if(not math.isfinite(length_of(dx, dy)), 4)
    return facing_of(dx, dy)


def even_and_odd(coefficients):
    half = len(coefficients) // 2
    return coefficients[:half], coefficients[half:]


def odd_sag(own, coefficients, x, y):
    r, (even, odd) = distance(x, y), even_and_odd(coefficients)
    return base_sag(own, r) + power_sum(even, r * r, r * r) + power_sum(odd, r, r * r)


def odd_slope(own, even, odd, r):
    """Along r."""
    c, r2 = own["c"], r * r
    base = 0.0 if abs(c) < FLAT else c * r / max(base_root(c, own["k"], r2), FLAT)
    return base + slope_sum(even, 2.0, r, r2) + slope_sum(odd, 1.0, 1.0, r2)


def odd_slopes(own, coefficients, x, y):
    r, (even, odd) = distance(x, y), even_and_odd(coefficients)
    if r < FLAT and abs(odd[0]) < 1e-14:
        return 0.0, 0.0
    slope = odd_slope(own, even, odd, r)
    return radial_slopes(slope, x, y, r, (slope, 0.0))


def length_of(dx, dy):
    return root(dx * dx + dy * dy + 1.0)


def facing_of(dx, dy):
    """The unit normal of a surface with these slopes."""
    return over((dx, dy, -1.0), length_of(dx, dy))


def numerator_of(own, x, y):
    return own["cx"] * x * x + own["cy"] * y * y


def biconic_root(own, x, y):
    cx, kx, cy, ky = (own[name] for name in ("cx", "kx", "cy", "ky"))
    return edge_root(1.0 - (1.0 + kx) * cx * cx * x * x - (1.0 + ky) * cy * cy * y * y)


def biconic_sag(own, _, x, y):
    refuse_if(not all_finite((x, y)), 2)
    return numerator_of(own, x, y) / (1.0 + biconic_root(own, x, y))


def biconic_slopes(own, _, x, y):
    if abs(x) < FLAT and abs(y) < FLAT:
        return 0.0, 0.0
    s, numerator = biconic_root(own, x, y), numerator_of(own, x, y)
    refuse_if(s <= 1e-14, 4)
    s1 = 1.0 + s

    def along_meridian(c, k, u):
        return 2.0 * c * u / s1 + numerator * (1.0 + k) * c * c * u / (s * (s1 * s1))

    return along_meridian(own["cx"], own["kx"], x), along_meridian(own["cy"], own["ky"], y)


def toroid_circle(own, y):
    """The radius of the circle at y, which the base curve's sag shortens."""
    cy, ky = own["cy"], own["ky"]
    return own["rx"] - cy * (y * y) / (1.0 + edge_root(1.0 - (1.0 + ky) * cy * cy * (y * y)))


def toroid_sag(own, _, x, y):
    rx, radius = own["rx"], toroid_circle(own, y)
    return rx - sign(rx) * edge_root(radius * radius - x * x)


def toroid_slopes(own, _, x, y):
    rx, cy, ky, radius = own["rx"], own["cy"], own["ky"], toroid_circle(own, y)
    radicand = radius * radius - x * x
    refuse_if(radicand <= 1e-14, 5)
    s, base = root(radicand), root(at_least_0(1.0 - (1.0 + ky) * cy * cy * y * y))
    return sign(rx) * x / s, sign(rx) * (radius / s) * (cy * y / base if base > 1e-14 else 0.0)


def slopes(surface, x, y):
    return SLOPES[surface.kind](surface.named(), surface.coefficients(), x, y)


def normal_by_slopes(surface, point):
    return facing_of(*slopes(surface, *point[:2]))


SAGS = {"conic": conic_sag, "even": even_sag, "biconic": biconic_sag, "toroid": toroid_sag, "odd": odd_sag}
SLOPES = {"even": even_slopes, "biconic": biconic_slopes, "toroid": toroid_slopes, "odd": odd_slopes}
NORMALS = {
    "conic": conic_normal,
    "even": even_normal,
    "biconic": normal_by_slopes,
    "toroid": normal_by_slopes,
    "odd": normal_by_slopes,
}


def onward(surface, beam, facing):
    """The new direction, at a surface with this normal."""
    if surface.mirror:
        return reflected(beam.direction, facing)
    return refracted(beam.direction, facing, beam.index, surface.index)


def units(*vectors):
    squares = [dot(a, a) for a in vectors]
    refuse_if(not all(map(all_finite, vectors)) or min(squares) < TINY, 4)
    return [over(a, root(square)) for a, square in zip(vectors, squares)]


def turned(vector):
    return tuple(-x for x in vector)


def reflected(direction, facing):
    i, n = units(direction, facing)
    d = dot(i, n)
    d, n = (-d, turned(n)) if d > 0 else (d, n)
    w = 2.0 * d
    return tuple(a - w * b for a, b in zip(i, n))


def refracted(direction, facing, before, behind):
    refuse_if(before <= 0 or behind <= 0, 4)
    i, n = units(direction, facing)
    d = -dot(i, n)
    d, n = (-d, turned(n)) if d < 0 else (d, n)
    cosine, eta = min(d, 1.0), before / behind
    k = 1.0 - eta * eta * at_least_0(1.0 - cosine * cosine)
    refuse_if(k < 0, 8)
    w = eta * cosine - root(k)
    return tuple(eta * a + w * b for a, b in zip(i, n))
