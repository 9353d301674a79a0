"""The text of a prescription: a surface a line, its numbers by name."""
import math
import re

from numerals import bits_of, number, numeral
from records import MOST_BYTES, MOST_SURFACES, RAY_NAMES, SHAPES, Prescription, Surface, record

FORMAT = """\
the text:
  # a comment, to the end of the line
  ray x=6 y=3 z=-20 dx=0 dy=0 dz=1 index=1
  conic vertex=0 index=1.5168 c=0x1.05197f7d73404p-6 k=0 semi=12.7
  even vertex=4 index=1 radius=-45.71 k=-1 semi=12.7 a1=0 a2=1e-5
  biconic vertex=9 index=1.6 cx=0.02 kx=0 cy=0.01 ky=-1 semi=20
  mirror toroid vertex=30 index=1 rx=-400 cy=-0.002 ky=0 semi=20
  odd vertex=32 index=1.53 radius=3.2 k=0 semi=1.5 a2=-4e-3 b2=1e-2

  A surface a line, in the beam's order, at most 512 and 65,536 bytes: the kind, then name=number in any order, each
  name once and none left out. Lengths are in mm. `vertex` is the vertex's z, `index` the index behind the surface (a
  mirror's is checked and not used), `semi` the semi-diameter, `c` a curvature in 1/mm, `k` a conic constant, `rx` the
  radius of a toroid's circle. An even asphere may have up to 8 coefficients: a1 of r^2, a2 of r^4 and so on to a8 of
  r^16, none skipped. An odd asphere has these 8 and b1 of r, b2 of r^3 and so on to b8 of r^15; each of the 16 that is
  left out is 0. In place of c, cx or cy there may be radius, radiusx or radiusy: the curvature is 1/radius, rounded
  once, and inf is a plane's. A cylinder is a biconic with radiusx=inf, or radiusy=inf. `mirror` stands before a
  mirror's kind. The ray, if there is one, comes first: origin, direction and the index that it starts in. Its direction
  may have any length; t of the first surface counts in such lengths, and the path in mm.

  A number is a decimal (6, -0, 1.5e-3), a hexadecimal float with its exponent (0x1.8p-3), inf, -inf, or nan: and the 16
  hex digits of a NaN's pattern. A decimal stands for the nearest binary64 number."""

COEFFICIENT = re.compile(r"a[1-9][0-9]*", re.ASCII)
SURFACE_NAMES = ("vertex", "index")


class BadText(Exception):
    def __init__(self, line, reason):
        super().__init__(f"{line}: {reason}")
        self.line, self.reason = line, reason


class Located:
    """A prescription, the lines of its ray and its surfaces, and how many bytes these take."""

    def __init__(self):
        self.prescription = Prescription(None, [])
        self.ray_line, self.lines, self.bytes = None, [], 0

    def line_of(self, surface):
        return self.ray_line if surface is None else self.lines[surface]


def read(text):
    """A prescription with its lines; a BadText says which line is wrong, and why."""
    located = Located()
    for line, written in enumerate(text.split("\n"), 1):
        words = written.partition("#")[0].split()
        if words:
            try:
                add(located, words, line)
            except ValueError as wrong:
                raise BadText(line, str(wrong)) from None
    return located


def add(located, words, line):
    if words[0] == "ray":
        add_ray(located, words[1:], line)
        return
    if len(located.lines) == MOST_SURFACES:
        raise ValueError(f"a recipe has at most {MOST_SURFACES} surfaces")
    one = surface(words)
    located.bytes += len(record(*one))
    if located.bytes > MOST_BYTES:
        raise ValueError(f"a recipe has at most {MOST_BYTES} bytes, and with this surface {located.bytes}")
    located.prescription.surfaces.append(one)
    located.lines.append(line)


def add_ray(located, words, line):
    if located.ray_line is not None:
        raise ValueError(f"there is a ray already, in line {located.ray_line}")
    if located.lines:
        raise ValueError("the ray comes before the surfaces")
    ray = taken(fields(words), RAY_NAMES, "a ray")
    located.prescription = located.prescription._replace(ray=ray)
    located.ray_line = line


def surface(words):
    mirror = words[0] == "mirror"
    words = words[mirror:]
    kinds = ", ".join(SHAPES)
    if not words:
        raise ValueError(f"a mirror's kind is missing, one of {kinds}")
    kind = words[0]
    if kind not in SHAPES:
        raise ValueError(f"{kind!r} is no kind: there are {kinds}, {'' if mirror else 'ray, '}and mirror before a kind")
    shape, given = SHAPES[kind], fields(words[1:])
    coefficients = taken_coefficients(given, shape)
    names, owner = (*SURFACE_NAMES, *shape.names), f"a surface of kind {kind}"
    vertex, index, *numbers = taken(given, names, owner, shape.coefficients)
    return Surface(kind, vertex, index, [*numbers, *coefficients], mirror)


def fields(words):
    """What is written behind each name."""
    given = {}
    for word in words:
        name, equals, value = word.partition("=")
        if not (name and equals):
            raise ValueError(f"{word!r} is not of the form name=number")
        if name in given:
            raise ValueError(f"{name} is given twice")
        given[name] = value
    return given


def taken(given, names, owner, taken_before=()):
    """The numbers of the names, which have to be those given: no more and no less."""
    numbers = [take(given, name, owner) for name in names]
    if given:
        raise ValueError(f"{owner} has no {next(iter(given))!r}: it has {', '.join((*names, *taken_before))}")
    return numbers


def take(given, name, owner):
    radius = radius_name(name)
    if radius in given:
        if name in given:
            raise ValueError(f"{name} and {radius} are the same number, and both are given")
        return curvature(read_number(radius, given.pop(radius)), radius)
    if name not in given:
        missing = f"{name} is missing: {owner} needs it"
        raise ValueError(missing if radius is None else f"{name} or {radius} is missing: {owner} needs one")
    return read_number(name, given.pop(name))


def radius_name(name):
    return {"c": "radius", "cx": "radiusx", "cy": "radiusy"}.get(name)


def read_number(name, value):
    try:
        return number(value)
    except ValueError as wrong:
        raise ValueError(f"{name}: {wrong}") from None


def curvature(radius, name):
    c = 1 / radius if radius else math.inf
    if not math.isfinite(c):
        raise ValueError(f"{name}: 1/{numeral(radius)} is no curvature")
    return c


def taken_coefficients(given, shape):
    """Those that a record always has, 0 where one is left out; or else as many as there are."""
    if shape.has_all:
        return [read_number(name, given.pop(name, "0")) for name in shape.coefficients]
    return taken_in_turn(given, len(shape.coefficients))


def taken_in_turn(given, most):
    """Those named a1, a2 and so on, none skipped."""
    named = {name for name in given if COEFFICIENT.fullmatch(name)}
    for i in range(1, len(named) + 1):
        if f"a{i}" not in named:
            last = max(named, key=lambda name: int(name[1:]))
            raise ValueError(f"{last} is given without a{i}: no coefficient is skipped, one that is not wanted is 0")
    if len(named) > most:
        too_many = f"an even asphere has at most {most} coefficients"
        raise ValueError(too_many if most else "only even and odd aspheres have coefficients")
    return [read_number(f"a{i}", given.pop(f"a{i}")) for i in range(1, len(named) + 1)]


def written(prescription, hexadecimal=False):
    """The text of a prescription, from which the same bytes come."""
    lines = [] if prescription.ray is None else [line_of("ray", zip(RAY_NAMES, prescription.ray), hexadecimal)]
    for one in prescription.surfaces:
        lines.append(line_of(f"mirror {one.kind}" if one.mirror else one.kind, fields_of(one), hexadecimal))
    return "".join(line + "\n" for line in lines)


def fields_of(one):
    """Names and numbers of a surface's line, without the coefficients that are read as 0 where they are left out."""
    shape = SHAPES[one.kind]
    yield from zip((*SURFACE_NAMES, *shape.names), (one.vertex, one.index, *one.numbers))
    for name, x in zip(shape.coefficients, one.coefficients()):
        # -0 is another number
        if bits_of(x) != 0 or not shape.has_all:
            yield name, x


def line_of(kind, named, hexadecimal):
    return " ".join([kind, *(f"{name}={numeral(x, hexadecimal)}" for name, x in named)])
