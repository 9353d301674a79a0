"""A recipe's bytes, as SCOPE has them (R1 to R5), and the surfaces that they tell."""
import math
import struct
from itertools import accumulate
from typing import List, NamedTuple, Optional, Tuple

MOST_SURFACES = 512
MOST_BYTES = 65536
MIRROR = 256


class Shape(NamedTuple):
    """What a kind's record has: its number, the names of its numbers behind vertex and index, those of the coefficients
    that may follow, and whether all of these always do; and the most steps that such a surface takes."""

    kind: int
    names: Tuple[str, ...]
    coefficients: Tuple[str, ...]
    has_all: bool
    steps: int

    def counts(self):
        """How many numbers such a record may have."""
        most = 2 + len(self.names) + len(self.coefficients)
        return range(most if self.has_all else 2 + len(self.names), most + 1)


# of r^2, r^4 and so on, and of r, r^3 and so on
EVEN_TERMS = tuple(f"a{i}" for i in range(1, 9))
ODD_TERMS = tuple(f"b{i}" for i in range(1, 9))

SHAPES = {
    "conic": Shape(1, ("c", "k", "semi"), (), False, 1),
    "even": Shape(2, ("c", "k", "semi"), EVEN_TERMS, False, 25),
    "biconic": Shape(3, ("cx", "kx", "cy", "ky", "semi"), (), False, 35),
    "toroid": Shape(4, ("rx", "cy", "ky", "semi"), (), False, 35),
    "odd": Shape(5, ("c", "k", "semi"), (*EVEN_TERMS, *ODD_TERMS), True, 25),
}
RAY_NAMES = ("x", "y", "z", "dx", "dy", "dz", "index")


class Surface(NamedTuple):
    kind: str
    vertex: float
    index: float
    numbers: List[float]
    mirror: bool = False

    def named(self):
        """The numbers by their names; coefficients are not among them."""
        return dict(zip(SHAPES[self.kind].names, self.numbers))

    def coefficients(self):
        return self.numbers[len(SHAPES[self.kind].names):]

    def called(self):
        return f"{self.kind} mirror" if self.mirror else self.kind


class Malformed(Exception):
    """Bytes that are no recipe: where the record begins that is wrong, and why."""

    def __init__(self, place, reason):
        super().__init__(f"byte {place}: {reason}")
        self.place, self.reason = place, reason


class Prescription(NamedTuple):
    """The ray has origin, direction and starting index. A recipe for the library has none. Where bytes are malformed
    behind the surfaces, it is said how."""

    ray: Optional[List[float]]
    surfaces: List[Surface]
    malformed: Optional[Malformed] = None


class Fault(NamedTuple):
    """Why a trace is refused at its start: the surface's number, or None for the ray; the number in the table; and the
    reason."""

    surface: Optional[int]
    number: int
    reason: str


def bytes_of(kind, numbers):
    return struct.pack(f"<HH{len(numbers)}d", 2 + 8 * len(numbers), kind, *numbers)


def record(kind, vertex, index, numbers, mirror=False):
    return bytes_of(SHAPES[kind].kind + MIRROR * mirror, [vertex, index, *numbers])


def recipe(surfaces):
    return b"".join(record(*surface) for surface in surfaces)


def file(prescription):
    """What a program reads, or without a ray the library."""
    return (b"" if prescription.ray is None else bytes_of(0, prescription.ray)) + recipe(prescription.surfaces)


def places(surfaces, first=0):
    """Of each record, and the recipe's end."""
    return list(accumulate((len(record(*surface)) for surface in surfaces), initial=first))


def file_places(prescription):
    """The same, from the start of a program's file."""
    return places(prescription.surfaces, len(file(Prescription(prescription.ray, []))))


def parsed(data):
    """The prescription that bytes tell, up to a record that is malformed. A first record of kind 0 is the ray's."""
    try:
        ray, at = ray_at_start(data)
    except Malformed as wrong:
        return Prescription(None, [], wrong)
    surfaces, last = [], at + MOST_BYTES
    while at < len(data):
        try:
            surface, at = surface_at(data, at, len(surfaces), last)
        except Malformed as wrong:
            return Prescription(ray, surfaces, Malformed(wrong.place, f"surface {len(surfaces)}: {wrong.reason}"))
        surfaces.append(surface)
    return Prescription(ray, surfaces)


def ray_at_start(data):
    """The ray, if there is one, and where the surfaces begin."""
    if data[2:4] != b"\0\0":
        return None, 0
    _, ray, end = record_at(data, 0)
    if len(ray) != len(RAY_NAMES):
        due, given = (2 + 8 * count for count in (len(RAY_NAMES), len(ray)))
        raise Malformed(0, f"a ray's record has {due} bytes after its length, and not {given}")
    return ray, end


def surface_at(data, at, before, last):
    """A surface, and where the next begins, if so many stand before it and it ends here at the last."""
    if before == MOST_SURFACES:
        raise Malformed(at, f"a recipe has at most {MOST_SURFACES}")
    number, numbers, end = record_at(data, at)
    mirror, own = divmod(number, MIRROR)
    kind = next((kind for kind, shape in SHAPES.items() if shape.kind == own), None)
    if kind is None or mirror > 1:
        raise Malformed(at, f"there is no kind {number}")
    if len(numbers) not in SHAPES[kind].counts():
        raise Malformed(at, f"length {2 + 8 * len(numbers)} is not one of kind {number}, {kind}")
    if end > last:
        raise Malformed(at, f"a recipe has at most {MOST_BYTES} bytes, and the record ends {end - last} past them")
    return Surface(kind, numbers[0], numbers[1], numbers[2:], mirror == 1), end


def record_at(data, at):
    """A record's kind, its numbers and where the next begins."""
    if len(data) < at + 4:
        raise Malformed(at, f"cut short: {len(data) - at} of the 4 bytes of length and kind")
    length, kind = struct.unpack_from("<HH", data, at)
    if length % 8 != 2:
        raise Malformed(at, f"length {length} is not that of a kind and whole numbers")
    end = at + 2 + length
    if len(data) < end:
        raise Malformed(at, f"cut short: {len(data) - at} of the record's {2 + length} bytes")
    return kind, list(struct.unpack_from(f"<{length // 8}d", data, at + 4)), end


def surface_fault(surface):
    """The number and the reason of the first that is wrong with a surface, in the order of the trace's checks; or
    None."""
    if not all(map(math.isfinite, [surface.vertex, surface.index, *surface.numbers])):
        return 2, "a number is not finite"
    if surface.named()["semi"] < 0:
        return (3 if surface.kind == "conic" else 2), "the semi-diameter is negative"
    return index_fault(surface.index)


def index_fault(index):
    return None if index > 0 else (4, "the index is not above 0")


def ray_fault(ray):
    if not all(map(math.isfinite, ray)):
        return 2, "a number is not finite"
    return index_fault(ray[6])


def faults(prescription):
    """All that a start refuses, in the order of its checks, record by record and then the ray; it answers the first."""
    found = [Fault(i, *fault) for i, fault in enumerate(map(surface_fault, prescription.surfaces)) if fault]
    if prescription.malformed is not None:
        found.append(Fault(len(prescription.surfaces), 10, prescription.malformed.reason))
    if prescription.ray is not None and ray_fault(prescription.ray):
        found.append(Fault(None, *ray_fault(prescription.ray)))
    return found


def slip(surface):
    """What a start takes, though it is hardly meant; or None."""
    if surface.kind == "toroid" and surface.named()["rx"] == 0:
        return "rx is 0, a circle without a radius, which a beam hardly meets: a cylinder is a biconic with radiusx=inf"
    return None
