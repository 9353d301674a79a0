"""Draws questions of every operation: ordinary ones, ones at the edges of the Rust text's tests, and hostile ones."""
import math

from floats import SMALLEST
from operations import IN_RUST, NOT_IN_RUST, NUMBERS, TURNS, is_intersection
from rays import Rays
from surfaces import sag

MANY_EDGES = ("sag", "derivative", "derivatives", "normal", "reflect", "refract")
# how often each sort is drawn in a hundred
SORTS = {"ordinary": 50, "edge": 35, "hostile": 15}


class Questions(Rays):
    def sorts(self, operation):
        """All that `question` takes but "edge", which is any of a ray's edges."""
        edges = self.meetings(operation.removesuffix("_intersect")) if is_intersection(operation) else ["edge"]
        return ["ordinary", *edges, "hostile"]

    def question(self, operation, sort):
        if sort == "hostile":
            return operation, self.spoilt(self.operands(operation, self.choice(["ordinary", "edge"])))
        return operation, self.operands(operation, sort)

    def operands(self, operation, sort):
        edge = sort != "ordinary"
        if operation in NUMBERS:
            return [self.plain(edge) for _ in range(2 if operation == "max" else 1)]
        if operation in TURNS:
            return self.turn(edge) if operation == "refract" else self.turn(edge)[:6]
        kind, _, what = operation.partition("_")
        if what == "intersect":
            meet = self.choice(self.meetings(kind)) if sort == "edge" else sort if edge else self.aimed
            ray, vertex, numbers = meet(kind)
            return [*ray, vertex, *numbers]
        numbers = self.surface(kind, edge)
        if what in ("sag", "derivative", "derivatives", "normal"):
            return self.at_a_place(kind, what, numbers, edge)
        if kind == "conic":
            return self.conic_made(what, numbers, edge)
        return numbers

    def spoilt(self, operands):
        """With one to three numbers made hostile."""
        places = [i for i, x in enumerate(operands) if type(x) is float]
        operands = list(operands)
        for i in self.random.sample(places, min(len(places), self.choice([1, 1, 2, 3]))):
            operands[i] = self.hostile()
        return operands

    def vector(self):
        return [self.uniform(-1, 1) for _ in range(3)]

    def turn(self, edge):
        """Incident direction, normal, and both indices."""
        i, n, n1, n2 = self.vector(), self.vector(), self.uniform(1, 2.5), self.uniform(1, 2.5)
        if not edge:
            return [*i, *n, n1, n2]
        lean = self.beside(min(n1, n2) / max(n1, n2), 8)
        critical = [lean, 0.0, math.sqrt(max(1 - lean * lean, 0.0))]
        twice = self.signed(2.0)
        short = [self.signed(self.beside(1e-15)), 0.0, self.choice([0.0, -0.0, 1e-16])]
        return self.choice([
            [*critical, 0.0, 0.0, self.signed(1.0), max(n1, n2), min(n1, n2)],
            [1.0, 0.0, 0.0, 0.0, 0.0, -1.0, self.choice([n1, n2]), n1],
            [*i, *(twice * x for x in i), n1, n2],
            [*short, *n, n1, n2],
            [*i, *reversed(short), n1, n2],
            [*i, *n, self.choice([0.0, -0.0, SMALLEST, -n1]), n2],
            [*i, *n, n1, self.choice([0.0, -0.0, SMALLEST, -n2])],
        ])

    def conic_made(self, what, numbers, edge):
        c, k, semi = numbers
        radius = self.signed(self.choice([self.beside(1e-15), math.inf, 1.0])) if edge else self.uniform(10, 300)
        conic = [self.vertex(), c, k, semi]
        return {
            "from_radius": [radius, k, semi],
            "from_curvature": [c, k, semi],
            "sphere": [radius, semi],
            "plane": [semi],
            "with_vertex_z": [*conic, self.uniform(-50, 50)],
            "radius": conic,
        }[what]

    def at_a_place(self, kind, what, numbers, edge):
        x, y = self.place(kind, numbers, edge)
        if edge and kind in ("biconic", "toroid") and self.one_in(4):
            numbers, x, y = self.pinned(kind)
        r = math.sqrt(x * x + y * y)
        if kind == "conic" and what == "sag":
            return [self.signed(r), *numbers[:2]]
        if kind == "conic":
            vertex = self.vertex()
            if edge and self.one_in(3):
                c = self.signed(1.0)
                tiny = self.choice([0.0, self.beside(1e-15)])
                return [tiny, 0.0, vertex + c, vertex, c, 0.0, numbers[2]]
            return [x, y, vertex + sag(kind, numbers, x, y), vertex, *numbers]
        if kind in ("even", "odd") and what != "normal":
            return [-r if edge and self.one_in(10) else r, *numbers]
        return [x, y, *numbers]


def generators(seed):
    """Each with its operations: those that the Rust text has not are drawn apart, so that the others stay."""
    return [(Questions(seed), IN_RUST), (Questions(f"{seed} not in Rust"), NOT_IN_RUST)]


def weight(operation):
    """More of what has more edges."""
    return 6 if is_intersection(operation) else 3 if operation.endswith(MANY_EDGES) else 1


def draws(seed, count):
    """Of each generator a list: so many questions of the Rust text's operations, and of the others in proportion."""
    for questions, operations in generators(seed):
        choices, weights = questions.random.choices, [*map(weight, operations)]
        share = count * sum(weights) // sum(map(weight, IN_RUST))
        drawn = choices(operations, weights, k=share)
        yield [questions.question(operation, choices(list(SORTS), SORTS.values())[0]) for operation in drawn]
