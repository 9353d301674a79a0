"""Draws rays that meet a surface. Each is given as the ray's six numbers, the surface's vertex z and its other
numbers."""
import math

from operations import SEMI
from surfaces import Surfaces, conic_sag, sag


class Rays(Surfaces):
    def aimed(self, kind):
        """At a place of the surface, from either side."""
        numbers, vertex = self.surface(kind), self.vertex()
        x, y = self.place(kind, numbers)
        z = vertex + sag(kind, numbers, x, y)
        dx, dy, dz = self.uniform(-0.4, 0.4), self.uniform(-0.4, 0.4), self.signed(1.0)
        far = self.uniform(5, 60)
        length = self.choice([1.0, self.size(-2, 2)])
        return [x - far * dx, y - far * dy, z - far * dz, *(length * d for d in (dx, dy, dz))], vertex, numbers

    def meetings(self, kind):
        """All ways to draw one at an edge."""
        ways = [self.in_one_move, self.stretched, self.overflown, self.at_the_stop]
        ways += [self.straight, self.passed, self.level]
        if kind == "conic":
            return [*ways, self.other_sheet, self.on_the_axis, self.equator]
        ways += [self.along_the_slope, self.last_move, self.many_passes]
        return ways + {"even": [self.beside_the_axis], "odd": [self.beside_odd_axis]}.get(kind, [])

    def in_one_move(self, kind):
        """The direction is so long that Newton's first move is the last: its t shows how the slope was rounded."""
        ray, vertex, numbers = self.aimed(kind)
        factor = 2.0 ** self.random.randint(50, 60)
        return [*ray[:3], *(factor * d for d in ray[3:])], vertex, numbers

    def stretched(self, kind):
        """The direction is very long or very short."""
        ray, vertex, numbers = self.aimed(kind)
        factor = 2.0 ** self.signed(self.choice([self.random.randint(1, 70), self.random.randint(480, 520)]))
        return [*ray[:3], *(factor * d for d in ray[3:])], vertex, numbers

    def overflown(self, kind):
        """The distance from origin to vertex is infinite."""
        far, numbers = self.signed(self.size(307.96, 308.2)), self.surface(kind, self.one_in(2))
        return [0.0, 0.0, -far, self.choice([0.0, 1.0]), 0.0, self.signed(1.0)], far, numbers

    def at_the_stop(self, kind):
        """r is beside the semi-diameter or beside 1.5 of it."""
        numbers, vertex = self.surface(kind), self.vertex()
        x, y = self.place(kind, numbers)
        r = math.sqrt(x * x + y * y)
        numbers[SEMI[kind]] = self.choice([self.beside(r), self.beside(r / 1.5)])
        dz = self.signed(1.0)
        return [x, y, vertex - 20 * dz, 0.0, 0.0, dz], vertex, numbers

    def straight(self, kind):
        """Along the axis, at its side or at the rim; at a conic's rim the discriminant is about 0."""
        numbers, vertex = self.surface(kind, True), self.vertex()
        x, y = self.place(kind, numbers, True)
        if kind != "conic":
            # a stop that the Newton passes are not ended by
            numbers[SEMI[kind]] = self.choice([numbers[SEMI[kind]], 2 * math.hypot(x, y)])
        dz = self.signed(1.0)
        return [x, y, vertex - 5 * dz, 0.0, 0.0, dz], vertex, numbers

    def passed(self, kind):
        """The ray starts on the surface, or some way before or behind it."""
        numbers, vertex = self.surface(kind, self.one_in(2)), self.vertex()
        x, y = (0.0, 0.0) if self.one_in(2) else self.place(kind, numbers, self.one_in(2))
        ways = [0.0, self.beside(1e-7), self.beside(1e-11), 2.0**-24, 2.0**-23, self.size(-13, -6), self.uniform(0, 5)]
        z = vertex + sag(kind, numbers, x, y) + self.signed(self.choice(ways))
        return [x, y, z, 0.0, self.choice([0.0, 0.1]), self.signed(1.0)], vertex, numbers

    def level(self, kind):
        """Nearly at a right angle to the axis; it may start on the surface and go on from the vertex's plane."""
        numbers, vertex = self.surface(kind, self.one_in(2)), self.vertex()
        x, y = self.place(kind, numbers, self.one_in(2))
        height = self.choice([0.0, sag(kind, numbers, x, y)])
        dz = math.copysign(self.choice([0.0, self.beside(1e-15), self.size(-16, -14), self.size(-3, -1)]), height)
        return [x, y, vertex + height, self.choice([0.0, 1.0]), self.uniform(-1, 1), dz], vertex, numbers

    def other_sheet(self, conic):
        """A hyperboloid's vertex sheet is met from beyond the other one."""
        c, k, semi = self.signed(1 / self.uniform(1, 20)), self.choice([-2.0, self.uniform(-5, -1.1)]), self.semi()
        vertex, (x, y) = self.vertex(), self.place(conic, [c, k, 0.2 * semi])
        z = vertex + conic_sag(c, k, x * x + y * y)
        origin = [self.uniform(-1, 1), self.uniform(-1, 1), vertex + self.uniform(1.5, 4) * 2 / ((1 + k) * c)]
        return [*origin, x - origin[0], y - origin[1], z - origin[2]], vertex, [c, k, semi]

    def on_the_axis(self, conic):
        """A sphere where one number of the search for a root is beside its limit."""
        u = self.uniform(1, 2)
        c, z, dz = self.choice([
            (1.0, 0.0, self.beside(0.5e-30)),  # q, at the root C/q
            (1e32, u / 1e32, -self.beside(1e-30 / u, 3)),  # q, at the root q/A
            (1.0, u, -self.beside(1e-15)),  # A
            (1e5, u / 1e5, self.beside(u / 1e5 / 1e-7, 3)),  # the root q/A
            (1.0, self.beside(1e-4), 1e5),  # the distance from the sag
        ])
        return [0.0, 0.0, z, 0.0, 0.0, dz], 0.0, [c, 0.0, 10.0]

    def equator(self, conic):
        """Where an ellipsoid turns back: met from the side, or from inside on the farther half about 1e-4 from the
        sag."""
        c, k, vertex = 1 / self.uniform(1, 50), self.choice([0.0, self.uniform(-0.9, 1)]), self.vertex()
        r, z = 1 / (c * math.sqrt(1 + k)), vertex + 1 / ((1 + k) * c)
        if self.one_in(2):
            angle = self.uniform(0, 2 * math.pi)
            dx, dy = math.cos(angle), math.sin(angle)
            return [2 * r * dx, 2 * r * dy, z, -dx, -dy, 0.0], vertex, [c, k, 100.0]
        half = 0.5e-4 * (1 + self.signed(self.size(-8, -1)))
        x = r * math.sqrt(1 - (half * (1 + k) * c) ** 2)
        return [x, 0.0, z, 0.0, 0.0, 1.0], vertex, [c, k, 100.0]

    def along_the_slope(self, kind):
        """f' is beside 0 or 1e-15: the first pass is at the ray's origin, where the slope is exact."""
        x, slope, height, numbers = {
            "even": (4.0, 1.0, 2.0, [0.0, 0.0, 10.0, 0.125]),
            "biconic": (4.0, 1.0, 2.0, [0.25, -1.0, 0.25, -1.0, 10.0]),
            "toroid": (3.0, 0.75, 1.0, [5.0, 0.0, 0.0, 10.0]),
            "odd": (4.0, 1.0, 3.0, [0.0, 0.0, 10.0, 1, 0.0625, 0.5]),
        }[kind]
        size = self.choice([0.0, *[2.0 ** -self.random.randrange(31)] * 3])
        gap = self.signed(self.choice([0.0, self.beside(1e-15), self.size(-17, -14)]))
        z, dz = height + self.uniform(0.5, 2), slope * size + gap
        turned = kind != "toroid" and self.one_in(2)
        place, across = ([0.0, x], [0.0, size]) if turned else ([x, 0.0], [size, 0.0])
        return [*place, z, *across, dz], 0.0, numbers

    def last_move(self, kind):
        """The first move is beside 1e-12, and may lead out of the semi-diameter."""
        numbers = self.surface(kind)
        z = self.size(-10.5, -2)
        dz = self.beside(z / 1e-12)
        dx = self.choice([0.0, self.signed(numbers[SEMI[kind]] * 1e12 * self.uniform(0.5, 1.5))])
        if dx and self.one_in(2):
            numbers[SEMI[kind]] = self.beside(abs(dx * (z / dz)))
        return [0.0, 0.0, z, dx, 0.0, dz], 0.0, numbers

    def many_passes(self, kind):
        """Nearly level, to a crossing so flat that it takes about as many passes as are allowed."""
        steep = [*[0.0] * 7, self.size(-2, 1)]
        start, across, numbers = {
            "even": ([1.0, 0.0, 0.0], [-1.0, 0.0], [0.0, 0.0, 2.0, *steep]),
            "biconic": ([1.0, 0.0, 0.0], [-1.0, 0.0], [self.size(7, 11), -1.0, 0.0, 0.0, 2.0]),
            "toroid": ([0.0, 1.0, 0.0], [0.0, -1.0], [1.0, -self.size(7, 11), -1.0, 2.0]),
            "odd": ([1.0, 0.0, 0.0], [-1.0, 0.0], [0.0, 0.0, 2.0, 0, *steep]),
        }[kind]
        return [*start, *across, self.size(-15, -14)], 0.0, numbers

    def beside_the_axis(self, even):
        """r is beside 1e-14, where the slope is already felt; the first move is the last."""
        return [self.beside(1e-14), 0.0, 1e-9, 1e6, 0.0, 1e6], 0.0, [1e10, -1.0, 10.0]

    def beside_odd_axis(self, odd):
        """r is beside 1e-15 or 1e-14, or the first odd coefficient beside 1e-14, where slopes are 0, or along x, or of
        both x and y; the first move is the last, and may lead out of the semi-diameter."""
        r = self.choice([0.0, self.beside(1e-15), self.beside(1e-14), self.size(-15.5, -13.5)])
        x, y = self.choice([(r, 0.0), (0.0, r), (0.6 * r, -0.8 * r)])
        first = self.signed(self.choice([0.0, self.beside(1e-14), self.size(-3, -1)]))
        across = self.choice([(1e6, 0.0), (0.0, 1e6), (5e5, 2e6), (5e19, 0.0)])
        semi = self.choice([1e6, 7e4])
        return [x, y, 1e-9, *across, 1e6], 0.0, [self.choice([0.0, 1e10]), -1.0, semi, 0, first]
