"""Draws numbers, surfaces, and places on them."""
import math
from random import Random

from floats import LARGEST, SMALLEST, of_bits, steps_from
from operations import SEMI


def conic_sag(c, k, r2):
    return c * r2 / (1 + math.sqrt(max(1 - (1 + k) * c * c * r2, 0.0)))


def sag(kind, numbers, x, y):
    """Near enough to aim at."""
    if kind == "toroid":
        rx, cy, ky, _ = numbers
        turned = (rx - conic_sag(cy, ky, y * y)) ** 2 - x * x
        return rx - math.copysign(math.sqrt(max(turned, 0.0)), rx)
    if kind == "biconic":
        cx, kx, cy, ky, _ = numbers
        radicand = 1 - (1 + kx) * cx * cx * x * x - (1 + ky) * cy * cy * y * y
        return (cx * x * x + cy * y * y) / (1 + math.sqrt(max(radicand, 0.0)))
    c, k, _, *coefficients = numbers
    r2 = x * x + y * y
    if kind == "odd":
        even, odd = both_sets(coefficients)
        return conic_sag(c, k, r2) + power_sum(even, r2) + (power_sum(odd, r2) / math.sqrt(r2) if r2 else 0.0)
    return conic_sag(c, k, r2) + power_sum(coefficients, r2)


def both_sets(counted):
    """An odd asphere's even and odd coefficients, from the count of the even ones and all of them."""
    even, *coefficients = counted
    return coefficients[:even], coefficients[even:]


def power_sum(coefficients, r2):
    terms = 0.0
    for a in reversed(coefficients):
        terms = (terms + a) * r2
    return terms


class Surfaces:
    def __init__(self, seed):
        self.random = Random(seed)
        self.choice = self.random.choice
        self.uniform = self.random.uniform

    def one_in(self, n):
        return self.random.randrange(n) == 0

    def signed(self, x):
        return self.choice((x, -x))

    def size(self, low, high):
        """Between two powers of ten."""
        return 10.0 ** self.uniform(low, high)

    def beside(self, x, reach=1):
        """x or a number some steps away."""
        return steps_from(x, self.random.randint(-reach, reach))

    def plain(self, edge):
        if not edge:
            return self.signed(self.size(-6, 6))
        square = float(self.random.getrandbits(26)) ** 2
        edges = [0.0, 1.0, SMALLEST, 2.0**-1022, LARGEST, square, 4.0 ** self.random.randint(-500, 500)]
        return self.signed(self.beside(self.choice(edges)))

    def hostile(self):
        draws = [
            lambda: self.signed(self.choice([0.0, SMALLEST, LARGEST])),
            lambda: self.signed(of_bits(self.random.getrandbits(52))),
            lambda: self.signed(self.size(150, 308)),
            lambda: self.signed(self.size(-320, -150)),
            lambda: self.signed(self.size(-20, 20)),
            lambda: self.choice([math.inf, -math.inf]),
            lambda: of_bits(0x7FF << 52 | self.random.getrandbits(1) << 63 | self.random.randrange(1, 1 << 52)),
            lambda: of_bits(self.random.getrandbits(64)),
        ]
        return self.choice(draws)()

    def curvature(self, semi, edge):
        """A hemisphere's at most, but for the edges."""
        ordinary = self.uniform(0.02, 1) / (abs(semi) or 10.0)
        edges = [self.beside(1e-15), 2.0**-50, 2.0**-49, 0.0, 1.0, 0.125, ordinary]
        return self.signed(self.choice(edges if edge else [ordinary] * 7 + [0.0]))

    def conic_constant(self, edge):
        ordinary = self.uniform(-3, 1)
        edges = [0.0, -1.0, self.beside(-1.0), -2.0, ordinary, ordinary]
        return self.choice(edges if edge else [0.0, -1.0, *[ordinary] * 6])

    def semi(self, edge=False):
        ordinary = self.uniform(2, 25)
        return self.choice([0.0, -0.0, -ordinary, *[ordinary] * 8]) if edge else ordinary

    def coefficients(self, power, edge):
        """Each term is below 1 at r = 20."""
        count = self.choice([0, 1, 7, 8, 9, 12]) if edge and self.one_in(4) else self.random.randrange(9)
        return [self.uniform(-1, 1) / 20.0 ** (power + 2 * i) for i in range(count)]

    def surface(self, kind, edge=False):
        semi = self.semi(edge)

        def base():
            return [self.curvature(semi, edge), self.conic_constant(edge)]

        if kind == "conic":
            return [*base(), semi]
        if kind == "even":
            return [*base(), semi, *self.coefficients(2, edge)]
        if kind == "odd":
            even, odd = self.coefficients(2, edge), self.coefficients(1, edge)
            if edge and odd:
                odd[0] = self.signed(self.choice([0.0, self.beside(1e-14), odd[0]]))
            return [*base(), semi, len(even), *even, *odd]
        if kind == "biconic":
            return [*base(), *base(), semi]
        rx = self.uniform(1, 50) * (abs(semi) or 10.0)
        edges = [0.0, self.beside(1e-12), 5.0, rx, rx]
        return [self.signed(self.choice(edges) if edge else rx), *base(), semi]

    def vertex(self):
        return self.choice([0.0, 0.0, 0.0, self.uniform(-50, 50)])

    def rim(self, c, k):
        """An r where the radicand is beside 0 or -1e-12; any r on a surface without a rim."""
        if c == 0 or k <= -1:
            return self.uniform(0, 20)
        return self.beside(math.sqrt((1 + self.choice([0.0, 1e-12])) / (1 + k)) / abs(c), 6)

    def place(self, kind, numbers, edge=False):
        """x and y: anywhere, or at the axis or the rim."""
        r, angle = self.uniform(0, 1.1) * abs(numbers[SEMI[kind]]), self.uniform(0, 2 * math.pi)
        if not edge or self.one_in(4):
            return r * math.cos(angle), r * math.sin(angle)
        x, y = self.choice([(1.0, 0.0), (0.0, 1.0), (0.6, -0.8)])
        if self.one_in(3):
            r = self.choice([0.0, self.beside(1e-15), self.beside(1e-14)])
        elif kind == "toroid" and y == 0:
            return self.signed(self.turned_rim(numbers, 0.0)), 0.0
        elif kind == "toroid" and x and y:
            y = self.uniform(-2, 2)
            return self.turned_rim(numbers, y), y
        elif kind in ("biconic", "toroid"):
            r = self.rim(*(numbers[:2] if x else numbers[-3:-1]))
        else:
            r = self.rim(*numbers[:2])
        return self.signed(r * x), self.signed(r * y)

    def turned_rim(self, toroid, y):
        """An x where the turned circle's radicand is beside 0, 1e-14 or -1e-12."""
        rx, cy, ky, _ = toroid
        square = (rx - conic_sag(cy, ky, y * y)) ** 2 + self.choice([0.0, -1e-14, 1e-12])
        return self.beside(math.sqrt(max(square, 0.0)), 6)

    def pinned(self, kind):
        """A surface and a place on it where the radicand is not bound to steps of 2^-53, and beside its limit."""
        if kind == "biconic":
            x, y = self.choice([(1.0, self.beside(1e-6)), (1 - 2.0**-53, self.beside(math.sqrt(2.0**-52 - 1e-28), 6))])
            return [1.0, 0.0, 1.0, 0.0, 9.0], x, y
        small_x, small_rx = self.beside(1e-6), self.beside(1e-7)
        rx, x = self.choice([(0.0, small_x), (small_rx, self.choice([0.0, math.sqrt(math.ulp(1e-14))]))])
        return [rx, 0.0, 0.0, 9.0], x, 0.0
