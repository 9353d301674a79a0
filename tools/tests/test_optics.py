import math
import unittest

from trying import CRATES
from numerals import of_pattern, pattern
from optics import BACKWARDS, Beam, Refusal, crossing, dot, leg, normal, passed, reflected, refracted, sag, slopes
from records import SHAPES, Surface

# how many questions of each sort the gate's list has at least, so that none is left out unseen
ASKED = {"sag": 75, "derivatives": 40, "normal": 50, "turn": 30, "intersect": 250}

# the coefficients of an odd asphere's record
TERMS = len(SHAPES["odd"].coefficients)

# what SCOPE's own checks refuse, which a start makes before a trace; a plane's normal, which no trace asks for; a ray
# so far out that a power of r overflows, where a record's 0 counts and a question without that coefficient has none
LEFT_OUT = {
    "conic_normal": lambda numbers: abs(numbers[4]) < 1e-15,
    "conic_intersect": lambda numbers: numbers[9] < 0,
    "even_sag": lambda numbers: numbers[0] < 0 or len(numbers) > 12,
    "even_normal": lambda numbers: len(numbers) > 13,
    "even_intersect": lambda numbers: numbers[9] < 0 or len(numbers) > 18,
    "odd_sag": lambda numbers: numbers[0] < 0 or len(numbers) > 4 + TERMS,
    "odd_normal": lambda numbers: len(numbers) > 5 + TERMS,
    "odd_intersect": lambda numbers: numbers[9] < 0 or len(numbers) > 10 + TERMS or is_far(numbers[:6]),
    "biconic_intersect": lambda numbers: numbers[11] < 0,
    "toroid_intersect": lambda numbers: numbers[10] < 0,
}


def is_far(ray):
    return max(map(abs, ray)) >= 2.0**60


def vectors(numbers):
    return [tuple(numbers[i : i + 3]) for i in range(0, len(numbers), 3)]


def surface_of(kind, own, vertex=0.0):
    return Surface(kind, vertex, 1.0, own)


def asked_sag(kind, numbers):
    """A radial sag is asked for by r, which is the distance of (r, 0)."""
    if kind in ("conic", "even", "odd"):
        return [sag(surface_of(kind, [*numbers[1:], 1.0] if kind == "conic" else numbers[1:]), numbers[0], 0.0)]
    return [sag(surface_of(kind, numbers[2:]), *numbers[:2])]


def asked_derivatives(kind, numbers):
    return slopes(surface_of(kind, numbers[2:]), *numbers[:2])


def asked_normal(kind, numbers):
    if kind == "conic":
        return normal(surface_of(kind, numbers[4:], numbers[3]), tuple(numbers[:3]))
    return normal(surface_of(kind, numbers[2:]), (*numbers[:2], 0.0))


def asked_turn(kind, numbers):
    return reflected(*vectors(numbers)) if kind == "reflect" else refracted(*vectors(numbers[:6]), *numbers[6:])


def asked_intersect(kind, numbers):
    """t and point, and of a conic normal and front face."""
    beam, surface = Beam(*vectors(numbers[:6]), 1.0), surface_of(kind, numbers[7:], numbers[6])
    t = crossing(surface, beam, [])
    if kind != "conic":
        return t, *beam.at(t)
    facing = normal(surface, beam.at(t))
    return t, *beam.at(t), *facing, float(dot(beam.direction, facing) < 0)


FUNCTIONS = {
    "sag": asked_sag,
    "derivatives": asked_derivatives,
    "normal": asked_normal,
    "turn": asked_turn,
    "intersect": asked_intersect,
}


def sort_of(word):
    kind, _, what = word.partition("_")
    if word in ("reflect", "refract"):
        return "turn"
    return what if kind in SHAPES and what in FUNCTIONS else None


def answered(word, numbers):
    """As `answers` writes it."""
    try:
        return ["1", *map(pattern, FUNCTIONS[sort_of(word)](word.partition("_")[0], numbers))]
    except Refusal as refusal:
        return [str(refusal.number), *(map(pattern, refusal.slots) if refusal.number == 7 else [])]


def numbers_of(operands):
    """Behind a count of even coefficients both sorts are filled up with 0, as in a record."""
    at = next((i for i, operand in enumerate(operands) if operand.startswith("#")), None)
    numbers = [of_pattern(operand) for i, operand in enumerate(operands) if i != at]
    if at is None:
        return numbers
    half, behind = TERMS // 2, at + int(operands[at][1:])
    terms = (numbers[at:behind], numbers[behind:])
    return [*numbers[:at], *(x for sort in terms for x in [*sort, *[0.0] * (half - len(sort))])]


def stored():
    """The gate's questions on what `optics` has, with finite numbers, and their answers but for 9."""
    questions, answers = ((CRATES / "answers" / name).read_text().split("\n") for name in ("stdin", "stdout"))
    for question, answer in zip(questions, answers):
        (word, *operands), told = question.split() or [""], answer.split()
        if sort_of(word) is None or told[0] in ("?", "9"):
            continue
        numbers = numbers_of(operands)
        if all(map(math.isfinite, numbers)) and not LEFT_OUT.get(word, lambda _: False)(numbers):
            yield word, numbers, told


class Optics(unittest.TestCase):
    def test_the_gates_answers(self):
        """Number and values, bit by bit."""
        count = dict.fromkeys(ASKED, 0)
        for word, numbers, told in stored():
            count[sort_of(word)] += 1
            self.assertEqual(answered(word, numbers), told, (word, numbers))
        self.assertTrue(all(count[sort] >= least for sort, least in ASKED.items()), count)

    def test_every_kind_has_its_formulas(self):
        for kind, shape in SHAPES.items():
            one = surface_of(kind, [0.5] * (shape.counts()[0] - 2))
            self.assertTrue(math.isfinite(sag(one, 0.25, 0.0)))
            self.assertAlmostEqual(dot(*[normal(one, (0.25, 0.0, 0.0))] * 2), 1.0)


def odd(semi, *b):
    """An odd asphere with these odd coefficients, and 0 in all else."""
    return surface_of("odd", [0.0, 0.0, semi, *[0.0] * (TERMS // 2), *b, *[0.0] * (TERMS // 2 - len(b))])


class OddAspheres(unittest.TestCase):
    def test_the_axis(self):
        """It has no slope where the first odd coefficient is below 1e-14."""
        beam = Beam((0.0, 0.0, 1.0), (2.0**46, 0.0, 1.0), 1.0)
        self.assertEqual(passed(odd(2.0**60, 2.0**-47), beam, 0.0), (-1.0, False))
        self.assertEqual(passed(odd(2.0**60, -(2.0**-46)), beam, 0.0), (-0.5, False))

    def test_near_the_axis_the_slope_is_along_x(self):
        one = odd(5.0, 0.5)
        for y in (0.0, 2.0**-49):
            self.assertEqual(slopes(one, 0.0, y), (0.5, 0.0))
        self.assertEqual(slopes(one, 0.0, 2.0**-46), (0.0, 0.5))
        self.assertEqual(slopes(odd(5.0, 1e-15), 0.0, 0.0), (0.0, 0.0))
        self.assertEqual(normal(odd(5.0), (0.0, 0.0, 0.0)), BACKWARDS)

    def test_odd_powers(self):
        begun = []
        self.assertEqual(crossing(odd(5.0, 0.25), Beam((4.0, 0.0, -1.0), (0.0, 0.0, 1.0), 1.0), begun), 2.0)
        self.assertEqual(len(begun), 2)
        for i in range(TERMS // 2):
            self.assertEqual(sag(odd(5.0, *[0.0] * i, 1.0), 2.0, 0.0), 2.0 ** (2 * i + 1))

    def test_r_is_asked_for_at_the_second_exit(self):
        beam = Beam((0.0, 0.0, 2.0**-30), (2.0**50, 0.0, 2.0**20), 1.0)
        self.assertEqual(leg(0, odd(0.5), beam), (7, 1, [1.0, 0.5]))
        self.assertEqual(leg(0, odd(1.0), beam)[:2], (1, 1))

    def test_its_limit(self):
        """A search that goes to and fro between r 0 and r 1."""
        beam = Beam((0.0, 0.0, 2.0), (1.0, 0.0, 1.0), 1.0)
        self.assertEqual(leg(0, odd(5.0, 3.0, -1.0), beam)[:2], (6, 25))

    def test_all_coefficients_take_part(self):
        """0 times a power beyond the largest number is no number."""
        self.assertTrue(math.isnan(sag(odd(1e300), 1e20, 0.0)))


if __name__ == "__main__":
    unittest.main()
