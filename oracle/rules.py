"""What SCOPE wants where it differs from the Rust text (T8), from a question and the Rust text's answer alone."""
import math

from floats import MINUS_ZERO, PLUS_ZERO, of_pattern, pattern
from operations import NUMBERS, SEMI, is_intersection

NOT_FINITE = "an argument is not finite"
COUNT = "more than 8 coefficients"
TOROID = "the constructor of a toroid takes rx about 0"
NEGATIVE = "a negative semi-diameter before an intersection"
NINE = "a number of the answer is not finite"
GROUPS = [NOT_FINITE, COUNT, TOROID, NEGATIVE, NINE]

# These follow Rust on every argument and never give 9.
AS_IN_RUST = {
    *NUMBERS,
    *("conic_from_radius", "conic_from_curvature", "conic_sphere", "conic_plane", "conic_with_vertex_z"),
    *("conic_radius", "biconic_rx", "biconic_ry", "toroid_ry"),
}
# These give 4, and the others 2, if an argument is not finite.
SINGULAR = {"conic_sag", "conic_normal", "reflect", "refract"}
# how many operands stand before an asphere's
BEFORE = {"new": 0, "paraxial": 0, "sag": 1, "derivative": 1, "normal": 2, "intersect": 7}


def expected(question, told):
    """The answer, and the listed difference that it falls under if it is not what Rust told."""
    told = settled(*question, told)
    answer, group = ruled(*question, told)
    return answer, None if answer == told else group


def ruled(operation, operands, told):
    kind, _, what = operation.partition("_")
    if operation in AS_IN_RUST:
        return told, None
    if not all(map(math.isfinite, operands)):
        return "4" if operation in SINGULAR else "2", NOT_FINITE
    if kind in ("even", "odd") and most_coefficients(kind, operands[BEFORE[what] + 3 :]) > 8:
        return "2", COUNT
    if operation == "toroid_new" and abs(operands[0]) < 1e-12 and operands[SEMI[kind]] >= 0:
        return " ".join(["1", *map(pattern, operands)]), TOROID
    if is_intersection(operation) and operands[7 + SEMI[kind]] < 0:
        return "3" if kind == "conic" else "2", NEGATIVE
    if told.startswith("1 ") and not all(math.isfinite(of_pattern(value)) for value in told.split()[1:]):
        return "9", NINE
    return told, None


def most_coefficients(kind, operands):
    if kind == "even":
        return len(operands)
    even, *coefficients = operands
    return max(even, len(coefficients) - even)


def settled(operation, operands, told):
    """With the rule's sign of zero where `f64::max` leaves it open: a maximum of mixed zeros is +0.0."""
    if operation == "max" and operands == [0.0, 0.0]:
        both_minus = all(math.copysign(1.0, x) < 0 for x in operands)
        return f"1 {MINUS_ZERO if both_minus else PLUS_ZERO}"
    if operation == "conic_intersect" and told.startswith(f"1 {MINUS_ZERO}"):
        point = [o + 0.0 * d for o, d in zip(operands[:3], operands[3:6])]
        return " ".join(["1", PLUS_ZERO, *map(pattern, point), *told.split()[5:]])
    return told


def same(answer, other):
    """Both zeros are equal."""
    return answer.replace(MINUS_ZERO, PLUS_ZERO) == other.replace(MINUS_ZERO, PLUS_ZERO)
