"""What is asked every time: questions with the answers that SCOPE gives them, and lines that cannot be read."""
import math

from floats import LARGEST, SMALLEST, of_pattern, pattern
from operations import line

INFINITY, NAN = math.inf, math.nan
UP = [0.0, 0.0, 1.0]
DOWN = [0.0, 0.0, -1.0]
STEP = 2.0**-52
VERTEX_FROM_THE_FRONT = [0.0, 0.0, 0.0, *DOWN, 1.0]
# a ray whose first move is small, and leads far aside
FLAT_AND_FAST = [0.0, 0.0, 2.0**-30, 2.0**50, 0.0, 2.0**20]
# and one that a slope of 2^-46 along x is parallel to
STEEPLY_ASIDE = [0.0, 0.0, 2.0**-30, 2.0**66, 0.0, 2.0**20]
# a ray but for its dz, above a place where a bowl's slope is 1
ABOVE_A_BOWL = [1.0, 0.0, 2.0, 2.0**20, 0.0]
# a ray that comes to the rim of the unit sphere twice, at points less than 1e-6 apart
ALONG_THE_RIM = [
    *map(of_pattern, ("BFF67DD1CF365B7F", "3FC3CFEF8F793DBC", "3FF3F8AA7E48A610")),
    *map(of_pattern, ("3FE403D3DD47385F", "BFE8F7CFC12583B8", "BFCFC55541B9D127")),
]
# a ray, and the vertex, c and k of a surface that it meets at an infinite z
FAR_OUT = [2.0**510, 0.0, LARGEST, 0.0, 0.0, 2.0**1020, LARGEST, 2.0**-40, -1.0]

# Operation, operands, and the answer: its number and values, or the number alone where SCOPE has no values.
WORKED = [
    # both sides of each edge, as SCOPE lists them (E1 to E7)
    ("conic_sag", [4.0, 1 / 8, -1.0], [1, 1.0]),
    ("conic_sag", [1.0, 1.0, 0.0], [1, 1.0]),
    ("conic_sag", [1 + STEP, 1.0, 0.0], [5]),
    ("even_sag", [1 + STEP, 1.0, 0.0, 10.0], [1, 1 + 2 * STEP]),
    ("conic_sag", [1.0, 2.0**-50, -1.0], [1, 0.0]),
    ("conic_sag", [1.0, 2.0**-49, -1.0], [1, 2.0**-50]),
    ("conic_intersect", [0.0, 0.0, 2.0**-24, *UP, 0.0, 0.0, 0.0, 10.0], [1, 0.0, 0.0, 0.0, 2.0**-24, *DOWN, 1.0]),
    ("conic_intersect", [0.0, 0.0, 2.0**-23, *UP, 0.0, 0.0, 0.0, 10.0], [6]),
    ("conic_intersect", [0.0, 0.0, -2.0, *UP, 0.0, 1 / 8, 0.0, 10.0], [1, 2.0, *VERTEX_FROM_THE_FRONT]),
    ("even_intersect", [4.0, 0.0, -1.0, *UP, 0.0, 0.0, 0.0, 5.0, 1 / 8], [1, 3.0, 4.0, 0.0, 2.0]),
    ("even_intersect", [4.0, 0.0, -1.0, *UP, 0.0, 0.0, 0.0, 3.0, 1 / 8], [7, 4.0, 3.0]),
    ("even_intersect", [4.0, 0.0, -1.0, *UP, 0.0, 0.0, 0.0, 2.0, 1 / 8], [6]),
    ("toroid_sag", [3.0, 0.0, 5.0, 0.0, 0.0, 10.0], [1, 1.0]),
    ("toroid_sag", [3.0, 0.0, -5.0, 0.0, 0.0, 10.0], [1, -1.0]),
    ("toroid_sag", [5.0, 0.0, 5.0, 0.0, 0.0, 10.0], [1, 5.0]),
    ("toroid_derivatives", [5.0, 0.0, 5.0, 0.0, 0.0, 10.0], [5]),
    ("refract", [1.0, 0.0, 0.0, *DOWN, 1.5, 1.5], [1, 1.0, 0.0, 0.0]),
    ("refract", [1.0, 0.0, 0.0, *DOWN, 2.0, 1.0], [8]),
    # a cosine that rounds above 1; a sag that exists where the normal does not
    ("refract", [0.1, 0.3, 0.9, -0.1, -0.3, -0.9, 1.0, 1.5], [1]),
    ("conic_intersect", [-4.0, -8.0, 4.0, 1.0, 2.0, 0.0, 0.0, 1 / 4, 0.0, 100.0], [5]),
    # ports that look right: the smaller root is the other sheet's; no aperture check at the even asphere's second exit
    ("conic_intersect", [0.0, 0.0, -5.0, *UP, 0.0, 1.0, -2.0, 10.0], [1, 5.0, *VERTEX_FROM_THE_FRONT]),
    ("even_intersect", [*FLAT_AND_FAST, 0.0, 0.0, 0.0, 0.5], [1, -(2.0**-50), -1.0, 0.0, 0.0]),
    ("biconic_intersect", [*FLAT_AND_FAST, 0.0, 0.0, 0.0, 0.0, 0.0, 0.5], [7, 1.0, 0.5]),
    # which crossing (S10): a sphere from inside; the first is beyond the semi-diameter, or has no normal
    ("conic_intersect", [0.0, 0.0, 2.0, *DOWN, 0.0, 1 / 8, 0.0, 10.0], [1, 2.0, 0.0, 0.0, 0.0, *DOWN, 0.0]),
    ("conic_intersect", [0.0, 0.0, 2.0, *UP, 0.0, 1 / 8, 0.0, 10.0], [6]),
    ("conic_intersect", [-8.0, 0.0, 7.0, 4.0, 0.0, -3.0, 0.0, 1 / 2, -1.0, 2.0], [7, 4.0, 2.0]),
    ("conic_intersect", [*ALONG_THE_RIM, 0.0, 1.0, 0.0, 5.0], [5]),
    # numbers; a root and a clamp keep -0.0, and so does Newton's start; a maximum of mixed zeros is +0.0
    ("sqrt", [-0.0], [1, -0.0]),
    ("clamp", [-0.0], [1, -0.0]),
    ("max", [-0.0, 0.0], [1, 0.0]),
    ("max", [0.0, -0.0], [1, 0.0]),
    ("max", [-0.0, -0.0], [1, -0.0]),
    ("max", [NAN, -1.0], [1, -1.0]),
    ("max", [NAN, NAN], [1, NAN]),
    ("sqrt", [-1.0], [1, NAN]),
    ("abs", [-0.0], [1, 0.0]),
    ("abs", [-INFINITY], [1, INFINITY]),
    ("abs", [NAN], [1, NAN]),
    ("clamp", [INFINITY], [1, 1.0]),
    ("clamp", [NAN], [1, NAN]),
    ("finite", [NAN], [1, 0.0]),
    ("even_intersect", [0.0, 0.0, 0.0, *DOWN, 0.0, 0.0, 0.0, 1.0], [1, -0.0, 0.0, 0.0, 0.0]),
    ("conic_intersect", [0.0, 0.0, 0.0, *UP, 0.0, 0.0, 0.0, 1.0], [1, 0.0, *VERTEX_FROM_THE_FRONT]),
    # the debug assertions of unit length do not exist
    (
        "conic_intersect",
        [0.0, 0.0, -5.0, 0.0, 0.0, 2.0**600, 0.0, 0.0, 0.0, 1.0],
        [1, 5 * 2.0**-600, *VERTEX_FROM_THE_FRONT],
    ),
    # numbers that are not finite inside run on as in Rust
    ("biconic_intersect", [1.0, 0.0, 5e307, *UP, 0.0, 1e308, -1.0, 0.0, 0.0, 9.0], [1, 0.0, 1.0, 0.0, 5e307]),
    ("even_intersect", [0.0, 0.0, 1e-10, 1e200, 0.0, 1e3, 0.0, 0.0, 0.0, 10.0], [1]),
    ("even_normal", [1e187, 0.0, 0.0, 0.0, 10.0], [2]),
    ("toroid_intersect", [0.0, 0.0, -1e308, *UP, 1e308, 5.0, 0.0, 0.0, 10.0], [6]),
    ("even_intersect", [0.0, 0.0, -1e308, *UP, 1e308, 0.0, 0.0, 10.0], [6]),
    ("biconic_intersect", [0.0, 0.0, -1e308, *UP, 1e308, 0.0, 0.0, 0.0, 0.0, 10.0], [6]),
    ("conic_intersect", [2.0**-40, 0.0, 0.0, *UP, 0.0, 2.0**600, -1.0, 1.0], [4]),
    ("conic_intersect", [0.0, 0.0, 0.0, 0.0, 0.0, 1e154, 0.0, 1.0, 0.0, 10.0], [6]),
    ("conic_intersect", [0.0, 0.0, -1.0, 1e200, 0.0, 1.0, 0.0, 0.0, 0.0, 10.0], [7, INFINITY, 10.0]),
    ("toroid_intersect", [0.0, 0.0, -10.0, 0.0, 1e308, 1.0, 0.0, 0.0, 0.0, 0.0, LARGEST], [7, INFINITY, LARGEST]),
    # a negative r
    ("conic_sag", [-4.0, 1 / 8, -1.0], [1, 1.0]),
    ("even_sag", [-1.0, 0.0, 0.0, 10.0], [2]),
    ("even_derivative", [-1.0, 0.0, 0.0, 10.0], [2]),
    ("odd_sag", [-1.0, 0.0, 0.0, 10.0, 0], [2]),
    # conic constructors and radii take what Rust takes
    ("conic_from_radius", [INFINITY, -INFINITY, INFINITY], [1, 0.0, 0.0, -INFINITY, INFINITY]),
    ("conic_from_radius", [NAN, 0.0, -1.0], [4]),
    ("conic_from_radius", [0.0, 0.0, -1.0], [3]),
    ("conic_from_radius", [0.0, 0.0, -0.0], [4]),
    ("conic_with_vertex_z", [0.0, NAN, 0.0, -1.0, INFINITY], [1, INFINITY, NAN, 0.0, -1.0]),
    ("conic_radius", [0.0, 0.0, 0.0, NAN], [1, INFINITY]),
    ("biconic_rx", [SMALLEST, 0.0, NAN, 0.0, -1.0], [1, INFINITY]),
    ("biconic_ry", [SMALLEST, 0.0, NAN, 0.0, -1.0], [1, NAN]),
    ("toroid_ry", [NAN, INFINITY, 0.0, -1.0], [1, 0.0]),
    # listed difference: an argument that is not finite
    ("conic_intersect", [0.0, 0.0, -5.0, *UP, 0.0, 0.0, 0.0, INFINITY], [2]),
    ("conic_normal", [0.0, 0.0, 0.0, 0.0, 0.0, 0.0, INFINITY], [4]),
    ("even_intersect", [0.0, 0.0, -5.0, *UP, 0.0, 0.0, 0.0, NAN], [2]),
    ("even_paraxial", [INFINITY, 0.0, 10.0], [2]),
    ("even_normal", [0.0, 0.0, NAN, 0.0, 10.0], [2]),
    ("odd_normal", [0.0, 0.0, NAN, 0.0, 10.0, 0], [2]),
    ("biconic_paraxial", [0.0, NAN, 0.0, 0.0, 10.0], [2]),
    ("biconic_derivatives", [0.0, 0.0, NAN, 0.0, 0.0, 0.0, 10.0], [2]),
    ("biconic_normal", [0.0, 0.0, NAN, 0.0, 0.0, 0.0, 10.0], [2]),
    ("toroid_sag", [NAN, 0.0, 5.0, 0.0, 0.0, 10.0], [2]),
    ("toroid_normal", [0.0, 0.0, 5.0, 0.0, 0.0, INFINITY], [2]),
    # listed difference: more than 8 coefficients
    ("even_new", [0.0, 0.0, 1.0, *[0.0] * 8], [1, 0.0, 0.0, 1.0, *[0.0] * 8]),
    ("even_new", [0.0, 0.0, 1.0, *[0.0] * 9], [2]),
    ("even_new", [0.0, 0.0, 1.0, *[0.0] * 61], [2]),
    ("even_paraxial", [0.0, 0.0, 1.0, *[0.0] * 9], [2]),
    ("even_sag", [0.0, 0.0, 0.0, 1.0, *[0.0] * 9], [2]),
    ("even_intersect", [0.0, 0.0, -5.0, *UP, 0.0, 0.0, 0.0, 1.0, *[0.0] * 9], [2]),
    ("odd_new", [0.0, 0.0, 1.0, 8, *[0.0] * 16], [1, 0.0, 0.0, 1.0, *[0.0] * 16]),
    ("odd_new", [0.0, 0.0, 1.0, 9, *[0.0] * 9], [2]),
    ("odd_new", [0.0, 0.0, 1.0, 0, *[0.0] * 9], [2]),
    # listed difference: our constructor of a toroid takes any finite rx
    ("toroid_new", [0.0, 0.0, 0.0, 10.0], [1, 0.0, 0.0, 0.0, 10.0]),
    ("toroid_new", [0.0, 0.0, 0.0, -10.0], [2]),
    # listed difference: a negative semi-diameter before an intersection
    ("conic_intersect", [0.0, 0.0, -5.0, *UP, 0.0, 0.0, 0.0, -1.0], [3]),
    ("conic_intersect", [0.0, 0.0, -5.0, 1.0, 0.0, 0.0, 0.0, 0.0, 0.0, -1.0], [3]),
    ("conic_intersect", [0.0, 0.0, -5.0, *UP, 0.0, 0.0, 0.0, -0.0], [1, 5.0, *VERTEX_FROM_THE_FRONT]),
    ("even_intersect", [0.0, 0.0, -5.0, *UP, 0.0, 0.0, 0.0, -1.0], [2]),
    ("biconic_intersect", [0.0, 0.0, -5.0, *UP, 0.0, 0.0, 0.0, 0.0, 0.0, -1.0], [2]),
    ("toroid_intersect", [0.0, 0.0, -5.0, *UP, 0.0, 5.0, 0.0, 0.0, -1.0], [2]),
    # listed difference: a number of the answer is not finite
    ("refract", [0.0, 0.0, 1.0, *DOWN, 2.0**600, 2.0**-600], [9]),
    ("conic_sag", [2.0, LARGEST, -1.0], [9]),
    ("conic_intersect", [0.0, 0.0, -1e308, *UP, 1e308, 0.0, 0.0, 10.0], [9]),
    ("even_paraxial", [LARGEST, 0.0, 10.0, LARGEST], [9]),
    ("even_sag", [2.0, 0.0, 0.0, 10.0, LARGEST], [9]),
    ("even_derivative", [2.0, 0.0, 0.0, 10.0, LARGEST], [9]),
    ("even_intersect", [*FAR_OUT, 2.0**511], [9]),
    ("odd_sag", [2.0, 0.0, 0.0, 10.0, 0, LARGEST], [9]),
    ("odd_normal", [2.0, 0.0, 0.0, 0.0, 10.0, 1, LARGEST], [9]),
    ("biconic_sag", [2.0, 0.0, LARGEST, -1.0, 0.0, 0.0, 10.0], [9]),
    ("biconic_derivatives", [1.0, 0.0, 1e308, -1.0, 0.0, 0.0, 9.0], [9]),
    ("biconic_normal", [1.0, 0.0, 1e308, -1.0, 0.0, 0.0, 9.0], [9]),
    ("biconic_intersect", [*FAR_OUT, 0.0, 0.0, 2.0**511], [9]),
    ("toroid_sag", [0.0, 0.0, 1e200, 0.0, 0.0, 10.0], [9]),
    # an odd asphere's intersection: both exits ask for r
    ("odd_intersect", [4.0, 0.0, -1.0, *UP, 0.0, 0.0, 0.0, 5.0, 0, 1 / 4], [1, 2.0, 4.0, 0.0, 1.0]),
    ("odd_intersect", [4.0, 0.0, -1.0, *UP, 0.0, 0.0, 0.0, 3.0, 0, 1 / 4], [7, 4.0, 3.0]),
    ("odd_intersect", [4.0, 0.0, -1.0, *UP, 0.0, 0.0, 0.0, 2.0, 0, 1 / 4], [6]),
    ("odd_intersect", [*FLAT_AND_FAST, 0.0, 0.0, 0.0, 0.5, 8, *[0.0] * 16], [7, 1.0, 0.5]),
    ("odd_intersect", [0.0, 0.0, 0.0, *DOWN, 0.0, 0.0, 0.0, 1.0, 0], [1, -0.0, 0.0, 0.0, 0.0]),
    # on the axis slopes of 0 for a coefficient below 1e-14; beside it the whole slope is along x, whatever y is
    ("odd_intersect", [*STEEPLY_ASIDE, 0.0, 0.0, 0.0, 2.0**60, 0, 2.0**-47], [1, -(2.0**-50), -(2.0**16), 0.0, 0.0]),
    ("odd_intersect", [*STEEPLY_ASIDE, 0.0, 0.0, 0.0, 2.0**60, 0, 2.0**-46], [4]),
    (
        "odd_intersect",
        [0.0, 2.0**-49, 2.0**-30, 2.0**20, 0.0, 2.0**20, 0.0, 0.0, 0.0, 5.0, 0, 1 / 2],
        [1, 2.0**-69 - 2.0**-49, 2.0**-49 - 2.0**-29, 2.0**-49, 2.0**-49 - 2.0**-30],
    ),
    # where the base turns back its slope is large and not refused; 0 times an overflowed power is NaN
    ("odd_intersect", [1.0, 0.0, -5.0, *UP, 0.0, 1.0, 0.0, 10.0, 0], [1, 6.0, 1.0, 0.0, 1.0]),
    ("odd_intersect", [1.0, 0.0, 2.0, 0.01, 0.0, 1.0, 0.0, 1.0, 0.0, 10.0, 0], [1]),
    ("odd_intersect", [2.0**66, 0.0, -1.0, *UP, 0.0, 0.0, 0.0, 2.0**70, 7, *[0.0] * 15], [1, 1.0, 2.0**66, 0.0, 0.0]),
    ("odd_intersect", [2.0**66, 0.0, -1.0, *UP, 0.0, 0.0, 0.0, 2.0**70, 8, *[0.0] * 16], [6]),
    # base, even and odd terms of the slope are summed in this order: to 1 and to 1 + 2^-51
    ("odd_intersect", [*ABOVE_A_BOWL, 2.0**20, 0.0, 1.0, -1.0, 10.0, 1, STEP / 4, STEP / 2], [4]),
    ("odd_intersect", [*ABOVE_A_BOWL, 2.0**20 + 2.0**-31, 0.0, 1.0, -1.0, 10.0, 1, STEP / 2, STEP / 2], [4]),
    # what it refuses before and after
    ("odd_intersect", [0.0, 0.0, -5.0, *UP, 0.0, 0.0, 0.0, 1.0, 9, *[0.0] * 9], [2]),
    ("odd_intersect", [0.0, 0.0, -5.0, *UP, 0.0, 0.0, 0.0, 1.0, 0, *[0.0] * 9], [2]),
    ("odd_intersect", [0.0, 0.0, -5.0, *UP, 0.0, 0.0, 0.0, -1.0, 0], [2]),
    ("odd_intersect", [0.0, 0.0, -5.0, 1.0, 0.0, 0.0, 0.0, 0.0, 0.0, -1.0, 0], [2]),
    ("odd_intersect", [0.0, 0.0, -1e308, *UP, 1e308, 0.0, 0.0, 10.0, 0], [6]),
    ("odd_intersect", [*FAR_OUT, 2.0**511, 0], [9]),
]

FOUR = pattern(4.0)
THREE_FOURS = " ".join([FOUR] * 3)
SPACED = [(("max", [4.0, 4.0]), f"max   {FOUR.lower()}  {FOUR}")]
UNREADABLE = [
    "",
    "sqrt",
    f"cbrt {FOUR}",
    f"SQRT {FOUR}",
    f"sqrt {FOUR} {FOUR}",
    f"sqrt\t{FOUR}",
    f"sqrt {FOUR}\r",
    f"sqrt {FOUR[1:]}",
    f"sqrt {FOUR}0",
    f"sqrt 0x{FOUR[2:]}",
    f"sqrt +{FOUR[1:]}",
    "sqrt 4.0",
    "sqrt #4",
    f"max {FOUR}",
    f"refract {THREE_FOURS} {THREE_FOURS} {FOUR}",
    f"conic_intersect {THREE_FOURS} {THREE_FOURS} {THREE_FOURS}",
    f"biconic_new {THREE_FOURS} {THREE_FOURS}",
    f"even_new {FOUR} {FOUR}",
    f"even_new {THREE_FOURS} #0",
    f"odd_new {THREE_FOURS}",
    f"odd_new {THREE_FOURS} {FOUR}",
    f"odd_new {THREE_FOURS} #",
    f"odd_new {THREE_FOURS} #-1",
    f"odd_new {THREE_FOURS} #2 {FOUR}",
    f"odd_intersect {THREE_FOURS} {THREE_FOURS} {THREE_FOURS} {FOUR}",
    f"odd_intersect {THREE_FOURS} {THREE_FOURS} {THREE_FOURS} #0",
    f"odd_intersect {THREE_FOURS} {THREE_FOURS} {THREE_FOURS} {FOUR} #1",
    line(("even_new", [0.0] * 65)),
]
# As long as a line may be and longer, for the comparison alone.
LONG = [(("sqrt", [4.0]), f"sqrt{' ' * 131_000}{FOUR}"), (None, f"sqrt{' ' * 132_000}{FOUR}")]


def is_written(answer, written):
    """Whether an answer is the one that WORKED has."""
    number, *values = written
    return answer.split()[0] == str(number) and (not values or answer.split()[1:] == [*map(pattern, values)])
