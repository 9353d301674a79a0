"""Each limit that the Rust text tests, and those of an odd asphere's intersection: a question with the limit in place
of X, and with the number below it and the one above."""
import math

from fixed import UP
from floats import LARGEST, steps_from

X = "the limit"
# A curvature and a conic constant whose products round, so that their order is felt; where the radicand passes 0 and
# -1e-12.
BOWL = [0.2, -0.3]
TURN, RIM = 5.976143046671968, 5.976143046674956
# moves of 1e-12 from a height of 2^-30; slopes of 1 and 3/4 but for 1e-15
FAST = 2.0**-30 / 1e-12
SLANT = 2.0**-20
# so fast that 2^-16 is passed in 1e-7
JUST_BEHIND = steps_from(2.0**-16 / 1e-7, 1)

# Operation, operands, limit, and the numbers of the answers below it, at it and above it.
LIMITS = [
    ("clamp", [X], 0.0, "111"),
    ("clamp", [X], 1.0, "111"),
    ("finite", [X], LARGEST, "111"),
    # squared lengths, indices, k
    ("reflect", [X, 0.0, 0.0, 0.0, 0.0, 1.0], 1e-15, "411"),
    ("reflect", [0.0, 0.0, 1.0, 0.0, X, 0.0], 1e-15, "411"),
    ("refract", [X, 0.0, 0.0, 0.0, 0.0, 1.0, 1.0, 1.5], 1e-15, "411"),
    ("refract", [0.0, 0.0, 1.0, 0.0, X, 0.0, 1.0, 1.5], 1e-15, "411"),
    ("refract", [0.6, 0.0, 0.8, *UP, X, 1.5], 0.0, "441"),
    ("refract", [0.6, 0.0, 0.8, *UP, 1.0, X], 0.0, "448"),
    ("refract", [1.0, 0.0, 0.0, *UP, X, 1.5], 1.5, "118"),
    # constructors and radii
    ("conic_from_radius", [X, 0.0, 1.0], 1e-15, "411"),
    ("conic_from_radius", [X, 0.0, 1.0], -1e-15, "114"),
    ("conic_from_radius", [1.0, 0.0, X], 0.0, "311"),
    ("conic_from_curvature", [1.0, 0.0, X], 0.0, "311"),
    ("conic_sphere", [X, 1.0], 1e-15, "411"),
    ("conic_sphere", [1.0, X], 0.0, "311"),
    ("conic_plane", [X], 0.0, "311"),
    ("conic_radius", [0.0, X, 0.0, 1.0], 1e-15, "111"),
    ("even_new", [1.0, 0.0, X], 0.0, "211"),
    ("odd_new", [1.0, 0.0, X, 0], 0.0, "211"),
    ("biconic_new", [1.0, 0.0, 1.0, 0.0, X], 0.0, "211"),
    ("biconic_rx", [X, 0.0, 1.0, 0.0, 1.0], 1e-15, "111"),
    ("biconic_ry", [1.0, 0.0, X, 0.0, 1.0], -1e-15, "111"),
    ("toroid_new", [1.0, 1.0, 0.0, X], 0.0, "211"),
    ("toroid_new", [X, 1.0, 0.0, 1.0], 1e-12, "211"),
    ("toroid_ry", [1.0, X, 0.0, 1.0], 1e-15, "111"),
    # conic sag and normal: c, r, radicand, length
    ("conic_sag", [2.0, X, -1.0], 1e-15, "111"),
    ("conic_sag", [X, 1.0, 0.0], 1e-15, "111"),
    ("conic_sag", [X, *BOWL], TURN, "115"),
    ("conic_normal", [X, 1.1, 1.9, 0.2, *BOWL, 10.0], 5.874034875133592, "115"),
    ("conic_normal", [X, 0.0, 1.0, 0.0, 1.0, 0.0, 10.0], 1e-15, "411"),
    # plane: c (and a ray at a right angle to the axis, which is not in front of a conic), dz, t, r
    ("conic_intersect", [-1.0, 0.0, 0.0, 1.0, 0.0, 0.0, 0.0, X, 0.0, 10.0], 1e-15, "611"),
    ("conic_intersect", [0.0, 0.0, 0.0, 0.0, 0.0, X, 0.0, 0.0, 0.0, 10.0], 1e-15, "611"),
    ("conic_intersect", [0.0, 0.0, X, *UP, 0.0, 0.0, 0.0, 10.0], 1e-7, "116"),
    ("conic_intersect", [X, 0.0, -1.0, *UP, 0.0, 0.0, 0.0, 10.0], 10.0, "117"),
    # conic: discriminant, q at either root, A, either root, sheet, r
    ("conic_intersect", [X, 0.0, -1.0, *UP, 0.0, 1.0, 0.0, 10.0], 1.0, "116"),
    ("conic_intersect", [0.0, 0.0, 0.0, 0.0, 0.0, X, 0.0, 1.0, 0.0, 10.0], 0.5e-30, "661"),
    ("conic_intersect", [0.0, 0.0, 1.5 * 2.0**-105, 0.0, 0.0, X, 0.0, 2.0**105, 0.0, 10.0], -1e-30 / 1.5, "166"),
    ("conic_intersect", [0.0, 0.0, 1.5, 0.0, 0.0, X, 0.0, 1.0, 0.0, 10.0], -1e-15, "166"),
    ("conic_intersect", [0.0, 0.0, X, *UP, 0.0, 1.0, 0.0, 10.0], 1e-7, "116"),
    ("conic_intersect", [0.0, 0.0, 2.0**-16, 0.0, 0.0, X, 0.0, 1.25 * 2.0**16, 0.0, 10.0], JUST_BEHIND, "111"),
    ("conic_intersect", [0.0, 0.0, X, 0.0, 0.0, 1e5, 0.0, 1.0, 0.0, 10.0], 1e-4, "166"),
    ("conic_intersect", [X, 0.0, -1.0, *UP, 0.0, 1 / 8, -1.0, 4.0], 4.0, "117"),
    # even asphere: c, radicand, root of it, axis
    ("even_sag", [2.0, X, -1.0, 10.0], 1e-15, "111"),
    ("even_sag", [X, *BOWL, 10.0], TURN, "111"),
    ("even_sag", [X, *BOWL, 10.0], RIM, "115"),
    ("even_sag", [X, 1.0, 0.0, 10.0], 0.0, "211"),
    ("even_derivative", [1.0, X, -1.0, 10.0], 1e-15, "111"),
    ("even_derivative", [X, *BOWL, 10.0], TURN, "114"),
    ("even_derivative", [X, *BOWL, 10.0], RIM, "445"),
    ("even_derivative", [X, 1.0, 0.0, 10.0], 0.0, "211"),
    ("even_normal", [X, 0.0, 1.0, 0.0, 10.0], 1e-15, "111"),
    # odd asphere: c, radicand, root of it, first coefficient, axis
    ("odd_sag", [2.0, X, -1.0, 10.0, 0], 1e-15, "111"),
    ("odd_sag", [X, *BOWL, 10.0, 0], TURN, "111"),
    ("odd_sag", [X, *BOWL, 10.0, 0], RIM, "115"),
    ("odd_sag", [X, 1.0, 0.0, 10.0, 0], 0.0, "211"),
    ("odd_normal", [1.0, 0.0, X, -1.0, 10.0, 0], 1e-15, "111"),
    ("odd_normal", [X, 0.0, *BOWL, 10.0, 0], TURN, "111"),
    ("odd_normal", [X, 0.0, *BOWL, 10.0, 0], RIM, "115"),
    ("odd_normal", [0.0, 0.0, 1.0, 0.0, 10.0, 0, X], 1e-14, "111"),
    ("odd_normal", [X, 0.0, 1.0, 0.0, 10.0, 0], 1e-15, "111"),
    ("odd_normal", [0.0, X, 1.0, 0.0, 10.0, 0], 1e-14, "111"),
    # biconic: radicand, root of it, axis
    ("biconic_sag", [X, 0.3, *BOWL, 0.7, -0.4, 10.0], 5.896548627314601, "111"),
    ("biconic_sag", [X, 0.3, *BOWL, 0.7, -0.4, 10.0], 5.89654862731763, "115"),
    ("biconic_sag", [1.0, X, 1.0, 0.0, 1.0, 0.0, 10.0], 1e-6, "115"),
    ("biconic_derivatives", [X, 0.3, *BOWL, 0.7, -0.4, 10.0], 5.896548627314601, "114"),
    ("biconic_derivatives", [X, 0.3, *BOWL, 0.7, -0.4, 10.0], 5.89654862731763, "445"),
    ("biconic_derivatives", [1.0, X, 1.0, 0.0, 1.0, 0.0, 10.0], 1e-6, "445"),
    ("biconic_derivatives", [1 - 2.0**-53, X, 1.0, 0.0, 1.0, 0.0, 10.0], math.sqrt(2.0**-52 - 1e-28), "144"),
    ("biconic_derivatives", [X, 0.0, 1.0, 0.0, 1.0, 0.0, 10.0], 1e-15, "111"),
    ("biconic_derivatives", [0.0, X, 1.0, 0.0, 1.0, 0.0, 10.0], -1e-15, "111"),
    # toroid: both radicands, the root of the inner one, the sign of rx
    ("toroid_sag", [X, 0.0, 0.0, 0.0, 0.0, 10.0], 1e-6, "115"),
    ("toroid_sag", [0.4, X, 5.0, *BOWL, 10.0], TURN, "111"),
    ("toroid_sag", [0.4, X, 5.0, *BOWL, 10.0], RIM, "115"),
    ("toroid_derivatives", [math.sqrt(math.ulp(1e-14)), 0.0, X, 0.0, 0.0, 10.0], steps_from(1e-7, 1), "551"),
    ("toroid_derivatives", [0.4, X, 5.0, *BOWL, 10.0], TURN, "111"),
    ("toroid_derivatives", [0.4, X, 5.0, *BOWL, 10.0], RIM, "115"),
    ("toroid_sag", [0.0, 1.0, X, 1 / 4, -1.0, 10.0], 0.0, "111"),
    ("toroid_derivatives", [0.0, 1.0, X, 1 / 4, -1.0, 10.0], 0.0, "111"),
    # Newton: dz, 1.5 of the semi-diameter, residual, r, f' twice, move, r at the second exit (but for the even asphere,
    # which tests r for its slope), and last, found by halving, what is still hit in the last pass
    ("even_intersect", [0.0, 0.0, 0.0, 0.0, 0.0, X, 0.0, 0.0, 0.0, 10.0], 1e-15, "611"),
    ("even_intersect", [X, 0.0, -5.0, *UP, 0.0, 0.0, 0.0, 10.0], 15.0, "776"),
    ("even_intersect", [0.0, 0.0, X, *UP, 0.0, 0.0, 0.0, 10.0], 1e-11, "111"),
    ("even_intersect", [X, 0.0, -5.0, *UP, 0.0, 0.0, 0.0, 10.0], 10.0, "117"),
    ("even_intersect", [0.0, 0.0, 1.0, 0.0, 0.0, X, 0.0, 0.0, 0.0, 10.0], 1e-15, "611"),
    ("even_intersect", [4.0, 0.0, 3.0, SLANT, 0.0, X, 0.0, 0.0, 0.0, 10.0, 1 / 8], SLANT + 1e-15, "446"),
    ("even_intersect", [0.0, 0.0, 2.0**-30, 1e12, 0.0, X, 0.0, 0.0, 0.0, 0.5], FAST, "661"),
    ("even_intersect", [X, 0.0, 1e-9, 1e6, 0.0, 1e6, 0.0, 1e10, -1.0, 10.0], 1e-14, "111"),
    ("even_intersect", [1.0, 0.0, 0.0, -1.0, 0.0, 1e-14, 0.0, 0.0, 0.0, 2.0, *[0.0] * 7, X], 0.5796584650272053, "116"),
    ("biconic_intersect", [0.0, 0.0, 0.0, 0.0, 0.0, X, 0.0, 0.0, 0.0, 0.0, 0.0, 10.0], 1e-15, "611"),
    ("biconic_intersect", [0.0, X, -5.0, *UP, 0.0, 0.0, 0.0, 0.0, 0.0, 10.0], 15.0, "776"),
    ("biconic_intersect", [0.0, 0.0, X, *UP, 0.0, 0.0, 0.0, 0.0, 0.0, 10.0], 1e-11, "111"),
    ("biconic_intersect", [0.0, X, -5.0, *UP, 0.0, 0.0, 0.0, 0.0, 0.0, 10.0], 10.0, "117"),
    ("biconic_intersect", [0.0, 0.0, 1.0, 0.0, 0.0, X, 0.0, 0.0, 0.0, 0.0, 0.0, 10.0], 1e-15, "611"),
    ("biconic_intersect", [0.0, 4.0, 3.0, 0.0, SLANT, X, 0.0, 0.0, 0.0, 1 / 4, -1.0, 10.0], SLANT + 1e-15, "446"),
    ("biconic_intersect", [0.0, 0.0, 2.0**-30, 1e12, 0.0, X, 0.0, 0.0, 0.0, 0.0, 0.0, 0.5], FAST, "667"),
    ("biconic_intersect", [0.0, 0.0, 2.0**-30, 2.0**50, 0.0, 2.0**20, 0.0, 0.0, 0.0, 0.0, 0.0, X], 1.0, "711"),
    ("biconic_intersect", [1.0, 0.0, 0.0, -1.0, 0.0, 1e-14, 0.0, X, -1.0, 0.0, 0.0, 2.0], 5904918445.461685, "116"),
    ("toroid_intersect", [0.0, 0.0, 0.0, 0.0, 0.0, X, 0.0, 50.0, 0.0, 0.0, 10.0], 1e-15, "611"),
    ("toroid_intersect", [0.0, X, -5.0, *UP, 0.0, 50.0, 0.0, 0.0, 10.0], 15.0, "776"),
    ("toroid_intersect", [0.0, 0.0, X, *UP, 0.0, 50.0, 0.0, 0.0, 10.0], 1e-11, "111"),
    ("toroid_intersect", [0.0, X, -5.0, *UP, 0.0, 50.0, 0.0, 0.0, 10.0], 10.0, "117"),
    ("toroid_intersect", [0.0, 0.0, 1.0, 0.0, 0.0, X, 0.0, 50.0, 0.0, 0.0, 10.0], 1e-15, "611"),
    ("toroid_intersect", [3.0, 0.0, 3.0, SLANT, 0.0, X, 0.0, 5.0, 0.0, 0.0, 10.0], 0.75 * SLANT + 1e-15, "466"),
    ("toroid_intersect", [0.0, 0.0, 2.0**-30, 1e12, 0.0, X, 0.0, 50.0, 0.0, 0.0, 0.5], FAST, "667"),
    ("toroid_intersect", [0.0, 0.0, 2.0**-30, 2.0**50, 0.0, 2.0**20, 0.0, 50.0, 0.0, 0.0, X], 1.0, "711"),
    ("toroid_intersect", [0.0, 1.0, 0.0, 0.0, -1.0, 1e-14, 0.0, 1.0, X, -1.0, 2.0], -5900929163.378921, "611"),
    ("odd_intersect", [0.0, 0.0, 0.0, 0.0, 0.0, X, 0.0, 0.0, 0.0, 10.0, 0], 1e-15, "611"),
    ("odd_intersect", [0.0, X, -5.0, *UP, 0.0, 0.0, 0.0, 10.0, 0], 15.0, "776"),
    ("odd_intersect", [0.0, 0.0, X, *UP, 0.0, 0.0, 0.0, 10.0, 0], 1e-11, "111"),
    ("odd_intersect", [0.0, X, -5.0, *UP, 0.0, 0.0, 0.0, 10.0, 0], 10.0, "117"),
    ("odd_intersect", [0.0, 0.0, 1.0, 0.0, 0.0, X, 0.0, 0.0, 0.0, 10.0, 0], 1e-15, "611"),
    ("odd_intersect", [0.0, 4.0, 4.0, 0.0, SLANT, X, 0.0, 0.0, 0.0, 10.0, 1, 1 / 16, 1 / 2], SLANT + 1e-15, "446"),
    ("odd_intersect", [0.0, 0.0, 2.0**-30, 1e12, 0.0, X, 0.0, 0.0, 0.0, 0.5, 0], FAST, "667"),
    ("odd_intersect", [0.0, 0.0, 2.0**-30, 2.0**50, 0.0, 2.0**20, 0.0, 0.0, 0.0, X, 0], 1.0, "711"),
    (
        "odd_intersect",
        [1.0, 0.0, 0.0, -1.0, 0.0, 1e-14, 0.0, 0.0, 0.0, 2.0, 0, *[0.0] * 7, X],
        0.6122182934919013,
        "116",
    ),
    # and where an odd asphere's slopes are 0 or along x; its c, its radicand and the root of it
    ("odd_intersect", [X, 0.0, 1e-9, 1e6, 0.0, 1e6, 0.0, 1e11, -1.0, 10.0, 0], 1e-15, "111"),
    ("odd_intersect", [0.0, X, 1e-9, 1e6, 0.0, 1e6, 0.0, 1e10, -1.0, 10.0, 0], 1e-14, "111"),
    ("odd_intersect", [0.0, 0.0, 1e-9, 5e19, 0.0, 1e6, 0.0, 0.0, 0.0, 1e6, 0, X], 1e-14, "111"),
    ("odd_intersect", [0.0, 0.0, 1e-9, 5e19, 0.0, 1e6, 0.0, 0.0, 0.0, 1e6, 0, X], -1e-14, "111"),
    ("odd_intersect", [1e6, 0.0, 1e-3, 5e20, 0.0, 1e12, 0.0, X, -1.0, 1e7, 0], 1e-15, "111"),
    ("odd_intersect", [X, 0.0, -1.0, *UP, 0.0, *BOWL, 10.0, 0], TURN, "111"),
    ("odd_intersect", [X, 0.0, -1.0, *UP, 0.0, *BOWL, 10.0, 0], RIM, "116"),
]


def around(operation, operands, limit, _):
    """The questions below the limit, at it and above it."""
    return [(operation, [steps_from(limit, steps) if x is X else x for x in operands]) for steps in (-1, 0, 1)]
