"""The operations of the program `answers`, and how a question of theirs is written.

A question is an operation and a list of operands: floats, and an int for a `#n`.
"""
from floats import pattern

NUMBERS = ["sqrt", "abs", "max", "clamp", "finite"]
TURNS = ["reflect", "refract"]
SURFACES = {
    "conic": "from_radius from_curvature sphere plane with_vertex_z radius sag normal intersect",
    "even": "new paraxial sag derivative normal intersect",
    "odd": "new sag normal",
    "biconic": "new paraxial rx ry sag derivatives normal intersect",
    "toroid": "new ry sag derivatives normal intersect",
}
IN_RUST = [*NUMBERS, *TURNS, *(f"{kind}_{what}" for kind, whats in SURFACES.items() for what in whats.split())]
NOT_IN_RUST = ["odd_intersect"]
OPERATIONS = [*IN_RUST, *NOT_IN_RUST]

# Where the semi-diameter stands among a surface's numbers. The vertex z is not counted among them, not even a conic's.
SEMI = {"conic": 2, "even": 2, "odd": 2, "biconic": 4, "toroid": 3}


def line(question, case=str.upper):
    operation, operands = question
    return " ".join([operation, *(f"#{x}" if type(x) is int else case(pattern(x)) for x in operands)])


def is_intersection(operation):
    return operation.endswith("_intersect")
