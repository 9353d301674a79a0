"""Lenses for scripts, and recipes as bytes.

A surface is its kind, its vertex z, the index after it, its other numbers in the record's order, and whether it is a
mirror."""
import sys
from pathlib import Path

TOP = Path(__file__).resolve().parent.parent
sys.path.insert(0, str(TOP / "tools"))
from prescription import read
from records import MIRROR, SHAPES, bytes_of, places, recipe, record, record_at
from surfaces import both_sets

KINDS = {kind: shape.kind for kind, shape in SHAPES.items()}
LIMITS = {kind: shape.steps for kind, shape in SHAPES.items()}
MOST_COEFFICIENTS = 8


def in_a_record(kind, numbers):
    """A question's surface with no more coefficients than a record has; an odd asphere's has all, unused ones 0."""
    if kind != "odd":
        return numbers[: 3 + MOST_COEFFICIENTS]
    c, k, semi, *counted = numbers
    even, odd = ([*some, *[0.0] * MOST_COEFFICIENTS][:MOST_COEFFICIENTS] for some in both_sets(counted))
    return [c, k, semi, *even, *odd]


def sample(name):
    """A ray and a lens, in air."""
    lens = read((TOP / "samples" / f"{name}.txt").read_text()).prescription
    return lens.ray[:6], lens.surfaces


SAMPLES = {name: sample(name) for name in ("doublet", "phone", "mirrors", "toroid")}

# The most records that a recipe has: weak lenses in a row, which keep a beam near the axis.
RELAY = [
    ("conic", 2.0 * i, 1.0 if i % 2 else 1.5, [-1 / 200.0 if i % 2 else 1 / 200.0, -0.5 if i % 3 else 0.0, 20.0])
    for i in range(512)
]

# Of each lens: its surfaces, and where a beam into it starts, how wide it may be, and how steep.
LENSES = {
    "doublet": (SAMPLES["doublet"][1], -20.0, 11.0, 0.02),
    "phone": (SAMPLES["phone"][1], -1.0, 0.8, 0.3),
    "mirrors": (SAMPLES["mirrors"][1], 0.0, 50.0, 0.01),
    "toroid": (SAMPLES["toroid"][1], -10.0, 18.0, 0.15),
    "relay": (RELAY, -5.0, 8.0, 0.02),
}
