"""Binary64 numbers: their bits and patterns, which are those of tools/, and their neighbours."""
import math
import sys
from pathlib import Path

sys.path.insert(0, str(Path(__file__).resolve().parent.parent / "tools"))
from numerals import bits_of, of_bits, of_pattern, pattern

PLUS_ZERO, MINUS_ZERO = pattern(0.0), pattern(-0.0)
LARGEST = math.nextafter(math.inf, 0.0)
SMALLEST = math.nextafter(0.0, 1.0)


def steps_from(x, steps):
    """The number that lies so many numbers above x, or below it for steps under 0."""
    for _ in range(abs(steps)):
        x = math.nextafter(x, math.copysign(math.inf, steps))
    return x
