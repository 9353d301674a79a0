"""Numbers as bits and as text: decimals, hexadecimal floats and bit patterns."""
import math
import re
import struct

DECIMAL = re.compile(r"[+-]?(\d+\.?\d*|\.\d+)(e[+-]?\d+)?", re.ASCII | re.IGNORECASE)
# the exponent may not be left out: a bit pattern is no such number
HEXADECIMAL = re.compile(r"[+-]?0x([0-9a-f]+\.?[0-9a-f]*|\.[0-9a-f]+)p[+-]?\d+", re.ASCII | re.IGNORECASE)
INFINITIES = {"inf": math.inf, "+inf": math.inf, "-inf": -math.inf}
NAN = "nan:"
PATTERN = re.compile(r"[0-9a-f]{16}", re.ASCII | re.IGNORECASE)


def bits_of(x):
    """As a whole number; a NaN keeps its own."""
    return struct.unpack("<Q", struct.pack("<d", x))[0]


def of_bits(whole):
    return struct.unpack("<d", struct.pack("<Q", whole))[0]


def pattern(x):
    """The bits as sixteen hex digits."""
    return f"{bits_of(x):016X}"


def of_pattern(digits):
    if not PATTERN.fullmatch(digits):
        raise ValueError(f"{digits!r} is not a pattern of 16 hex digits")
    return of_bits(int(digits, 16))


def nan_of(digits):
    x = of_pattern(digits)
    if x == x:
        raise ValueError(f"{digits} is not the pattern of a NaN")
    return x


def counted(n, what):
    return f"{n} {what}" if n == 1 else f"{n} {what}s"


def number(text):
    """The binary64 number nearest to what is written. A ValueError says why there is none."""
    if text in INFINITIES:
        return INFINITIES[text]
    if text.startswith(NAN):
        return nan_of(text[len(NAN):])
    if text.lower() == "nan":
        raise ValueError("a NaN is written with its pattern, for example nan:7FF8000000000000")
    if DECIMAL.fullmatch(text):
        return in_range(float(text), text)
    if HEXADECIMAL.fullmatch(text):
        return in_range(from_hexadecimal(text), text)
    raise ValueError(f"{text!r} is no number")


def from_hexadecimal(text):
    try:
        return float.fromhex(text)
    except OverflowError:
        return math.inf


def in_range(x, text):
    if math.isinf(x):
        raise ValueError(f"{text} is beyond the largest number")
    return x


def numeral(x, hexadecimal=False):
    """A text that `number` reads as x to the bit: the shortest decimal, or a hexadecimal float."""
    if math.isnan(x):
        return NAN + pattern(x)
    if math.isinf(x):
        return "inf" if x > 0 else "-inf"
    if hexadecimal:
        return x.hex()
    text = repr(x)
    return text[:-2] if text.endswith(".0") else text
