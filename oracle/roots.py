"""Questions for the square root, most of them where a root is hard to round, and a check of its answers by whole
numbers."""
import math
from random import Random

from floats import bits_of, of_bits

SIGN = 1 << 63
NORMAL = 1 << 52  # the smallest normal number, and the step from one exponent to the next
ONE = 0x3FF0000000000000
INFINITY = 0x7FF0000000000000
NAN = 0x7FF8000000000000

draw = Random(754).getrandbits


def units(bits):
    """How many times 2^-1074 a positive number is."""
    exponent, digits = divmod(bits, NORMAL)
    return digits if exponent == 0 else (digits + NORMAL) << (exponent - 1)


def root_units(n):
    """The root of n units, in units, rounded to 53 digits. No root lies halfway."""
    square = n << 1074
    k = math.isqrt(square).bit_length() - 53
    q = math.isqrt(square >> 2 * k)
    above = 4 * square > (2 * q + 1) ** 2 << 2 * k
    return (q + above) << k


def is_root(root, bits):
    """For zeros, infinities, NaN and negative numbers, by IEEE 754's word; else by whole numbers."""
    if bits % SIGN > INFINITY or bits > SIGN:
        return root == NAN
    if bits % SIGN == 0 or bits == INFINITY:
        return root == bits
    return units(root) == root_units(units(bits))


def with_neighbours(patterns):
    return [b + k for b in patterns for k in (-1, 0, 1)]


def edges():
    finite = [0, 1, 2, 3, NORMAL - 1, NORMAL, NORMAL + 1, ONE, INFINITY - 1]
    nans = [INFINITY + 1, 0x7FF4000000000000, NAN, NAN + 1, SIGN - 1]
    return [sign + b for b in [*finite, INFINITY, *nans] for sign in (0, SIGN)]


def near_one():
    steps = [*range(1, 9), *(2**k + d for k in (26, 27, 28) for d in (-1, 0, 1))]
    return [b for k in steps for b in (ONE - k, ONE + k)]


def powers_of_two():
    subnormals = [1 << k for k in range(1, 52, 10)]
    return with_neighbours([*subnormals, *range(NORMAL, INFINITY, 73 * NORMAL)])


def scaled(n):
    """The float nearest to n times an even power of two that is drawn from all that keep it normal."""
    return bits_of(math.ldexp(n, 2 * (draw(32) % 1021 - 510 - n.bit_length() // 2)))


def squares():
    """Of numbers of every length: exact to 26 digits."""
    roots = [1 << (k - 1) | draw(k) for k in range(1, 54)]
    return with_neighbours([scaled(r * r) for r in roots])


def subnormals_of_every_length():
    return [1 << k | draw(k) for k in range(1, 52)]


def any_patterns():
    return [draw(64) for _ in range(60)]


def normals():
    """As many of even exponents as of odd ones."""
    return [(2 * (draw(32) % 1023) + odd) * NORMAL + draw(52) for _ in range(30) for odd in (1, 2)]


def square_root_modulo(c, k):
    """An odd s with s * s = c modulo 2^k, for a c that is 1 modulo 8. The others are -s and both of these plus
    2^(k-1)."""
    s = 1
    for j in range(3, k):
        if (s * s - c) >> j & 1:
            s += 1 << (j - 1)
    return s


def near_midpoints():
    """x with 4 * x = s * s - c for an odd s of 54 digits: the root lies beside s / 2, midway between two floats, for a
    small c as near as it can. x has 53 digits and then 52 or 53 zeros."""
    found = []
    for c in [*range(-63, 66, 8), *((-1) ** k * 8 * draw(k) + 1 for k in range(4, 49))]:
        for k in (54, 55):
            s = square_root_modulo(c, k)
            for other in (s, -s, s + 2 ** (k - 1), 2 ** (k - 1) - s):
                x = ((other % 2**k) ** 2 - c) // 4
                if x.bit_length() == k + 51:
                    found.append(scaled(x))
    return found


def in_some_case(bits):
    """Of five questions two are in capitals, two in small letters, and one in both."""
    text = f"{bits:016X}"
    kind = draw(32) % 5
    return text if kind < 2 else text.lower() if kind < 4 else text[:8] + text[8:].lower()


def malformed():
    """In place of a digit each byte that is a digit's neighbour in ASCII."""
    words = []
    for place, byte in zip((0, 3, 6, 9, 12, 15), "/:@G`g"):
        text = f"{draw(64):016X}"
        words.append(text[:place] + byte + text[place + 1 :])
    return words


def questions():
    """Pairs of a question and its line; without a question, a line that cannot be read."""
    patterns = [*edges(), *near_one(), *powers_of_two(), *squares(), *subnormals_of_every_length()]
    patterns += [*any_patterns(), *normals(), *near_midpoints()]
    readable = [(("sqrt", [of_bits(b)]), f"sqrt {in_some_case(b)}") for b in patterns]
    return readable + [(None, f"sqrt {text}") for text in malformed()]
