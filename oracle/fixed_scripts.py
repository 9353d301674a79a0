"""Scripts with the replies that SCOPE gives them, and lines that cannot be read.

A step is a line and what its reply has to tell: number and place, and then, if written, all steps and the outcome;
these and the path; or the whole reply as lines. None stands beside a line without a reply, "?" beside one that cannot
be read."""
import struct

from fixed import DOWN, FLAT_AND_FAST, FOUR, INFINITY, NAN, UP
from floats import LARGEST, SMALLEST, of_pattern, pattern
from operations import SEMI
from recipes import LIMITS, RELAY, SAMPLES, bytes_of, places, recipe, record
from scripts import WIDTH, continue_line, reach_line, recipe_line, room_line, start_line, state_line, words

AXIS = [0.0, 0.0, -5.0, *UP]
# to a vertex at 1e308 from here is no finite way
TOO_FAR = [0.0, 0.0, -1e308, *UP]


def plane(z=0.0, index=1.0, semi=10.0, mirror=False):
    return ("conic", z, index, [0.0, 0.0, semi], mirror)


PLANE = plane(index=2.0)


def given(surfaces, room=None):
    """The recipe, and as much room as it needs or another."""
    room = WIDTH * len(surfaces) if room is None else room
    return [(recipe_line(recipe(surfaces)), None), (room_line(room), None)]


def traced(surfaces, ray, end, index=1.0, cuts=()):
    """Accepted, and in parts or at once brought to its end: all steps and the outcome."""
    begun = [*given(surfaces), (start_line(ray, index), "1 0 0 0")]
    return [*begun, *((continue_line(n), f"1 0 {told}") for n, told in cuts), (continue_line(), f"1 0 {end}")]


def bump(semi):
    return [("even", 0.0, 1.0, [0.0, 0.0, semi, 1 / 8])]


def reply(state, *records):
    """The whole reply to a continuation, after hits of one step each."""
    rows = [f"record {i} {words([1.0, *record, 1.0])}" for i, record in enumerate(records)]
    return ["continue 1 0", state_line(**state), *rows]


def hit(state, record):
    """The whole reply to a first step that hits the only surface."""
    return (continue_line(1), reply(DONE_AFTER_ONE | state, record))


DONE_AFTER_ONE = dict(number=1, place=44, passes=0, t=0.0, steps=1, outcome=1)
EXAMPLE = [
    *given([PLANE]),
    (start_line(AXIS), ["start 1 0", state_line(0, 0, 0, 0.0, AXIS, 1.0, 0.0, 0, 0)]),
    hit(dict(ray=[0.0, 0.0, 0.0, *UP], index=2.0, path=5.0), [5.0, 0.0, 0.0, 0.0, *DOWN, *UP, 1.0]),
]

# Newton's start keeps -0.0, and the path does not; a plane's maximum with 0 is +0.0, and so is the point then.
SIGNS = [
    *given([("even", 0.0, 1.0, [0.0, 0.0, 1.0])]),
    (start_line([0.0, 0.0, 0.0, *DOWN]), "1 0 0 0"),
    hit(dict(ray=[0.0, 0.0, 0.0, *DOWN], index=1.0, path=0.0), [-0.0, 0.0, 0.0, 0.0, *DOWN, *DOWN, 0.0]),
    *given([plane()]),
    (start_line([-0.0, 0.0, 0.0, *UP]), "1 0 0 0"),
    hit(dict(ray=[0.0, 0.0, 0.0, *UP], index=1.0, path=0.0), [0.0, 0.0, 0.0, 0.0, *DOWN, *UP, 1.0]),
]

TRACES = [
    # SCOPE's edges (E1 to E7)
    traced(bump(5.0), [4.0, 0.0, -1.0, *UP], "2 1", cuts=[(0, "0 0"), (1, "1 0")]),
    traced(bump(3.0), [4.0, 0.0, -1.0, *UP], "2 7", cuts=[(1, "1 0"), (1, "2 7"), (1, "2 7")]),
    traced(bump(2.0), [4.0, 0.0, -1.0, *UP], "1 6", cuts=[(1, "1 6")]),
    traced([PLANE], [0.0, 0.0, 2.0**-24, *UP], "1 1"),
    traced([PLANE], [0.0, 0.0, 2.0**-23, *UP], "1 6"),
    traced([("conic", 0.0, 1.0, [1 / 8, 0.0, 10.0])], [0.0, 0.0, -2.0, *UP], "1 1"),
    # touched at the vertex, which is no front face; k is exactly 0 and passes
    traced([("conic", 0.0, 1.0, [1.0, 0.0, 10.0])], [-1.0, 0.0, 0.0, 1.0, 0.0, 0.0], "1 1"),
    # ports that look right: the other sheet's root, and the even asphere's second exit beside the biconic's
    traced([("conic", 0.0, 1.0, [1.0, -2.0, 10.0])], AXIS, "1 1"),
    traced([("even", 0.0, 1.0, [0.0, 0.0, 0.5])], FLAT_AND_FAST, "1 1"),
    traced([("biconic", 0.0, 1.0, [0.0, 0.0, 0.0, 0.0, 0.5])], FLAT_AND_FAST, "1 7"),
    # numbers that are not finite run on inside: 4 from a normal, 2 from an infinite r, and all passes of a toroid
    traced([("biconic", 0.0, 1.0, [1e308, -1.0, 0.0, 0.0, 9.0])], [1.0, 0.0, 5e307, *UP], "1 4"),
    traced([("biconic", 0.0, 1.0, [1e308, -1.0, 0.0, 0.0, 9.0], True)], [1.0, 0.0, 5e307, *UP], "1 4"),
    traced([("even", 0.0, 1.0, [0.0, 0.0, 10.0])], [0.0, 0.0, 1e-10, 1e200, 0.0, 1e3], "1 2"),
    traced([("toroid", 1e308, 1.0, [5.0, 0.0, 0.0, 10.0])], TOO_FAR, "35 6", cuts=[(34, "34 0"), (1, "35 6")]),
    traced([("even", 1e308, 1.0, [0.0, 0.0, 10.0])], TOO_FAR, "1 6"),
    traced([("biconic", 1e308, 1.0, [0.0, 0.0, 0.0, 0.0, 10.0])], TOO_FAR, "1 6"),
    # 4 of the slope, 5 of the normal, 6 and 7 at the second surface, 7 with an infinite r, 8, which a mirror has not
    traced([("even", 0.0, 1.0, [0.0, 0.0, 10.0, 1 / 8])], [4.0, 0.0, 3.0, 1.0, 0.0, 1.0], "1 4"),
    traced([("conic", 0.0, 1.0, [0.25, 0.0, 100.0])], [-4.0, -8.0, 4.0, 1.0, 2.0, 0.0], "1 5"),
    traced([("toroid", 0.0, 1.0, [0.0, 0.0, 0.0, 10.0])], AXIS, "1 5"),
    traced([PLANE, plane(-1.0)], AXIS, "2 6", cuts=[(1, "1 0")]),
    traced([PLANE, plane(1.0, semi=1.0)], [2.0, 0.0, -5.0, *UP], "2 7"),
    traced([plane()], [0.0, 0.0, -1.0, 1e200, 0.0, 1.0], "1 7"),
    traced([plane()], [0.0, 0.0, -1.0, 0.8, 0.0, 0.6], "1 8", index=2.0),
    traced([plane(mirror=True)], [0.0, 0.0, -1.0, 0.8, 0.0, 0.6], "1 1", index=2.0),
    # 9: t and point; the path alone; the direction alone
    traced([plane(1e308)], TOO_FAR, "1 9"),
    traced([plane(1e308, mirror=True), plane(-7e307)], [0.0, 0.0, 0.0, *UP], "2 9"),
    traced([plane(index=2.0**-600)], AXIS, "1 9", index=2.0**600),
    traced([plane(index=2.0**-600, mirror=True)], AXIS, "1 1", index=2.0**600),
    # a direction of any length runs on; where the computed length is infinite, so is the path
    traced([PLANE, plane(1.0)], [0.0, 0.0, -5.0, 0.0, 0.0, 1e3], "2 1"),
    traced([plane()], [0.0, 0.0, -5.0, 0.0, 0.0, 1e200], "1 9"),
    # a mirror turns the beam back to a surface that it has passed, and keeps the index
    traced([plane(index=1.5), plane(5.0, 3.0, mirror=True), plane()], [0.0, 0.0, -5.0, 0.0, 0.6, 0.8], "3 1"),
]

# Bytes instead of a recipe, and what start and continue answer: number and place.
AFTER = len(record(*PLANE))
EVEN = ("even", 1.0, 1.0, [0.0, 0.0, 10.0, 0.0])
BICONIC = ("biconic", 1.0, 1.0, [0.0, 0.0, 0.0, 0.0, 10.0])
TOROID = ("toroid", 1.0, 1.0, [5.0, 0.0, 0.0, 10.0])
EACH_KIND = [PLANE, (*EVEN, True), BICONIC, (*TOROID, True)]
OTHER_MIRRORS = [plane(mirror=True), EVEN, (*BICONIC, True), TOROID]


def behind(data):
    """At the second record."""
    return record(*PLANE) + data


def with_length(data, length):
    return struct.pack("<H", length) + data[2:]


def with_kind(data, kind):
    return data[:2] + struct.pack("<H", kind) + data[4:]


def spoilt(surface, **changes):
    """A surface with another vertex, index or number, the last counted from the end of its own."""
    kind, vertex, index, numbers, *mirror = surface
    numbers = list(numbers)
    if "own" in changes:
        numbers[changes["own"][0]] = changes["own"][1]
    return record(kind, changes.get("vertex", vertex), changes.get("index", index), numbers, *mirror)


def negative(surface):
    """With a semi-diameter just below 0."""
    return spoilt(surface, own=(SEMI[surface[0]], -SMALLEST))


DAMAGED = [
    *((behind(record(*PLANE)[:n]), 10, AFTER) for n in (1, 3, 4, 11, 43)),
    (record(*PLANE)[:-1], 10, 0),
    *((behind(with_kind(record(*PLANE), kind)), 10, AFTER) for kind in (0, 3, 5, 6, 256, 261, 513)),
    (behind(with_kind(record(*TOROID), 257)), 10, AFTER),
    *((behind(with_length(record(*PLANE), length)), 10, AFTER) for length in (0, 2, 34, 43, 50, 65535)),
    *((behind(bytes_of(2, [1.0] * count)), 10, AFTER) for count in (4, 14)),
    (behind(bytes_of(259, [1.0] * 8)), 10, AFTER),
    (bytes_of(0, [*AXIS, 1.0]) + record(*PLANE), 10, 0),
    # what each number may be, in records of each kind
    *((behind(spoilt(s, vertex=NAN)), 2, AFTER) for s in EACH_KIND[:2]),
    *((behind(spoilt(s, index=INFINITY)), 2, AFTER) for s in EACH_KIND[2:]),
    *((behind(spoilt(s, own=(0, -INFINITY))), 2, AFTER) for s in EACH_KIND[1:3]),
    *((behind(spoilt(s, own=(-1, NAN))), 2, AFTER) for s in EACH_KIND),
    *((behind(negative(s)), 3 if s[0] == "conic" else 2, AFTER) for s in EACH_KIND + OTHER_MIRRORS),
    *((behind(spoilt(s, index=0.0)), 4, AFTER) for s in EACH_KIND),
    (behind(spoilt(PLANE, index=-0.0)), 4, AFTER),
    (behind(spoilt(TOROID, index=-1.5)), 4, AFTER),
    # the order within a record, and record by record
    (behind(spoilt(PLANE, index=NAN, own=(2, -1.0))), 2, AFTER),
    (behind(spoilt(PLANE, index=0.0, own=(2, -1.0))), 3, AFTER),
    (behind(spoilt(EVEN, index=0.0, own=(2, -1.0))), 2, AFTER),
    (with_length(spoilt(PLANE, index=NAN), 43), 10, 0),
    (spoilt(PLANE, index=0.0) + spoilt(PLANE, vertex=NAN), 4, 0),
    (spoilt(PLANE, own=(2, -1.0)) + b"\0", 3, 0),
    (spoilt(PLANE, vertex=NAN) + b"\0", 2, 0),
]


def damaged():
    """Refused by continue, which stays where it was, and some by start, before the ray and the room are looked at."""
    good = [PLANE, plane(1.0)]
    tried = [*given(good), (start_line(AXIS), "1 0 0 0")]
    for data, number, place in DAMAGED:
        tried += [(recipe_line(data), None), (continue_line(1), f"{number} {place} 0 0")]
    yield [*tried, (recipe_line(recipe(good)), None), (continue_line(1), "1 0 1 0")]
    tried = [(room_line(0), None)]
    for data, number, place in DAMAGED[::4]:
        tried += [(recipe_line(data), None), (start_line([NAN] * 6), f"{number} {place} 0 {number}")]
    yield tried
    # a semi-diameter and a count at their limits are taken
    yield traced([plane(index=SMALLEST, semi=-0.0)], AXIS, "1 9")
    yield traced([("even", 0.0, 1.0, [0.0, 0.0, 0.0, *[1.0] * 8], True)], AXIS, "1 1")


def bad_rays():
    """Told after the recipe and before the room."""
    tried = given([PLANE], 12)
    for place in range(7):
        for x in (NAN, INFINITY) if place % 3 else (-INFINITY,):
            numbers = [*AXIS, 1.0]
            numbers[place] = x
            tried += [(start_line(numbers[:6], numbers[6]), "2 0 0 2")]
    for index in (0.0, -0.0, -1.0, -SMALLEST):
        tried += [(start_line(AXIS, index), "4 0 0 4")]
    yield [*tried, (start_line([*AXIS[:5], NAN], -1.0), "2 0 0 2")]
    yield [*given([], 3), (start_line(AXIS, 0.0), "4 0 0 4"), (continue_line(), "12 0 0 4")]
    taken = [(start_line(AXIS, LARGEST), "1 0 0 0"), (start_line([0.0] * 6, SMALLEST), "1 0 0 0")]
    yield [*given([PLANE]), *taken, (continue_line(), "1 0 1 6")]


def rooms():
    two = [PLANE, plane(1.0)]
    on = [(continue_line(1), "1 0 1 0"), (continue_line(), "1 0 2 1")]
    for room in (26, 27, 40):
        yield [*given(two, room), (start_line(AXIS), "1 0 0 0"), *on]
    for room in (0, 13, 25):
        yield [*given(two, room), (start_line(AXIS), "11 0 0 11"), (continue_line(), "11 0 0 11")]
    # start blanks all of it, refused or not; a refused continuation leaves it
    yield [*given(two, 30), (start_line([*AXIS[:5], NAN]), "2 0 0 2")]
    left = [*given(two, 15), (continue_line(3), "11 0 0 2")]
    yield [*left, (recipe_line(recipe([PLANE])), None), (continue_line(3), "12 0 0 2")]
    # records that were written before the room was new are not written again, and 11 comes before 12
    begun = [*given(two), (start_line(AXIS), "1 0 0 0"), on[0], (room_line(29), None), on[1]]
    yield [*begun, (room_line(25), None), (continue_line(), "11 0 2 1")]
    begun = [*given([]), (start_line(AXIS), "1 0 0 1"), (continue_line(), "1 0 0 1")]
    yield [*begun, (room_line(2), None), (continue_line(0), "1 0 0 1")]


STAND = [PLANE, ("even", 10.0, 1.5, [0.01, 0.0, 10.0, 1e-3]), ("toroid", 20.0, 1.0, [50.0, 0.01, 0.0, 10.0])]
PLACES = places(STAND)
LIMIT = sum(LIMITS[surface[0]] for surface in STAND)
ON_EVEN = dict(
    number=1,
    place=PLACES[1],
    passes=0,
    t=0.0,
    ray=[0.5, 0.0, 1.0, *UP],
    index=2.0,
    path=7.0,
    steps=5,
    outcome=0,
)
ON_TOROID = ON_EVEN | dict(number=2, place=PLACES[2])
ON_PLANE = ON_EVEN | dict(number=0, place=0, ray=AXIS)
DONE = ON_EVEN | dict(number=3, place=PLACES[3], outcome=1)

# A state, and a change of it for which SCOPE gives 12 (C5).
FORGED_WRONG = [
    *((ON_EVEN, dict(outcome=n)) for n in (1, 3, 10, 12, 255)),
    *((DONE, dict(number=n)) for n in (2, 4, 2**32 + 3)),
    *((DONE, dict(place=n)) for n in (0, PLACES[2], PLACES[3] + 1, 2**32 + PLACES[3])),
    *((DONE, dict(outcome=n)) for n in (0, 2, 9)),
    *((ON_EVEN, dict(number=n)) for n in (0, 2, 3, 2**32 + 1, 2**64 - 1)),
    *((ON_EVEN, dict(place=n)) for n in (0, PLACES[1] + 1, PLACES[2], 2**16 + PLACES[1], 2**32 + PLACES[1])),
    (ON_EVEN, dict(number=2, place=PLACES[3])),
    (ON_PLANE, dict(passes=1)),
    *((ON_EVEN, dict(passes=n)) for n in (25, 34, 256, 65535)),
    *((ON_TOROID, dict(passes=n)) for n in (35, 36)),
    *((ON_EVEN, dict(outcome=n, passes=1)) for n in (2, 6, 9)),
    (DONE, dict(passes=1)),
    *((ON_EVEN, dict(steps=n)) for n in (LIMIT + 1, 2**32 + 5, 2**64 - 1)),
    (DONE, dict(steps=LIMIT + 1)),
    *((ON_EVEN, dict(ray=[*AXIS[:i], x, *AXIS[i + 1 :]])) for i, x in enumerate([NAN, INFINITY, -INFINITY] * 2)),
    *((DONE, dict(ray=[*AXIS[:i], NAN, *AXIS[i + 1 :]])) for i in (0, 5)),
    *((ON_EVEN, dict(path=x)) for x in (NAN, INFINITY, -INFINITY)),
    *((ON_EVEN, dict(index=x)) for x in (0.0, -0.0, -1.0, NAN, INFINITY)),
    *((DONE, dict(path=NAN)), (DONE, dict(index=0.0))),
]

# A state, a change of it that is accepted, the steps allowed, and then all steps and the outcome.
# No surface ends by these,
FORGED_ON = [
    *((ON_EVEN, dict(outcome=n), 9, f"5 {n}") for n in (2, 4, 5, 6, 7, 8, 9)),
    (ON_EVEN, dict(outcome=6, t=NAN), 1, "5 6"),
    (DONE, dict(t=-INFINITY, path=-1.0, index=SMALLEST, steps=LIMIT), 9, f"{LIMIT} 1"),
    # t so far is not used at pass count 0, and is kept while no step is taken; later it is used as it is
    *((ON_EVEN, dict(t=t), n, end) for t in (NAN, 1e300) for n, end in ((0, "5 0"), (1, "6 0"))),
    *((ON_EVEN, dict(passes=1, t=t), 0, "5 0") for t in (NAN, -0.0)),
    (ON_EVEN, dict(passes=1, t=-3.0, ray=[0.5, 0.0, 1.0, 0.6, 0.0, 0.8]), 1, "6 0"),
    (ON_EVEN, dict(passes=23, t=-3.0), 1, "6 0"),
    (ON_EVEN, dict(passes=1, t=0.0, ray=[0.5, 0.0, 1.0, 1.0, 0.0, 0.0]), 1, "6 0"),
    *((ON_TOROID, dict(passes=1, t=t), 33, "38 0") for t in (NAN, INFINITY)),
    (ON_TOROID, dict(steps=LIMIT), 1, f"{LIMIT + 1} 0"),
]
# and by these some do.
FORGED_ENDED = [
    (ON_PLANE, dict(t=NAN), 1, "6 0"),
    (ON_EVEN, dict(path=-0.0, ray=[0.0, 0.0, 10.0, *DOWN]), 1, "6 0"),
    (ON_EVEN, dict(t=NAN), 60, "9 1"),
    (ON_EVEN, dict(passes=1, t=NAN), 1, "6 6"),
    (ON_EVEN, dict(passes=24, t=-3.0), 60, "6 6"),
    (ON_EVEN, dict(passes=0, t=0.0, ray=[0.5, 0.0, 1.0, 1.0, 0.0, 0.0]), 1, "6 6"),
    *((ON_TOROID, dict(passes=34, t=t), 60, "6 6") for t in (NAN, 12.0)),
    (ON_TOROID, dict(passes=20, t=12.0, path=-7.0), 60, "7 1"),
    (ON_TOROID, dict(steps=LIMIT), 60, f"{LIMIT + 2} 1"),
    (ON_PLANE, dict(path=LARGEST, ray=[0.0, 0.0, -1e300, *UP]), 60, "6 9"),
    (ON_EVEN, dict(index=SMALLEST), 60, "9 1"),
    (ON_EVEN, dict(index=LARGEST), 60, "7 8"),
]


def forged():
    began = (start_line(AXIS), "1 0 0 0")
    tried = [*given(STAND), began]
    for state in (state | change for state, change in FORGED_WRONG):
        tried += [(state_line(**state), None), (continue_line(1), f"12 0 {state['steps']} {state['outcome']}")]
    for state, change, steps, end in FORGED_ON:
        tried += [(state_line(**state | change), None), (continue_line(steps), f"1 0 {end}")]
    tried += [(continue_line(1), f"12 0 {LIMIT + 1} 0")]
    for state, change, steps, end in FORGED_ENDED:
        tried += [began, (state_line(**state | change), None), (continue_line(steps), f"1 0 {end}")]
    yield tried
    # an empty recipe
    tried = given([])
    for outcome in (*range(13), 255):
        end = f"0 {outcome}"
        accepted = f"1 0 {end}" if outcome == 1 else f"12 0 {end}"
        tried += [(state_line(**ON_PLANE | dict(outcome=outcome, steps=0)), None), (continue_line(), accepted)]
    tried += [(state_line(**ON_PLANE | dict(outcome=1, steps=1)), None), (continue_line(), "12 0 1 1")]
    yield [*tried, (state_line(**ON_PLANE | dict(outcome=1, steps=0, place=1)), None), (continue_line(), "12 0 0 1")]
    # a refused start's state does not fit; the recipe and the room are told before
    refused = [*given([PLANE]), (start_line(AXIS, -1.0), "4 0 0 4"), (continue_line(), "12 0 0 4")]
    for data, number in ((recipe([PLANE, PLANE]), 11), (b"\0", 10)):
        refused += [(recipe_line(data), None), (continue_line(), f"{number} 0 0 4")]
    yield refused
    # a state goes on in another recipe, if its place is there
    begun = [*given(STAND), (start_line([0.5, 0.0, -5.0, *UP]), "1 0 0 0"), (continue_line(1), "1 0 1 0")]
    shorter = [(recipe_line(recipe(STAND[:2])), None), (continue_line(1), "1 0 2 0")]
    longer = (recipe_line(recipe(STAND)), None)
    yield [*begun, *shorter, (continue_line(), "1 0 3 1"), longer, (continue_line(), "12 0 3 1")]
    yield [*begun, *shorter, longer, (continue_line(1), "1 0 3 0"), (continue_line(), "1 0 5 1")]


def longest():
    """512 records, near whose end a trace is taken up; and one more behind them."""
    at = places(RELAY)
    near = state_line(509, at[509], 0, 0.0, [1.0, 2.0, 2.0 * 509 - 1, *UP], 1.5, 1000.0, 509, 0)
    begun = [*given(RELAY, 6655), (start_line(AXIS), "11 0 0 11"), (room_line(6656), None)]
    taken_up = [(near, None), (continue_line(2), "1 0 511 0"), (continue_line(0), "1 0 511 0")]
    ended = (continue_line(), "1 0 512 1")
    behind_it = [(recipe_line(recipe([*RELAY, PLANE])), None), (continue_line(1), f"10 {at[512]} 512 1")]
    return [*begun, (start_line([1.0, 2.0, -5.0, *UP]), "1 0 0 0"), *taken_up, ended, *behind_it]


def odd(semi, first=0.0, last=0.0, z=0.0, index=1.0, mirror=False, base=(0.0, 0.0)):
    """All coefficients but the first and the last odd one are 0."""
    return ("odd", z, index, [*base, semi, *[0.0] * 8, first, *[0.0] * 6, last], mirror)


def first_pass(surface, ray, t):
    """It goes on with this t."""
    reply = ["continue 1 0", state_line(0, 0, 1, t, ray, 1.0, 0.0, 1, 0)]
    return [*given([surface]), (start_line(ray), "1 0 0 0"), (continue_line(1), reply)]


# nearly level, to a crossing that takes all passes
LEVEL = [1.0, 0.0, 0.0, -1.0, 0.0, 1e-14]
ODD_TRACES = [
    # r at both exits
    traced([odd(5.0, 1 / 4)], [4.0, 0.0, -1.0, *UP], "2 1", cuts=[(0, "0 0"), (1, "1 0")]),
    traced([odd(3.0, 1 / 4)], [4.0, 0.0, -1.0, *UP], "2 7", cuts=[(1, "1 0"), (1, "2 7"), (1, "2 7")]),
    traced([odd(2.0, 1 / 4)], [4.0, 0.0, -1.0, *UP], "1 6"),
    traced([odd(5.0, 1 / 4, mirror=True)], [4.0, 0.0, -1.0, *UP], "2 1"),
    traced([odd(0.5)], FLAT_AND_FAST, "1 7"),
    # slopes are 0 on the axis for a coefficient below 1e-14, and along x up to an r of 1e-14
    first_pass(odd(2.0**60, 2.0**-47), [0.0, 0.0, 1.0, 2.0**46, 0.0, 1.0], -1.0),
    traced([odd(2.0**60, 2.0**-46)], [0.0, 0.0, 1.0, 2.0**46, 0.0, 1.0], "1 4"),
    first_pass(odd(5.0, 1 / 2), [0.0, 2.0**-49, 1.0, 1.0, 0.0, 1.0], 2.0**-49 - 2.0),
    first_pass(odd(5.0, 1 / 2), [0.0, 2.0**-46, 1.0, 1.0, 0.0, 1.0], 2.0**-47 - 1.0),
    # the 25th pass is the last
    traced([odd(2.0, last=0.5)], LEVEL, "25 1", cuts=[(24, "24 0")]),
    traced([odd(2.0, last=1.0)], LEVEL, "25 6", cuts=[(24, "24 0"), (1, "25 6")]),
    # all coefficients take part: 0 times an overflowed power is NaN
    traced([odd(2.0**70)], [2.0**63, 0.0, -1.0, *UP], "1 1"),
    traced([odd(2.0**70)], [2.0**66, 0.0, -1.0, *UP], "2 6", cuts=[(1, "1 0")]),
    # where the base turns back no slope is refused; 4 of the slope, 5 of the normal, 6 of an infinite way, 8, 9
    traced([odd(10.0, base=(1.0, 0.0))], [1.0, 0.0, -5.0, *UP], "2 1"),
    traced([odd(10.0, 1.0)], [4.0, 0.0, 3.0, 1.0, 0.0, 1.0], "1 4"),
    traced([odd(10.0, base=(0.25, 0.0))], [0.0, 0.0, 2.0**-30, 5 * 2.0**50, 0.0, 2.0**20], "1 5"),
    traced([odd(10.0, z=1e308)], TOO_FAR, "1 6"),
    traced([odd(10.0)], [0.0, 0.0, -1.0, 0.8, 0.0, 0.6], "1 8", index=2.0),
    traced([odd(10.0, index=2.0**-600)], AXIS, "1 9", index=2.0**600),
    # on the axis the beam is turned along x; what it meets then takes a move and a look
    traced([PLANE, odd(10.0, 1 / 4, z=3.0, index=1.5), plane(9.0, mirror=True), odd(10.0, -1 / 8)], AXIS, "5 1"),
]


def damaged_odd():
    """Told as for the other kinds."""
    good = odd(10.0, 1 / 4, z=1.0)
    whole, mirror = record(*good), (*good[:4], True)
    tried = [*given([PLANE, good]), (start_line(AXIS), "1 0 0 0")]
    malformed = [
        *(bytes_of(kind, [1.0] * count) for kind in (5, 261) for count in (20, 22)),
        *(bytes_of(5, [1.0] * count) for count in (5, 13)),
        *(with_kind(whole, kind) for kind in (2, 258, 517)),
        *(with_length(whole, length) for length in (169, 171)),
        whole[:-1],
        with_length(spoilt(good, vertex=NAN), 162),
    ]
    refused = [
        *((spoilt(s, vertex=NAN), 2) for s in (good, mirror)),
        (spoilt(good, index=INFINITY), 2),
        *((spoilt(good, own=(i, NAN)), 2) for i in (0, 3, 10, 11, 18)),
        *((negative(s), 2) for s in (good, mirror)),
        *((spoilt(s, index=0.0), 4) for s in (good, mirror)),
        (spoilt(good, index=0.0, own=(2, -1.0)), 2),
    ]
    for data, number in [*((data, 10) for data in malformed), *refused]:
        tried += [(recipe_line(behind(data)), None), (continue_line(1), f"{number} {AFTER} 0 0")]
    return tried


def forged_odd():
    """A state of 24 passes fits, and one of 25 does not."""
    surfaces = [PLANE, odd(10.0, 1 / 8, z=10.0, index=1.5), plane(20.0)]
    on_it, most = ON_EVEN | dict(place=places(surfaces)[1]), sum(LIMITS[surface[0]] for surface in surfaces)
    tried = [*given(surfaces), (start_line(AXIS), "1 0 0 0")]
    for change in (dict(passes=25), dict(passes=1, outcome=6), dict(steps=most + 1)):
        state = on_it | change
        tried += [(state_line(**state), None), (continue_line(1), f"12 0 {state['steps']} {state['outcome']}")]
    for change, steps, end in [
        (dict(passes=23, t=-3.0), 1, "6 0"),
        (dict(passes=24, t=-3.0), 1, "6 6"),
        (dict(passes=1, t=NAN), 1, "6 6"),
        (dict(steps=most), 1, f"{most + 1} 0"),
    ]:
        tried += [(state_line(**on_it | change), None), (continue_line(steps), f"1 0 {end}")]
    return tried


FULL = [*(odd(10.0, z=float(i)) for i in range(380)), *(plane(380.0 + i) for i in range(4))]
ENDS = places(FULL)


def past_the_end(last):
    """A recipe of 65,540 bytes, which ends with this record of a biconic."""
    return recipe([*FULL[:380], BICONIC, BICONIC]) + last


def most_bytes():
    """All 65,536 bytes of a recipe, near whose end a trace is taken up; then a record past them, with a NaN."""
    near = state_line(379, ENDS[379], 0, 0.0, [1.0, 2.0, 378.5, *UP], 1.0, 1000.0, 379, 0)
    end = ON_PLANE | dict(number=384, steps=384, outcome=1)
    tried = [*given(FULL), (start_line(AXIS), "1 0 0 0"), (near, None), (continue_line(3), "1 0 382 0")]
    tried += [(continue_line(), "1 0 384 1"), (state_line(**end), None), (continue_line(1), "12 0 384 1")]
    tried += [(state_line(**end | dict(place=65536)), None), (continue_line(1), "1 0 384 1")]
    past = past_the_end(spoilt(BICONIC, vertex=NAN))
    return [*tried, (recipe_line(past), None), (continue_line(1), "10 65480 384 1")]


# a direction of length 3, two planes, and a mirror between them whose index is not used
POINTER = [0.0, 0.0, -5.0, 0.0, 0.0, 3.0]
POINTED = [PLANE, plane(3.0, 7.0, mirror=True), plane(1.0)]
ENTERED = ON_EVEN | dict(ray=[0.0, 0.0, 0.0, *UP], path=6.5, steps=1)
LEFT = ENTERED | dict(number=3, place=3 * AFTER, ray=[0.0, 0.0, 1.0, *DOWN], index=1.0, path=16.5, steps=3, outcome=1)


def optical_paths():
    """By t, the length of the starting direction and the index before a surface, in this order; t stays."""
    first, second = [5 / 3, 0.0, 0.0, 0.0, *DOWN, *UP, 1.0], [3.0, 0.0, 0.0, 3.0, *DOWN, *DOWN, 1.0]
    third = [2.0, 0.0, 0.0, 1.0, *DOWN, *DOWN, 0.0]
    begun = [*given(POINTED), (start_line(POINTER, 1.3), "1 0 0 0"), (continue_line(1), reply(ENTERED, first))]
    yield [*begun, (continue_line(), reply(LEFT, first, second, third))]
    # with the length at every surface it is 4008EBA144FE1958
    begun = [*given([plane(index=1.5), plane(1.0)]), (start_line([0.0, 0.0, -1.0, 0.0, 1.0, 1.0]), "1 0 0 0")]
    yield [*begun, (continue_line(), ("1 0 2 1", of_pattern("4008EBA144FE1959")))]
    # a forged state at surface 0 has the length too, one at surface 1 has not
    tried = [*given(POINTED), (start_line(POINTER), "1 0 0 0")]
    for state, path in (
        (ENTERED | dict(number=0, place=0, ray=POINTER, index=1.3, path=1.0), 7.5),
        (ENTERED | dict(ray=[0.0, 0.0, 0.0, 0.0, 0.0, 3.0], path=1.0), 3.0),
    ):
        tried += [(state_line(**state), None), (continue_line(1), ("1 0 2 0", path))]
    yield tried
    # 9 by the path alone: a t of 0 times an infinite length, and a large index
    yield traced([plane()], [0.0, 0.0, 0.0, 0.0, 0.0, 1e200], "1 9")
    yield traced([plane(index=1e308)], AXIS, "1 9", index=1e308)


def reached(number, record):
    return ["reach 1 0", f"record {number} {words(record)}"]


def reaches():
    """One surface's record, from the records up to it; nothing happens to the station meanwhile."""
    ray, first = [2.0, 0.0, -1.0, *UP], [1.0, 1.0, 2.0, 0.0, 0.0, *DOWN, *UP, 1.0, 1.0]
    narrow = [plane(), plane(1.0, semi=1.0), plane(2.0)]
    yield [
        *given(narrow, 41),
        (start_line(ray), "1 0 0 0"),
        (continue_line(1), "1 0 1 0"),
        # the beam is lost before, at and behind the surface
        (reach_line(2, ray), ["reach 1 0"]),
        (reach_line(1, ray), reached(1, [7.0, 2.0, 1.0, *[0.0] * 9, 1.0])),
        (reach_line(0, ray), reached(0, first)),
        # a number that is too large, past the end and before the ray, ray and index
        *((reach_line(n, ray), ["reach 2 0"]) for n in (3, 511, 512, 2**32, 2**64 - 1)),
        *((reach_line(n, [NAN] * 6), ["reach 2 0"]) for n in (2, 3, 511, 512)),
        *((reach_line(3, ray, index), ["reach 2 0"]) for index in (0.0, INFINITY)),
        *((reach_line(2, ray, index), ["reach 4 0"]) for index in (0.0, -0.0, -1.0)),
        (reach_line(2, [*ray[:5], NAN], -1.0), ["reach 2 0"]),
        (continue_line(0), "1 0 1 0"),
        (room_line(0), None),
        (reach_line(0, ray), reached(0, first)),
        (continue_line(), "11 0 1 0"),
    ]
    # a plane and a byte; a record that is refused at its number and not before; no record, and none but a bad one
    for data, number, place in [(b"\0", 10, AFTER), (spoilt(PLANE, index=0.0), 4, AFTER), (negative(PLANE), 3, AFTER)]:
        answered = (reach_line(0, ray), reached(0, first))
        refused = ((reach_line(n, ray), [f"reach {number} {place}"]) for n in (1, 2, 511))
        yield [(recipe_line(behind(data)), None), answered, *refused, (reach_line(512, ray), ["reach 2 0"])]
    yield [*given([]), (reach_line(0, ray), ["reach 2 0"]), (reach_line(0, ray, 0.0), ["reach 2 0"])]
    refused = [(reach_line(n, ray), ["reach 10 0"]) for n in (0, 511)]
    yield [(recipe_line(b"\0"), None), *refused, (reach_line(512, ray), ["reach 2 0"])]
    # 600 planes, of which a start refuses the 513th
    many = [plane(float(i)) for i in range(600)]
    seventh = [1.0, 1.0, 2.0, 0.0, 7.0, *DOWN, *UP, 1.0, 1.0]
    yield [
        *given(many, 13),
        (reach_line(7, ray), reached(7, seventh)),
        (reach_line(511, ray), reached(511, [*seventh[:4], 511.0, *seventh[5:]])),
        (reach_line(512, ray), ["reach 2 0"]),
        (start_line(ray), f"10 {44 * 512} 0 10"),
    ]
    # kinds that pass, in parts of a lens that is traced whole
    for name in ("doublet", "phone", "mirrors", "toroid"):
        ray, surfaces = SAMPLES[name]
        yield [*given(surfaces), *((reach_line(n, ray), "1 0") for n in range(len(surfaces)))]


STATE = state_line(0, 0, 0, 0.0, AXIS, 1.0, 0.0, 0, 0)
UNREADABLE = [
    "",
    " ",
    "?",
    "recipes",
    "Recipe 00",
    "recipe 0",
    "recipe 000",
    "recipe 0G",
    "recipe 0x00",
    "recipe +1",
    "recipe 00 00",
    "recipe\t00",
    "room",
    "room -1",
    "room +1",
    "room 1.0",
    "room A",
    "room 1 1",
    "room 8193",
    "room 65536",
    "room 18446744073709551617",
    "start",
    f"start {' '.join([FOUR] * 6)}",
    f"start {' '.join([FOUR] * 8)}",
    f"start {' '.join([FOUR] * 6)} {FOUR[1:]}",
    f"start {' '.join([FOUR] * 6)} 0{FOUR}",
    f"start {' '.join([FOUR] * 6)} {FOUR[:-1]}G",
    f"start {' '.join([FOUR] * 6)} 1",
    f"start{' '.join([FOUR] * 7)}",
    "state",
    STATE.rsplit(" ", 1)[0],
    f"{STATE} 0",
    STATE.replace("state 0", "state 18446744073709551616"),
    STATE.replace("state 0 0", "state 0 18446744073709551616"),
    STATE.replace("state 0 0 0", "state 0 0 65536"),
    STATE.replace("state 0 0 0", "state 0 -1 0"),
    STATE.replace("state 0 0 0", "state A 0 0"),
    f"{STATE.rsplit(' ', 2)[0]} 18446744073709551616 0",
    f"{STATE.rsplit(' ', 1)[0]} 256",
    f"state 0 0 0 0 {' '.join([FOUR] * 8)} 0 0",
    f"state 0 0 {' '.join([FOUR] * 10)} 0 0",
    f"state 0 0 0 {' '.join([FOUR] * 10)} 0 0",
    "reach",
    "reach 1",
    f"reach {' '.join([FOUR] * 7)}",
    f"reach 1 {' '.join([FOUR] * 6)}",
    f"reach 1 {' '.join([FOUR] * 8)}",
    f"reach 1 1 {' '.join([FOUR] * 7)}",
    f"reach -1 {' '.join([FOUR] * 7)}",
    f"reach A {' '.join([FOUR] * 7)}",
    f"reach 18446744073709551616 {' '.join([FOUR] * 7)}",
    f"Reach 1 {' '.join([FOUR] * 7)}",
    "continue",
    "continue 1 1",
    "continue 65536",
    "continue 4294967297",
    "continue 18446744073709551617",
    "continue 99999999999999999999999999",
    "continue -1",
    "continue 1.",
    "continue F",
    "continue 1\r",
    "Continue 1",
    "start continue 1",
]


def unreadable():
    """Nothing happens to the station meanwhile; and lines that are written otherwise and can be read."""
    begun = [*given([PLANE, PLANE], 27), (start_line(AXIS), "1 0 0 0"), (continue_line(1), "1 0 1 0")]
    full = state_line(2**64 - 1, 2**64 - 1, 65535, NAN, [NAN] * 6, NAN, -INFINITY, 2**64 - 1, 255)
    spaced = [
        (f"  recipe   {recipe([PLANE, plane(index=1.5)]).hex()}  ", None),
        (" room  0027", None),
        (f"start {words(AXIS).lower()}  {pattern(2.0)} ", "1 0 0 0"),
        ("continue 000000000000000000000000000001", "1 0 1 0"),
        (STATE.lower().replace("state 0 0", "state  000 0").replace("state", " state"), None),
        (" continue 65535", "1 0 2 1"),
        (f" reach  0000000000000000000000000001  {words(AXIS).lower()} {pattern(1.0)} ", "1 0"),
        (full.replace("7FF8", "FFFA"), None),
        ("continue 65535", f"12 0 {2**64 - 1} 255"),
        ("room 8192", None),
        ("recipe  ", None),
        (start_line(AXIS), "1 0 0 1"),
    ]
    return [*begun, *((line, "?") for line in UNREADABLE), (continue_line(0), "1 0 1 0"), *spaced]


def lenses():
    """Stopped in the midst of a trace, and brought to its end."""
    for name, steps in (("doublet", 3), ("phone", 7), ("mirrors", 5), ("toroid", 3)):
        ray, surfaces = SAMPLES[name]
        begun = [*given(surfaces), (start_line(ray), "1 0 0 0"), (continue_line(steps), f"1 0 {steps} 0")]
        yield [*begun, (continue_line(), "1 0")]


def refused_at_the_end():
    """Records are looked at in order, and each one's end before its numbers."""
    for data, number, place in (
        (past_the_end(record(*BICONIC)), 10, 65480),
        (recipe([*FULL, PLANE]), 10, 65536),
        (recipe([*FULL[:383]]) + spoilt(FULL[383], vertex=NAN), 2, ENDS[383]),
        (spoilt(FULL[0], vertex=NAN) + past_the_end(record(*BICONIC))[ENDS[1] :], 2, 0),
    ):
        yield from ((recipe_line(data), None), (continue_line(), f"{number} {place} 0 1"))


# Longer than a stored list should be: the longest lines, and the station before any line.
LONG = [
    (continue_line(), "12 0 0 0"),
    ("recipe " + "00" * 65596, None),
    (room_line(0), None),
    (start_line(AXIS), "10 0 0 10"),
    ("recipe " + "00" * 65597, "?"),
    ("recipe " + " " * 131193, None),
    (start_line(AXIS), "1 0 0 1"),
    ("recipe " + " " * 131194, "?"),
    ("recipe " + "0" * 300000, "?"),
    (continue_line(), "1 0 0 1"),
    (recipe_line(recipe(RELAY) + b"\0"), None),
    (continue_line(), f"10 {44 * 512} 0 1"),
    *refused_at_the_end(),
]


def fixed_scripts():
    """All but the long ones."""
    scripts = [EXAMPLE, SIGNS, *TRACES, *lenses(), *damaged(), *bad_rays(), *rooms(), *forged()]
    scripts += [unreadable(), longest(), *ODD_TRACES, damaged_odd(), forged_odd(), most_bytes(), *optical_paths()]
    return [*scripts, *reaches()]
