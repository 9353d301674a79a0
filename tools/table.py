"""SCOPE's table (T1): what each number means."""

MEANINGS = {
    0: "blank, or trace not ended",
    1: "hit, or done",
    2: "bad parameter",
    3: "negative semi-diameter of a conic",
    4: "singular",
    5: "outside the surface's domain",
    6: "missed",
    7: "vignetted",
    8: "total internal reflection",
    9: "an answer's number is not finite",
    10: "malformed recipe",
    11: "result buffer too short",
    12: "state does not fit the recipe",
}

HIT = DONE = 1
NOT_ENDED = 0
VIGNETTED = 7
MALFORMED = 10
# what ends a trace at a surface, and what a start may answer instead of a trace
ENDS = (2, 4, 5, 6, 7, 8, 9)
START_REFUSALS = (2, 3, 4, 10, 11)

# why a surface ended the trace, for a reader who does not know the table; 7 is told with its own numbers
WHY = {
    2: "the beam meets it farther from the axis than the largest number, where it has no normal",
    4: "a slope, a normal or a direction came out with no size, or not finite",
    5: "the surface has no normal where the beam meets it",
    6: "no point of the surface was found ahead of the beam",
    8: "the beam meets the surface too flatly to leave the denser medium",
    9: "a number of this surface's answer, or the path up to it, is infinite or undefined",
}


def told(number):
    return f"{number} ({MEANINGS[number]})"
