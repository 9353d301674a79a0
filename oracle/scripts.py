"""The lines of a script for the program `scans`, and what it replies to them."""
from floats import pattern

WIDTH = 13
MOST = 65535


def words(numbers):
    return " ".join(map(pattern, numbers))


def recipe_line(recipe):
    return f"recipe {recipe.hex().upper()}"


def room_line(count):
    return f"room {count}"


def start_line(ray, index=1.0):
    return f"start {words([*ray, index])}"


def continue_line(steps=MOST):
    return f"continue {steps}"


def state_line(number, place, passes, t, ray, index, path, steps, outcome):
    return f"state {number} {place} {passes} {words([t, *ray, index, path])} {steps} {outcome}"


def reach_line(number, ray, index=1.0):
    return f"reach {number} {words([*ray, index])}"


def asks(line):
    """Whether a line that can be read is replied to."""
    return line.split()[0] in ("start", "continue", "reach")


def replies(answer):
    """The replies in what a program wrote, each a list of lines."""
    split = []
    for line in answer:
        if line == "?" or asks(line):
            split.append([])
        split[-1].append(line)
    return split


def path(reply):
    """Its word in a reply's state."""
    return reply[1].split()[-3]


def told(reply):
    """Of a reply its number and place, and of one with a state all steps and the outcome."""
    what, *head = reply[0].split()
    state = [] if what == "reach" else reply[1].split()
    return [int(x) for x in (*head, *state[-2:])]
