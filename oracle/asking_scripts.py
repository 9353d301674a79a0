"""Drives the reference for whole traces, or another program that reads the same scripts, and holds it to the written
replies."""
import sys

from asking import written_by
from floats import pattern
from scripts import path, replies, told


def replied(command, lines):
    """The replies, without regard to which lines they are to."""
    return replies(written_by(command, lines))


def is_written(reply, written):
    if written == "?":
        return reply == ["?"]
    if isinstance(written, list):
        return reply == written
    if isinstance(written, tuple):
        return is_written(reply, written[0]) and path(reply) == pattern(written[1])
    return reply[0] != "?" and told(reply)[: len(written.split())] == [int(x) for x in written.split()]


def checked(reference, scripts):
    """The lines of scripts with written replies, once the reference has replied as is written, and which of them have
    replies."""
    steps = [step for script in scripts for step in script]
    asked = [step for step in steps if step[1] is not None]
    given = replied(reference, [line for line, _ in steps])
    if len(given) != len(asked):
        sys.exit(f"the reference replies to {len(given)} of {len(asked)} lines")
    for (line, written), reply in zip(asked, given):
        if not is_written(reply, written):
            sys.exit("\n".join([f"{written} is not what is replied to: {line}", *reply]))
    return [(line, written is not None) for line, written in steps]
