"""What the tools share: reading, writing, and ending with one line and status 2 where something is wrong."""
import argparse
import os
import sys

import fitting
import listing
import prescription
import records

STANDARD_INPUT = "standard input"


class Refused(Exception):
    """One line for standard error."""


def command_line(name, description, notes):
    return argparse.ArgumentParser(prog=name, description=description, epilog=notes,
                                   formatter_class=argparse.RawDescriptionHelpFormatter)


def run(main):
    """Ends the process with main's status, 0 if it has none."""
    try:
        main()
    except Refused as refused:
        say(refused)
        sys.exit(2)
    except KeyboardInterrupt:
        sys.exit(130)


def say(line):
    # a closed standard error is None, which print would take for standard output
    if sys.stderr is not None:
        print(line, file=sys.stderr)


def name_of(path):
    return STANDARD_INPUT if path == "-" else path


def contents(path):
    """The bytes of a file, or of standard input for -."""
    try:
        if path != "-":
            with open(path, "rb") as stream:
                return stream.read()
        if sys.stdin is None:
            raise Refused(f"{STANDARD_INPUT} is closed")
        return sys.stdin.buffer.read()
    except OSError as wrong:
        raise Refused(f"{name_of(path)}: {reason_of(wrong)}") from None
    except ValueError:
        # a name with a zero byte
        raise Refused(f"{path!r} is no file's name") from None


def reason_of(wrong):
    return wrong.strerror or str(wrong)


def put(data):
    """All at once, so that nothing is written where something is wrong."""
    try:
        if sys.stdout is None:
            raise Refused("standard output is closed")
        sys.stdout.buffer.write(data)
        sys.stdout.buffer.flush()
    except OSError as wrong:
        # what is left in the buffer would be tried again at the end
        os.dup2(os.open(os.devnull, os.O_WRONLY), sys.stdout.fileno())
        raise Refused(f"standard output: {reason_of(wrong)}") from None


def text_of(data, name):
    """Of UTF-8, with any kind of line end."""
    try:
        return data.decode("utf-8-sig").replace("\r\n", "\n").replace("\r", "\n")
    except UnicodeDecodeError as wrong:
        raise Refused(f"{name}:{line_at(data, wrong.start)}: not text in UTF-8") from None


def line_at(data, place):
    """The number of the line that a byte stands in."""
    return data[:place].count(b"\n") + 1


def located_text(data, name):
    """A text prescription with its lines."""
    if 0 in data:
        line = line_at(data, data.index(0))
        raise Refused(f"{name}:{line}: a zero byte, which no text has: are these a recipe's bytes?")
    try:
        return prescription.read(text_of(data, name))
    except prescription.BadText as wrong:
        raise Refused(f"{name}:{wrong.line}: {wrong.reason}") from None


def parsed_bytes(data, name):
    """All of them, or none where a record is malformed."""
    parsed = records.parsed(data)
    if parsed.malformed is not None:
        raise Refused(f"{name}: {parsed.malformed}")
    return parsed


def is_text(data):
    """Every record has a zero byte, in its length; a text has none."""
    return 0 not in data


def prescription_of(data, name):
    """Of a text or of bytes, told apart by contents."""
    return located_text(data, name).prescription if is_text(data) else parsed_bytes(data, name)


def listing_of(path, traced=None, recipe=None):
    """What `tracelist` printed, held to the prescription that was traced, if that is given with its name."""
    name = name_of(path)
    data = contents(path)
    try:
        read = listing.read(text_of(data, name))
    except listing.BadListing as wrong:
        raise Refused(f"{name}:{wrong.line}: {wrong.reason}") from None
    try:
        if traced is not None:
            fitting.hold(read, traced)
    except listing.BadListing as unlike:
        raise Refused(f"{name}:{unlike.line}: {unlike.reason}: this is no listing of {recipe} as it stands") from None
    return read
