"""What `tracelist` prints, read and held to SCOPE (L1 to L3)."""
import math
import re
from typing import List, NamedTuple, Optional, Tuple

from numerals import counted, numeral, of_pattern, pattern
from table import DONE, ENDS, HIT, NOT_ENDED, START_REFUSALS, VIGNETTED

COUNT = re.compile(r"\d{1,20}", re.ASCII)
SLOTS = 11


class Record(NamedTuple):
    """Of a surface that was hit or refused. A refused one has no t, point, normal or direction, and only 7 has r and
    limit."""

    number: int
    status: int
    steps: int
    line: int
    t: Optional[float] = None
    point: Optional[Tuple[float, ...]] = None
    normal: Optional[Tuple[float, ...]] = None
    direction: Optional[Tuple[float, ...]] = None
    front: Optional[bool] = None
    r: Optional[float] = None
    limit: Optional[float] = None

    def is_hit(self):
        return self.status == HIT

    def slots(self):
        """Those from slot 1 on that it tells."""
        if self.is_hit():
            return [self.t, *self.point, *self.normal, *self.direction, float(self.front)]
        return [self.r, self.limit] if self.status == VIGNETTED else []


class Listing(NamedTuple):
    """Records and how they end: outcome, steps and path. Or, without records, why and at which byte the start was
    refused."""

    records: List[Record]
    outcome: int
    steps: int = 0
    path: float = 0.0
    place: Optional[int] = None

    def is_start_refused(self):
        return self.place is not None

    def hits(self):
        return [record for record in self.records if record.is_hit()]

    def refused(self):
        """The record that ended the trace, if one did."""
        return self.records[-1] if self.records and not self.records[-1].is_hit() else None


class BadListing(Exception):
    def __init__(self, line, reason):
        super().__init__(f"{line}: {reason}")
        self.line, self.reason = line, reason


def read(text):
    """A BadListing says which line is wrong, and why."""
    lines = text.split("\n")
    if lines[-1] == "":
        lines.pop()
    records = []
    for at, written in enumerate(lines, 1):
        try:
            ended = read_line(written.split(), records, at)
        except ValueError as wrong:
            raise BadListing(at, str(wrong)) from None
        if ended is not None:
            if at < len(lines):
                raise BadListing(at + 1, f"the listing has ended with {written.split()[0]!r} before this line")
            return ended
    raise BadListing(len(lines) + 1, "the listing breaks off: its last line has to begin with 'end' or 'refused'")


def read_line(words, records, at):
    """Adds a record, or gives the listing that has ended."""
    if not words:
        raise ValueError("an empty line")
    if words[0] == "refused":
        return read_refused(words, records)
    if words[0] == "end":
        return read_end(words, records)
    records.append(read_record(words, records, at))
    return None


def of_length(words, length, form):
    if len(words) != length:
        raise ValueError(f"{counted(len(words), 'word')}, and not the {length} of {form}")


def count(word):
    if not COUNT.fullmatch(word):
        raise ValueError(f"{word!r} is no count")
    return int(word)


def read_refused(words, records):
    of_length(words, 3, "refused, number and place")
    number, place = map(count, words[1:])
    if records:
        raise ValueError("a start that was refused has no records")
    if number not in START_REFUSALS:
        raise ValueError(f"no start is refused with {number}")
    return Listing([], number, place=place)


def read_record(words, records, at):
    of_length(words, 3 + SLOTS, "number, status, steps and 11 bit patterns")
    number, status, steps = map(count, words[:3])
    slots = [of_pattern(word) for word in words[3:]]
    if number != len(records):
        raise ValueError(f"surface {number} stands where surface {len(records)} is due")
    if records and not records[-1].is_hit():
        raise ValueError(f"surface {records[-1].number} was refused, and the trace had ended there")
    if status != HIT and status not in ENDS:
        raise ValueError(f"no surface ends with {status}")
    if steps == 0:
        raise ValueError("a surface takes at least one step")
    return hit(number, steps, at, slots) if status == HIT else refusal(number, status, steps, at, slots)


def hit(number, steps, at, slots):
    if not all(map(math.isfinite, slots)):
        raise ValueError("a hit has a number that is not finite")
    if slots[10] not in (0.0, 1.0):
        raise ValueError(f"the front face is {numeral(slots[10])}, and not 1 or 0")
    point, normal, direction = (tuple(slots[i : i + 3]) for i in (1, 4, 7))
    return Record(number, HIT, steps, at, slots[0], point, normal, direction, slots[10] == 1.0)


def refusal(number, status, steps, at, slots):
    told_slots = 2 if status == VIGNETTED else 0
    if any(pattern(x) != pattern(0.0) for x in slots[told_slots:]):
        raise ValueError(f"surface {number} is refused with {status}, and yet a slot that it leaves blank is not 0")
    if status != VIGNETTED:
        return Record(number, status, steps, at)
    r, limit = slots[:2]
    if not r > limit:
        raise ValueError(f"r {numeral(r)} is not beyond the limit {numeral(limit)}")
    return Record(number, status, steps, at, r=r, limit=limit)


def read_end(words, records):
    of_length(words, 4, "end, outcome, steps and path")
    outcome, steps = map(count, words[1:3])
    listing = Listing(records, outcome, steps, of_pattern(words[3]))
    refused = listing.refused()
    if refused and outcome != refused.status:
        raise ValueError(f"the outcome is {outcome}, and surface {refused.number} was refused with {refused.status}")
    if not refused and outcome not in (NOT_ENDED, DONE):
        raise ValueError(f"the outcome is {outcome}, and no surface was refused")
    made = sum(record.steps for record in records)
    # steps on a surface that is not finished are in no record
    if steps < made or (steps > made and outcome != NOT_ENDED):
        raise ValueError(f"the end tells {steps} steps, and the records add up to {made}")
    if not math.isfinite(listing.path):
        raise ValueError("the path is not finite")
    if not listing.hits() and pattern(listing.path) != pattern(0.0):
        raise ValueError(f"the path is {numeral(listing.path)}, and no surface was hit")
    return listing
