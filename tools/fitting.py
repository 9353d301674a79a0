"""Whether a listing is of a recipe and its ray as they stand: every record to the bit."""
from listing import BadListing
from numerals import counted, numeral, pattern
from optics import Beam, leg
from records import SHAPES, faults, file_places
from table import DONE, HIT, MALFORMED, NOT_ENDED, told

VECTORS = ("point", "normal", "new direction")
HIT_SLOTS = ("t", *(f"{vector} {axis}" for vector in VECTORS for axis in "xyz"), "front face")


def hold(listing, traced):
    """Refuses a listing that is not of the prescription that was traced."""
    due = start_refusal(traced)
    given = (listing.outcome, listing.place) if listing.is_start_refused() else None
    if given != due:
        raise BadListing(1, f"the listing has {said_of(given)}, and the recipe {said_of(due)}")
    if due is None:
        hold_trace(listing, traced)


def said_of(start_refused):
    if start_refused is None:
        return "a trace"
    number, place = start_refused
    return f"a start refused with {told(number)} at byte {place}"


def start_refusal(traced):
    """What `tracelist` answers instead of a trace: number and place; or None."""
    if traced.ray is None:
        return MALFORMED, 0
    found = faults(traced)
    if not found:
        return None
    first = found[0]
    return first.number, 0 if first.surface is None else file_places(traced)[first.surface]


def hold_trace(listing, traced):
    surfaces, records = traced.surfaces, listing.records
    for record, beam in zip(records, beams(records, traced)):
        number = record.number
        if number >= len(surfaces):
            raise BadListing(record.line, f"surface {number}, and the recipe has {len(surfaces)}")
        unlike = unlikeness(record, *leg(number, surfaces[number], beam))
        if unlike:
            raise BadListing(record.line, f"surface {number}: {unlike}")
    hold_end(listing, surfaces[len(records) :], paths(records, traced)[-1])


def beams(records, traced):
    """The beam before each record, and behind the last one."""
    ray = traced.ray
    beam = Beam(tuple(ray[:3]), tuple(ray[3:6]), ray[6])
    yield beam
    for record in records:
        if record.is_hit():
            surface = traced.surfaces[record.number]
            beam = beam.behind(record.number, surface, record.t, record.point, record.direction)
        yield beam


def paths(records, traced):
    """The path before the first surface, and behind each."""
    return [beam.path for beam in beams(records, traced)]


def unlikeness(record, status, steps, slots):
    """How a record differs from that of the beam that the one before it leaves; or None."""
    if record.status != status:
        return f"the listing has {ended(record.status)}, and lens and ray {ended(status)}"
    names = HIT_SLOTS if status == HIT else ("r", "limit")
    for name, given, due in zip(names, record.slots(), slots):
        if pattern(given) != pattern(due):
            return differs(name, given, due)
    return None if record.steps == steps else f"the listing has {record.steps} steps, and lens and ray {steps}"


def differs(name, given, due):
    return f"{name} is {numeral(given)} in the listing, and {numeral(due)} by lens and ray"


def ended(status):
    return "a hit" if status == HIT else f"a refusal with {told(status)}"


def hold_end(listing, left, path):
    """What may follow the records, with these surfaces left and this path behind the last hit."""
    line, made = len(listing.records) + 1, sum(record.steps for record in listing.records)
    if listing.outcome == DONE and left:
        raise BadListing(line, f"done, with {counted(len(left), 'surface')} of the recipe left")
    if listing.outcome == NOT_ENDED and (not left or listing.steps - made >= SHAPES[left[0].kind].steps):
        raise BadListing(line, "not ended, after as many steps as end the next surface or the recipe")
    if pattern(listing.path) != pattern(path):
        raise BadListing(line, differs("the path", listing.path, path))
