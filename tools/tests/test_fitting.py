import unittest

from trying import CRATES, END_LINE, HIT_LINE, LISTINGS, MISSED_LINE, NAMES, SAMPLES, VIGNETTED_LINE, ZERO
from trying import Refusing, refusal_by, refused_at_first
from fitting import hold
from listing import BadListing, Listing, hit, read, refusal as refused_record
from numerals import bits_of, of_bits, of_pattern, pattern
from prescription import read as read_text
from records import SHAPES, Surface, bytes_of, file, parsed
from table import HIT

ALL = (*NAMES, "lost")
PLANE = "conic vertex=0 index=2 c=0 k=0 semi=10\n"
RAY = "ray x=0 y=0 z=-5 dx=0 dy=0 dz=1 index=1\n"
# the even asphere of SCOPE E5, hit after 2 steps
EVEN = "ray x=4 y=0 z=-1 dx=0 dy=0 dz=1 index=1\neven vertex=0 index=1 c=0 k=0 semi=5 a1=0.125\n"
EVEN_LISTING = (
    "0 1 2 4008000000000000 4010000000000000 0000000000000000 4000000000000000 3FE6A09E667F3BCC 0000000000000000 "
    "BFE6A09E667F3BCC 0000000000000000 0000000000000000 3FF0000000000000 3FF0000000000000\nend 1 2 4008000000000000\n"
)
# and one whose last move was small, hit beyond its semi-diameter
BEYOND = "ray x=0 y=0 z=0x1p-30 dx=0x1p50 dy=0 dz=0x1p20 index=1\neven vertex=0 index=1 c=0 k=0 semi=0.5\n"
BEYOND_LISTING = (
    "0 1 1 BCD0000000000000 BFF0000000000000 0000000000000000 0000000000000000 8000000000000000 0000000000000000 "
    "BFF0000000000000 3FF0000000000000 0000000000000000 0000000000000000 3FF0000000000000\nend 1 1 BFF0000000000000\n"
)


def prescription(text):
    return read_text(text).prescription


def lens_of(name):
    return prescription((SAMPLES / f"{name}.txt").read_text())


def listing_of(name):
    return read((LISTINGS / name).read_text())


def refusal(listing, traced):
    return refusal_by(BadListing, hold, read(listing) if isinstance(listing, str) else listing, traced)


def by_a_thousandth(x):
    return x * 1.001 if x else 0.001


def changed_lenses(lens):
    """Each number of a lens changed by 1 in 1,000: whether that changes what a beam does there, and the lens."""
    for i in range(len(lens.ray)):
        yield True, lens._replace(ray=[by_a_thousandth(x) if i == j else x for j, x in enumerate(lens.ray)])
    for i, one in enumerate(lens.surfaces):
        names = ["vertex", "index", *SHAPES[one.kind].names, *SHAPES[one.kind].coefficients]
        numbers = [one.vertex, one.index, *one.numbers]
        for at, (name, _) in enumerate(zip(names, numbers)):
            vertex, index, *own = [by_a_thousandth(x) if j == at else x for j, x in enumerate(numbers)]
            is_plane = one.kind == "conic" and one.named()["c"] == 0
            matters = not (name == "semi" or name == "k" and is_plane or name == "index" and one.mirror)
            other = Surface(one.kind, vertex, index, own, one.mirror)
            yield matters, lens._replace(surfaces=[*lens.surfaces[:i], other, *lens.surfaces[i + 1 :]])


def next_up(x):
    """The next pattern, away from 0."""
    return of_bits(bits_of(x) + 1)


def other_slots(slots):
    """The slots with each in turn another, by a bit; the last is the front face."""
    others = [*map(next_up, slots[:-1]), 1 - slots[-1]]
    return [[*slots[:i], other, *slots[i + 1 :]] for i, other in enumerate(others)]


class Samples(Refusing, unittest.TestCase):
    def test_they_fit(self):
        for name in ALL:
            hold(listing_of(name), lens_of(name))

    def test_every_lens_that_traces_otherwise(self):
        """337 of them, as tracing each one showed. The lost beam comes to two surfaces alone."""
        refused = dict.fromkeys(ALL, 0)
        for name in ALL:
            lens, listing = lens_of(name), listing_of(name)
            for at, (matters, other) in enumerate(changed_lenses(lens)):
                is_unmet = name == "lost" and at >= len(lens.ray) + 5 * 2
                self.assertEqual(refusal(listing, other) is not None, matters and not is_unmet, (name, at))
                refused[name] += refusal(listing, other) is not None
        due = {"doublet": 22, "phone": 160, "mirrors": 31, "toroid": 31, "cover": 56, "lost": 15, "pointer": 22}
        self.assertEqual(refused, due)

    def test_every_number_of_a_hit(self):
        for name in ALL:
            lens, listing = lens_of(name), listing_of(name)
            for at, record in enumerate(listing.hits()):
                others = [hit(at, record.steps, record.line, slots) for slots in other_slots(record.slots())]
                for other in [*others, record._replace(steps=record.steps + 1)]:
                    records = [*listing.records[:at], other, *listing.records[at + 1 :]]
                    self.assertIsNotNone(refusal(listing._replace(records=records), lens), (name, other))

    def test_the_slip_is_mended_and_the_lens_not_traced_again(self):
        mended = prescription((SAMPLES / "lost.txt").read_text().replace("vertex=-6.5", "vertex=6.5"))
        told = refusal(listing_of("lost"), mended)
        self.assert_told(told, 3, "surface 2: the listing has a refusal with 6 (missed), and lens and ray a hit")


class Traces(unittest.TestCase):
    def test_the_gates_records_fit(self):
        """Of traces that the program `scans` started and carried on, edges and hostile numbers among them."""
        held = 0
        for lens, listing in traces():
            hold(listing, lens)
            held += len(listing.records)
        self.assertGreater(held, 80)


def traces():
    """What the gate's script had traced after each reply, up to the first line that cannot be read: the lens, and the
    records as a listing."""
    replies = iter((CRATES / "scans" / "stdout").read_text().split("\n"))
    reply, recipe, lens = next(replies), b"", None
    for line in (CRATES / "scans" / "stdin").read_text().split("\n"):
        if reply == "?":
            return
        word, *operands = line.split()
        if word == "recipe":
            recipe = bytes.fromhex("".join(operands))
        if word not in ("start", "continue"):
            # a new recipe, room or state is another trace's until a start
            lens = None
            continue
        is_accepted, records = reply.split()[1] == "1", []
        *_, path, steps, outcome = next(replies).split()
        reply = next(replies)
        while reply.split()[0] in ("record", "tail"):
            records += [reply.split()[2:]] if reply.startswith("record") else []
            reply = next(replies)
        if word == "start":
            lens = parsed(bytes_of(0, list(map(of_pattern, operands))) + recipe)
        if lens is not None and is_accepted:
            made = [record_of(i, list(map(of_pattern, numbers))) for i, numbers in enumerate(records)]
            yield lens, Listing(made, int(outcome), int(steps), of_pattern(path))


def record_of(number, row):
    status, slots, steps, line = int(row[0]), row[1:12], int(row[12]), number + 1
    return hit(number, steps, line, slots) if status == HIT else refused_record(number, status, steps, line, slots)


class Held(Refusing, unittest.TestCase):
    def test_listings_of_other_recipes(self):
        even, small = "even vertex=1 index=1 c=0 k=0 semi=9\n", "conic vertex=1 index=1 c=0 k=0 semi=9\n"
        behind = small.replace("vertex=1", "vertex=-1")
        done, missed = f"{HIT_LINE}\n{END_LINE}", f"{HIT_LINE}\n{MISSED_LINE}\nend 6 4 {pattern(5.0)}"
        vignetted = missed.replace(MISSED_LINE, VIGNETTED_LINE).replace("end 6 4", "end 7 2")
        dark, negative = PLANE.replace("index=2", "index=0"), PLANE.replace("semi=", "semi=-")
        malformed, singular = "10 (malformed recipe) at byte 0", "4 (singular) at byte 60"
        refused = "a refusal with {}, and lens and ray".format
        for text, recipe, line, reason in (
            (done, PLANE, 1, f"the listing has a trace, and the recipe a start refused with {malformed}"),
            (done, RAY, 1, "surface 0, and the recipe has 0"),
            (done, RAY + PLANE * 2, 2, "done, with 1 surface of the recipe left"),
            (done, RAY + dark, 1, f"and the recipe a start refused with {singular}"),
            (missed, RAY + PLANE + small, 2, f"surface 1: the listing has {refused('6 (missed)')} a hit"),
            (missed, RAY + PLANE + behind, 2, "surface 1: the listing has 3 steps, and lens and ray 1"),
            (vignetted, RAY + PLANE * 2, 2, f"surface 1: the listing has {refused('7 (vignetted)')} a hit"),
            (f"{HIT_LINE}\nend 0 1 {pattern(5.0)}", RAY + PLANE, 2, "not ended, after as many steps as end"),
            (f"{HIT_LINE}\nend 0 26 {pattern(5.0)}", RAY + PLANE + even, 2, "not ended, after as many steps as end"),
            ("refused 3 60", RAY + PLANE, 1, "at byte 60, and the recipe a trace"),
            ("refused 3 60", RAY + PLANE + negative, 1, "(negative semi-diameter of a conic) at byte 104"),
            ("refused 10 60", PLANE, 1, f"the recipe a start refused with {malformed}"),
        ):
            self.assert_told(refusal(text, prescription(recipe)), line, reason)
        self.assertIsNone(refusal(f"{HIT_LINE}\nend 0 25 {pattern(5.0)}", prescription(RAY + PLANE + even)))
        self.assertIsNone(refusal("refused 10 0", prescription(PLANE)))
        self.assertIsNone(refusal("refused 2 0", prescription(RAY.replace("x=0", "x=inf") + PLANE)))

    def test_a_conic_that_was_changed(self):
        done = f"{HIT_LINE}\n{END_LINE}"
        for old, new, reason in (
            ("z=-5", "z=-4", "t is 5 in the listing, and 4 by lens and ray"),
            ("z=-5", "z=5", "the listing has a hit, and lens and ray a refusal with 6 (missed)"),
            ("semi=10", "semi=0", None),
            (" x=0", " x=11", "the listing has a hit, and lens and ray a refusal with 7 (vignetted)"),
            (" x=0", " x=1", "point x is 0 in the listing, and 1 by lens and ray"),
            ("conic", "mirror conic", "new direction z is 1 in the listing, and -1 by lens and ray"),
        ):
            self.assert_reason(refusal(done, prescription((RAY + PLANE).replace(old, new))), reason)

    def test_path(self):
        """It has the index before a surface, and before the first the length of the ray's direction."""
        long, half = RAY.replace("dz=1", "dz=2"), HIT_LINE.replace(pattern(5.0), pattern(2.5))
        for hit_line, ray, path in ((HIT_LINE, RAY.replace("index=1", "index=1.5"), 7.5), (half, long, 5.0)):
            self.assertIsNone(refusal(f"{hit_line}\nend 1 1 {pattern(path)}", prescription(ray + PLANE)))
            told = refusal(f"{hit_line}\nend 1 1 {pattern(2.5)}", prescription(ray + PLANE))
            self.assert_told(told, 2, f"the path is 2.5 in the listing, and {path:g} by lens and ray")

    def test_a_search_that_was_changed(self):
        """A smaller semi-diameter ends it at the hit, or in a pass before."""
        for old, new, reason in (
            ("semi=5", "semi=4", None),
            ("semi=5", "semi=3.9", "the listing has a hit, and lens and ray a refusal with 7 (vignetted)"),
            ("semi=5", "semi=2", "the listing has a hit, and lens and ray a refusal with 6 (missed)"),
            ("a1=0.125", "a1=0.25", "t is 3 in the listing, and 5 by lens and ray"),
            ("vertex=0", "vertex=0x1p-51", "t is 3 in the listing, and 3.0000000000000004 by lens and ray"),
            ("a1=0.125", "a1=0 a2=0.0078125", "normal x is 0.7071067811865475 in the listing, and 0.8944271909999159"),
            ("even vertex=0 index=1", "even vertex=0 index=1.5", "new direction x is 0 in the listing"),
            ("c=0 k=0 semi=5 a1=0.125", "c=1 k=0 semi=5", "the listing has a hit, and lens and ray a refusal with 6"),
        ):
            self.assert_reason(refusal(EVEN_LISTING, prescription(EVEN.replace(old, new))), reason)
        far, listing = EVEN.replace("dz=1 ", "dz=16 "), EVEN_LISTING.replace(pattern(3.0), pattern(3 / 16), 1)
        self.assert_reason(refusal(listing, prescription(far)), None)
        self.assert_reason(refusal(listing, prescription(far.replace("semi=5", "semi=3.9"))), "the listing has a hit")

    def assert_reason(self, told, reason):
        if reason is None:
            self.assertIsNone(told)
        else:
            self.assert_told(told, 1, f"surface 0: {reason}")

    def test_a_hit_beyond_the_semi_diameter(self):
        """Of an even asphere alone, where the last move was small."""
        self.assertIsNone(refusal(BEYOND_LISTING, prescription(BEYOND)))
        biconic = BEYOND.replace("even vertex=0 index=1 c=0 k=0", "biconic vertex=0 index=1 cx=0 kx=0 cy=0 ky=0")
        for other in (biconic, BEYOND.replace("even", "odd")):
            told = refusal(BEYOND_LISTING.replace("8000000000000000", ZERO), prescription(other))
            self.assert_reason(told, "the listing has a hit, and lens and ray a refusal with 7 (vignetted)")

    def test_refusals(self):
        """By the right number, and a 7 by its own numbers."""
        ray = "ray x=0 y=0 z=-5 dx=0.8 dy=0 dz=0.6 index=2\n"
        for number in (4, 5, 8, 9):
            listing = refused_at_first(number)
            told = refusal(listing, prescription(ray + PLANE.replace("index=2", "index=1")))
            self.assert_reason(told, None if number == 8 else f"the listing has a refusal with {number}")
            self.assert_reason(refusal(listing, prescription(ray + PLANE)), f"the listing has a refusal with {number}")
        aside, listing = RAY.replace(" x=0", " x=12"), refused_at_first(7, 12.0, 10.0)
        self.assertIsNone(refusal(listing, prescription(aside + PLANE)))
        for old, new, reason in (
            ("x=12", "x=12.5", "r is 12 in the listing, and 12.5 by lens and ray"),
            ("semi=10", "semi=9", "limit is 10 in the listing, and 9 by lens and ray"),
            ("semi=10", "semi=12", "the listing has a refusal with 7 (vignetted), and lens and ray a hit"),
        ):
            self.assert_reason(refusal(listing, prescription((aside + PLANE).replace(old, new))), reason)

    def test_malformed(self):
        """A start goes record by record, and asks for the ray last."""
        good, dark, lost = (file(prescription(text)) for text in (
            RAY + PLANE, RAY + PLANE.replace("index=2", "index=0"), RAY.replace("z=-5", "z=inf") + PLANE))
        for data, listing in (
            (good[:-1], "refused 10 60"),
            (good + b"\0", "refused 10 104"),
            (dark + b"\0", "refused 4 60"),
            (lost + b"\0", "refused 10 104"),
            (good[:59], "refused 10 0"),
        ):
            self.assertIsNone(refusal(listing, parsed(data)), listing)
            self.assertIsNotNone(refusal("refused 10 44", parsed(data)))


if __name__ == "__main__":
    unittest.main()
