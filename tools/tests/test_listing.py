import unittest

from trying import END_LINE as END, HIT_LINE as HIT, MISSED_LINE as MISSED, VIGNETTED_LINE as VIGNETTED
from trying import ZERO, Refusing, refusal_by
from listing import BadListing, read
from numerals import pattern

ONE = pattern(1.0)


class Read(Refusing, unittest.TestCase):
    def test_document_01s_example(self):
        listing = read(f"{HIT}\n{END}\n")
        hit, = listing.records
        self.assertEqual((hit.number, hit.status, hit.steps, hit.t, hit.front), (0, 1, 1, 5.0, True))
        self.assertEqual((hit.point, hit.normal, hit.direction), ((0, 0, 0), (0, 0, -1), (0, 0, 1)))
        self.assertEqual((listing.outcome, listing.steps, listing.path), (1, 1, 5.0))

    def test_refusals_of_surfaces(self):
        missed = read(f"{HIT}\n{MISSED}\nend 6 4 {pattern(5.0)}\n").refused()
        self.assertEqual((missed.status, missed.steps, missed.t, missed.r), (6, 3, None, None))
        vignetted = read(f"{HIT}\n{VIGNETTED}\nend 7 2 {pattern(5.0)}").refused()
        self.assertEqual((vignetted.r, vignetted.limit, vignetted.point), (12.0, 10.0, None))

    def test_refused_start_and_no_surfaces(self):
        listing = read("refused 3 60\n")
        self.assertEqual((listing.is_start_refused(), listing.outcome, listing.place), (True, 3, 60))
        self.assertEqual(read(f"end 1 0 {ZERO}\n").records, [])

    def test_lines_that_are_not_tracelists(self):
        for line, reason, text in (
            (1, "breaks off", ""),
            (2, "breaks off", f"{HIT}\n"),
            (1, "an empty line", f"\n{END}\n"),
            (3, "has ended with 'end'", f"{HIT}\n{END}\n\n"),
            (2, "has ended with 'refused'", "refused 3 60\nrefused 3 60\n"),
            (1, "1 word, and not the 14 of number", "\0\n"),
            (1, "15 words, and not the 14", f"{HIT} {ONE}\n"),
            (1, "'x' is no count", HIT.replace("0 1 1", "x 1 1", 1)),
            (1, "'-0' is no count", HIT.replace("0 1 1", "-0 1 1", 1)),
            (1, "surface 1 stands where surface 0 is due", HIT.replace("0 1 1", "1 1 1", 1)),
            (1, "no surface ends with 3", HIT.replace("0 1 1", "0 3 1", 1)),
            (1, "no surface ends with 0", HIT.replace("0 1 1", "0 0 1", 1)),
            (1, "at least one step", HIT.replace("0 1 1", "0 1 0", 1)),
            (1, "is not a pattern of 16 hex digits", HIT[:-1]),
            (1, "the front face is 0.5", HIT[:-16] + pattern(0.5)),
            (1, "not finite", HIT.replace(ONE, "7FF0000000000000")),
            (1, "a slot that it leaves blank is not 0", HIT.replace("0 1 1", "0 6 1", 1)),
            (2, "a slot that it leaves blank is not 0", f"{HIT}\n{MISSED[:-16]}8000000000000000"),
            (2, "r 10 is not beyond the limit 10", f"{HIT}\n{VIGNETTED.replace(pattern(12.0), pattern(10.0))}"),
            (3, "surface 1 was refused", f"{HIT}\n{MISSED}\n{MISSED.replace('1 6', '2 6')}"),
            (2, "3 words, and not the 4 of end", f"{HIT}\nend 1 1"),
            (2, "the outcome is 6, and no surface was refused", f"{HIT}\nend 6 1 {pattern(5.0)}"),
            (3, "the outcome is 1, and surface 1 was refused with 6", f"{HIT}\n{MISSED}\nend 1 4 {pattern(5.0)}"),
            (2, "the end tells 2 steps, and the records add up to 1", f"{HIT}\nend 1 2 {pattern(5.0)}"),
            (2, "the end tells 0 steps, and the records add up to 1", f"{HIT}\nend 0 0 {pattern(5.0)}"),
            (2, "the path is not finite", f"{HIT}\nend 1 1 7FF0000000000000"),
            (1, "the path is 5, and no surface was hit", f"end 0 0 {pattern(5.0)}"),
            (2, "a start that was refused has no records", f"{HIT}\nrefused 3 60"),
            (1, "no start is refused with 6", "refused 6 60"),
            (1, "2 words, and not the 3 of refused", "refused 3"),
        ):
            self.assert_told(refusal_by(BadListing, read, text), line, reason)

    def test_a_trace_that_goes_on(self):
        self.assertEqual(read(f"{HIT}\nend 0 3 {pattern(5.0)}").steps, 3)


if __name__ == "__main__":
    unittest.main()
