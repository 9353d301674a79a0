import random
import struct
import unittest

import trying
from numerals import number, numeral, of_pattern, pattern
from prescription import BadText, read, written
from records import Prescription, Surface, bytes_of, faults, file, file_places, parsed, record, slip

PLANE = "conic vertex=0 index=1.5 c=0 k=0 semi=10"
EVEN = "even vertex=0 index=1 c=0 k=0 semi=1"
ODD = "odd vertex=0 index=1 c=0 k=0 semi=1"
BICONIC = "biconic vertex=0 index=1 cx=0 kx=0 cy=0 ky=0 semi=1"
TERMS = "a1, a2, a3, a4, a5, a6, a7, a8, b1, b2, b3, b4, b5, b6, b7, b8"
RAY = "ray x=0 y=0 z=-5 dx=0 dy=0 dz=1 index=1"


def surface(line):
    return read(line).prescription.surfaces[0]


def refusal(text):
    return trying.refusal_by(BadText, read, text)


class Numbers(unittest.TestCase):
    def test_each_way_of_writing(self):
        decimals = (("6", 6.0), ("+.5", 0.5), ("1.e-3", 0.001))
        others = (("0x1.8p-3", 0.1875), ("-0X.8P1", -1.0), ("inf", float("inf")))
        for text, x in (*decimals, *others):
            self.assertEqual(number(text), x)
        self.assertEqual(pattern(number("-0")), "8000000000000000")
        self.assertEqual(pattern(number("nan:FFF0000000000001")), "FFF0000000000001")

    def test_what_is_no_number(self):
        for text in ("", ".", "1,5", "1_0", "0x3FF0000000000000", "0x1.8", "nan", "NaN", "infinity", "1e999", "١", "1 ",
                     "0x1p1024", "nan:3FF0000000000000", "nan:7FF8", "nan:"):
            with self.assertRaises(ValueError, msg=text):
                number(text)

    def test_any_pattern_goes_forth_and_back(self):
        draw = random.Random(1)
        edges = [0, 1, 1 << 63, 0x7FF0000000000000, 0xFFF0000000000000, 0x7FF0000000000001]
        edges += [0x7FEFFFFFFFFFFFFF, 0x000FFFFFFFFFFFFF]
        for bits in [*edges, *(draw.getrandbits(64) for _ in range(2000))]:
            digits = f"{bits:016X}"
            for hexadecimal in (False, True):
                self.assertEqual(pattern(number(numeral(of_pattern(digits), hexadecimal))), digits)


class Text(trying.Refusing, unittest.TestCase):
    def test_kinds(self):
        self.assertEqual(surface("conic vertex=1 index=2 c=3 k=4 semi=5"), Surface("conic", 1, 2, [3, 4, 5]))
        even = surface("even semi=5 k=4 c=3 index=2 vertex=1 a2=7 a1=6")
        self.assertEqual(even, Surface("even", 1, 2, [3, 4, 5, 6, 7]))
        mirror = surface("mirror biconic vertex=1 index=2 cx=3 kx=4 cy=5 ky=6 semi=7")
        self.assertEqual(mirror, Surface("biconic", 1, 2, [3, 4, 5, 6, 7], True))
        toroid = surface("toroid vertex=1 index=2 rx=3 cy=4 ky=5 semi=6")
        self.assertEqual(toroid, Surface("toroid", 1, 2, [3, 4, 5, 6]))
        odd = surface("odd b8=9 vertex=1 index=2 c=3 k=4 semi=5 a1=6 b1=8 a8=7")
        self.assertEqual(odd, Surface("odd", 1, 2, [3, 4, 5, 6, *[0] * 6, 7, 8, *[0] * 6, 9]))
        self.assertEqual(surface("mirror odd vertex=1 index=2 radius=inf k=4 semi=5").numbers, [0, 4, 5, *[0] * 16])

    def test_a_radius_is_rounded_once(self):
        self.assertEqual(surface("conic vertex=0 index=1 radius=-62.75 k=0 semi=1").numbers[0], -1 / 62.75)
        self.assertEqual(surface("conic vertex=0 index=1 radius=inf k=0 semi=1").numbers[0], 0.0)
        both = surface("biconic vertex=0 index=1 radiusx=3 kx=0 radiusy=7 ky=0 semi=1")
        self.assertEqual(both.numbers[0:3:2], [1 / 3, 1 / 7])

    def test_ray_comments_and_blank_lines(self):
        located = read(f"# one\n\n  {RAY} # two\n\t{PLANE}\n")
        self.assertEqual(located.prescription.ray, [0, 0, -5, 0, 0, 1, 1])
        self.assertEqual((located.line_of(None), located.line_of(0)), (3, 4))
        self.assertEqual(read("").prescription, Prescription(None, []))

    def test_refused_with_line_and_reason(self):
        kinds = "conic, even, biconic, toroid, odd"
        odds = f"{RAY}\n" + f"{ODD}\n" * 380
        nine = " ".join(f"a{i}=0" for i in range(1, 10))
        for text, line, reason in (
            ("cone vertex=0", 1, f"'cone' is no kind: there are {kinds}, ray, and mirror before a kind"),
            ("mirror", 1, f"a mirror's kind is missing, one of {kinds}"),
            ("mirror ray x=0", 1, "'ray' is no kind"),
            (f"\n{PLANE} d=1", 2, "a surface of kind conic has no 'd': it has vertex, index, c, k, semi"),
            (f"{PLANE} k=1", 1, "k is given twice"),
            (f"{PLANE} radius=1", 1, "c and radius are the same number, and both are given"),
            (f"{PLANE} a1=0", 1, "only even and odd aspheres have coefficients"),
            (f"{PLANE} b1=0", 1, "a surface of kind conic has no 'b1': it has vertex, index, c, k, semi"),
            ("conic vertex=0 index=1 c=0 k=0", 1, "semi is missing: a surface of kind conic needs it"),
            ("conic vertex=0 index=1 k=0 semi=1", 1, "c or radius is missing"),
            ("conic vertex=0 index=1 c=1/3 k=0 semi=1", 1, "c: '1/3' is no number"),
            ("conic vertex=0 index=1 c= k=0 semi=1", 1, "c: '' is no number"),
            ("conic vertex=0 index=1 radius=0 k=0 semi=1", 1, "radius: 1/0 is no curvature"),
            ("conic vertex=0 index=1 radius=nan:7FF8000000000000 k=0 semi=1", 1, "is no curvature"),
            ("conic vertex 0", 1, "'vertex' is not of the form name=number"),
            ("conic =0", 1, "'=0' is not of the form name=number"),
            (f"{EVEN} a1=0 a3=0", 1, "a3 is given without a2"),
            (f"{EVEN} a10=0", 1, "a10 is given without a1"),
            (f"{EVEN} a01=0", 1, "has no 'a01'"),
            (f"{EVEN} {nine}", 1, "at most 8 coefficients"),
            (f"{EVEN} b1=0", 1, "a surface of kind even has no 'b1': it has vertex, index, c, k, semi, a1, a2, a3,"),
            (f"{ODD} b9=0", 1, f"a surface of kind odd has no 'b9': it has vertex, index, c, k, semi, {TERMS}"),
            (f"{ODD} a0=0", 1, "has no 'a0'"),
            (f"{ODD} a9=0", 1, "has no 'a9'"),
            (f"{ODD} b01=0", 1, "has no 'b01'"),
            (f"{ODD} b2=0 b2=0", 1, "b2 is given twice"),
            (f"{ODD} b2=", 1, "b2: '' is no number"),
            (f"{ODD} radius=1", 1, "c and radius are the same number, and both are given"),
            ("odd vertex=0 index=1 c=0 k=0 b1=1", 1, "semi is missing: a surface of kind odd needs it"),
            (f"{PLANE}\n{RAY}", 2, "the ray comes before the surfaces"),
            (f"{RAY}\n{RAY}", 2, "there is a ray already, in line 1"),
            ("ray x=0", 1, "y is missing: a ray needs it"),
            (f"{RAY} semi=1", 1, "a ray has no 'semi'"),
            (f"{PLANE}\n" * 513, 513, "at most 512 surfaces"),
            (odds + f"{BICONIC}\n" * 3, 384, "at most 65536 bytes, and with this surface 65540"),
        ):
            self.assert_told(refusal(text), line, reason)
        self.assertIsNone(refusal(f"{RAY}\n" + f"{PLANE}\n" * 512))
        self.assertIsNone(refusal(odds + f"{PLANE}\n" * 4))


class Bytes(unittest.TestCase):
    def test_document_01s_example(self):
        located = read("ray x=0 y=0 z=-5 dx=0 dy=0 dz=1 index=1\nconic vertex=0 index=2 c=0 k=0 semi=10")
        example = struct.pack("<HH7d", 58, 0, 0, 0, -5, 0, 0, 1, 1) + struct.pack("<HH5d", 42, 1, 0, 2, 0, 0, 10)
        self.assertEqual(file(located.prescription), example)
        self.assertEqual(file_places(located.prescription), [60, 104])

    def test_samples(self):
        for name in trying.NAMES:
            data = (trying.SAMPLES / name).read_bytes()
            self.assertEqual(file(read((trying.SAMPLES / f"{name}.txt").read_text()).prescription), data)
            self.assert_goes_back(data)

    def assert_goes_back(self, data):
        for hexadecimal in (False, True):
            self.assertEqual(file(read(written(parsed(data), hexadecimal)).prescription), data)

    def test_any_recipe_goes_back(self):
        draw = random.Random(2)
        for _ in range(200):
            ray = bytes_of(0, [0.0] * 7)[:4] + draw.getrandbits(448).to_bytes(56, "little")
            data = draw.choice([b"", ray])
            for _ in range(draw.randrange(5)):
                kind, count = draw.choice([(1, 5), (2, 5), (2, 9), (2, 13), (3, 7), (4, 6), (5, 21)])
                head = struct.pack("<HH", 2 + 8 * count, kind + 256 * draw.randrange(2))
                data += head + draw.getrandbits(64 * count).to_bytes(8 * count, "little")
            self.assert_goes_back(data)

    def test_an_odd_asphere_goes_back(self):
        """Coefficients that are 0 are left out, and those that are -0 are not."""
        for terms, text in (
            ([0.0] * 16, ""),
            ([-0.0] * 16, "".join(f" {name}=-0" for name in TERMS.split(", "))),
            ([0.0, -0.0, *[0.0] * 5, 1e-300, 0.25, *[0.0] * 6, -5e-324], " a2=-0 a8=1e-300 b1=0.25 b8=-5e-324"),
        ):
            for kind, mirror in ((5, ""), (261, "mirror ")):
                data = bytes_of(kind, [0.0, 1.0, 0.0, 0.0, 1.0, *terms])
                self.assertEqual(written(parsed(data)), f"{mirror}{ODD}{text}\n")
                self.assertEqual(len(data), 172)
                self.assert_goes_back(data)

    def test_bytes_that_are_no_recipe(self):
        plane, ray = record("conic", 0.0, 1.5, [0.0, 0.0, 10.0]), bytes_of(0, [0.0] * 7)
        for data, place, reason in (
            (plane[:3], 0, "cut short: 3 of the 4 bytes"),
            (plane + plane[:43], 44, "surface 1: cut short: 43 of the record's 44 bytes"),
            (ray + plane + b"\0", 104, "cut short"),
            (ray + ray, 60, "there is no kind 0"),
            (bytes_of(0, [0.0] * 6), 0, "a ray's record has 58 bytes after its length, and not 50"),
            (bytes_of(6, [0.0] * 5), 0, "there is no kind 6"),
            (bytes_of(5, [0.0] * 20), 0, "length 162 is not one of kind 5, odd"),
            (bytes_of(5, [0.0] * 22), 0, "length 178 is not one of kind 5, odd"),
            (bytes_of(261, [0.0] * 5), 0, "length 42 is not one of kind 261, odd"),
            (bytes_of(513, [0.0] * 5), 0, "there is no kind 513"),
            (bytes_of(256, [0.0] * 7), 0, "there is no kind 256"),
            (bytes_of(1, [0.0] * 6), 0, "length 50 is not one of kind 1, conic"),
            (bytes_of(2, [0.0] * 14), 0, "length 114 is not one of kind 2, even"),
            (b"\x2b\0\1\0" + b"\0" * 41, 0, "length 43"),
            (plane * 513, 44 * 512, "surface 512: a recipe has at most 512"),
        ):
            wrong = parsed(data).malformed
            self.assertEqual(wrong.place, place)
            self.assertIn(reason, wrong.reason)
        self.assertEqual((len(parsed(plane * 512).surfaces), parsed(plane * 512).malformed), (512, None))

    def test_the_longest_recipe(self):
        """A record that ends past it is malformed, whatever its numbers are; the ray before it does not count."""
        odds = bytes_of(5, [0.0, 1.0, *[0.0] * 19]) * 380
        biconic, lost = (bytes_of(3, [x, 1.0, *[0.0] * 5]) for x in (0.0, float("nan")))
        for ray in (b"", bytes_of(0, [0.0] * 6 + [1.0])):
            longest = parsed(ray + odds + record("conic", 0.0, 1.0, [0.0] * 3) * 4)
            self.assertEqual((len(longest.surfaces), faults(longest)), (384, []))
            for last, said in ((biconic, "ends 4 past them"), (lost, "ends 4 past them"), (biconic[:-1], "cut short")):
                long = parsed(ray + odds + biconic * 2 + last)
                self.assertEqual(long.malformed.place, len(ray) + 65480)
                self.assertEqual([fault[:2] for fault in faults(long)], [(382, 10)])
                self.assertIn(said, long.malformed.reason)
            wrong_kind = parsed(ray + odds + biconic * 2 + bytes_of(9, [0.0] * 7))
            self.assertIn("there is no kind 9", wrong_kind.malformed.reason)

    def test_faults_in_the_order_of_the_checks(self):
        bad = "\n".join((
            "ray x=inf y=0 z=0 dx=0 dy=0 dz=1 index=0",
            "conic vertex=0 index=0 c=0 k=0 semi=-1",
            "toroid vertex=0 index=0 rx=1 cy=0 ky=0 semi=-1",
            "even vertex=0 index=1 c=0 k=0 semi=-1 a1=inf",
            "conic vertex=0 index=-0 c=0 k=0 semi=-0",
        ))
        found = [fault[:2] for fault in faults(read(bad).prescription)]
        self.assertEqual(found, [(0, 3), (1, 2), (2, 2), (3, 4), (None, 2)])
        cut = parsed(file(read(bad).prescription) + b"\0")
        self.assertEqual([fault[:2] for fault in faults(cut)][3:], [(3, 4), (4, 10), (None, 2)])

    def test_what_is_hardly_meant(self):
        for rx, is_hardly_meant in (("0", True), ("-0", True), ("1e-300", False)):
            one = surface(f"toroid vertex=0 index=1 rx={rx} cy=0.1 ky=0 semi=1")
            self.assertEqual("a cylinder is a biconic with radiusx=inf" in (slip(one) or ""), is_hardly_meant)
        self.assertIsNone(slip(surface(PLANE)))


if __name__ == "__main__":
    unittest.main()
