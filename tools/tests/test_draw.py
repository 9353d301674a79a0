import unittest
import xml.etree.ElementTree as ElementTree
from functools import lru_cache

from trying import LISTINGS, NAMES, NO_RADIUS, SAMPLES, ZERO, Refusing, ran, refused_at_first
from labels import ABOVE, Labels, box
from listing import read as read_listing
from numerals import pattern
from picture import BEAM, DASHES, PALE, REFUSED, Picture, rounded_up
from prescription import read

SVG = "{http://www.w3.org/2000/svg}"
RAY = "ray x=12 y=0 z=-5 dx=0 dy=0 dz=1 index=1\n"
PLANE = "conic vertex=0 index=2 c=0 k=0 semi=10\n"
VIGNETTED = refused_at_first(7, 12.0, 10.0)


def drawn(recipe, listing=None, title="lens"):
    picture = Picture(read(recipe).prescription, None if listing is None else read_listing(listing), title)
    return ElementTree.fromstring(picture.svg()) if picture.is_drawable() else None


@lru_cache(maxsize=None)
def sample(name):
    return drawn((SAMPLES / f"{name}.txt").read_text(), (LISTINGS / name).read_text())


def texts(root):
    return [one.text for one in root.iter(SVG + "text")]


def lines(root, colour, dash=None):
    """The paths of a section's lines, those of the legend left out by their length."""
    found = [(points_of(one), one.get("stroke"), one.get("stroke-dasharray")) for one in root.iter(SVG + "path")]
    return [points for points, *style in found if style == [colour, dash] and spread(points) > 27]


def points_of(element):
    numbers = [float(word) for word in element.get("d").replace("M", "").replace("L", "").replace("Z", "").split()]
    return list(zip(numbers[::2], numbers[1::2]))


def spread(points):
    return max(max(axis) - min(axis) for axis in zip(*points))


class Draw(unittest.TestCase):
    def test_samples(self):
        for name in NAMES:
            root = sample(name)
            count = (LISTINGS / name).read_text().count("\n") - 1
            told = texts(root)
            self.assertIn(f"done: {count} of {count} surfaces hit", told[1])
            for number in range(count):
                self.assertEqual(told.count(str(number)), 2, f"{name}: {number}")
            beams = lines(root, BEAM)
            self.assertEqual([len(points) for points in beams], [count + 1] * 2)
            self.assertEqual(lines(root, BEAM, DASHES) + lines(root, REFUSED), [])

    def test_all_is_within_the_picture(self):
        for name in (*NAMES, "lost"):
            root = sample(name)
            width, height = float(root.get("width")), float(root.get("height"))
            for element in root.iter(SVG + "path"):
                for x, y in points_of(element):
                    self.assertTrue(0 <= x <= width and 0 <= y <= height, (name, x, y))

    def test_labels_stand_apart(self):
        """Numbers and refusals, which are those that have their middles given."""
        small = drawn(RAY + PLANE.replace("semi=10", "semi=11.9"), VIGNETTED.replace(pattern(10.0), pattern(11.9)))
        for root in (*map(sample, (*NAMES, "lost")), small):
            labels = [one for one in root.iter(SVG + "text") if one.get("text-anchor") == "middle"]
            boxes = [box(one.text, (float(one.get("x")), float(one.get("y")) - 4)) for one in labels]
            self.assertEqual(sum(map(len, boxes)), len(set().union(*boxes)), texts(root))

    def test_scale_is_the_same_both_ways(self):
        """The doublet's first surface is as tall as its semi-diameter says, by the bar."""
        root = sample("doublet")
        bar = next(spread(points) for points in lines(root, "#1f2937") if len(points) == 6)
        surface = max(points[0][1] - points[-1][1] for points in lines(root, "#1f2937") if len(points) > 6)
        self.assertAlmostEqual(surface / bar, 2 * 12.7 / 20, 2)

    def test_a_cone_has_its_tip(self):
        """It goes straight from the rim to the vertex and back."""
        root = drawn("odd vertex=0 index=1 c=0 k=0 semi=4 b1=0.5\n")
        sections = [points for points in lines(root, "#1f2937") if len(points) > 6]
        self.assertEqual(len(sections), 2)
        for points in sections:
            (rim, bottom), (tip, middle), (last, top) = points[0], points[len(points) // 2], points[-1]
            self.assertEqual((last, (bottom + top) / 2), (rim, middle))
            self.assertAlmostEqual((rim - tip) / (middle - top), 0.5, 2)

    def test_lost(self):
        root = sample("lost")
        self.assertEqual(len(lines(root, BEAM, DASHES)), 2)
        self.assertEqual([len(points) for points in lines(root, BEAM)], [3, 3])
        self.assertEqual(len(lines(root, REFUSED)), 2)
        self.assertEqual(texts(root).count("6 (missed)"), 2)
        self.assertGreaterEqual(len(lines(root, PALE)), 2)

    def test_vignetted_is_marked_where_the_surface_would_be(self):
        root = drawn(RAY + PLANE, VIGNETTED)
        refused = "refused at surface 0 with 7 (vignetted), r 12 mm, semi-diameter 10 mm"
        self.assertIn(f"{refused}; 0 of 1 surfaces hit, optical path 0 mm", texts(root))
        (start, end), _ = lines(root, BEAM, DASHES)
        plane = lines(root, REFUSED)[0]
        self.assertAlmostEqual(end[0], plane[0][0], -1)

    def test_refused_starts(self):
        root = drawn(RAY + PLANE + PLANE.replace("semi=", "semi=-").replace("vertex=0", "vertex=3"), "refused 3 104\n")
        negative = "3 (negative semi-diameter of a conic)"
        self.assertIn(f"refused at the start with {negative}, for surface 1: nothing is traced", texts(root))
        self.assertEqual(texts(root).count(negative), 2)
        self.assertIn("for the ray", texts(drawn(RAY.replace("x=12", "x=inf") + PLANE, "refused 2 0\n"))[1])
        self.assertIn("4 (singular)", texts(drawn(RAY.replace("index=1", "index=0") + PLANE, "refused 4 0\n")))

    def test_without_a_listing(self):
        root = drawn((SAMPLES / "phone.txt").read_text())
        self.assertEqual((len(lines(root, BEAM, DASHES)), lines(root, BEAM)), (2, []))
        self.assertEqual(texts(drawn(PLANE))[1], "not traced")

    def test_not_ended(self):
        root = drawn(RAY + PLANE, f"end 0 0 {ZERO}\n")
        self.assertIn("not ended: 0 of 1 surfaces hit", texts(root)[1])
        self.assertEqual(len(lines(root, BEAM, DASHES)), 2)

    def test_extremes(self):
        many = RAY + "".join(f"conic vertex={20 * i} index=1.5 c=0.005 k=0 semi=20\n" for i in range(50))
        self.assertIn("100 mm; heights are drawn 5 times larger", texts(drawn(many)))
        self.assertIsNone(drawn(""))
        self.assertIsNone(drawn(PLANE.replace("semi=10", "semi=1e300")))
        self.assertIsNone(drawn(PLANE.replace("semi=10", "semi=inf")))
        self.assertIsNotNone(drawn(PLANE.replace("semi=10", "semi=0")))
        self.assertIsNotNone(drawn(RAY.replace("dz=1", "dz=0") + PLANE))

    def test_a_toroid_without_a_radius_is_not_drawn(self):
        toroid = "toroid vertex=3 index=1 rx=0 cy=0.05 ky=0 semi=10\n"
        self.assertIsNone(drawn(toroid))
        root = drawn(PLANE + toroid)
        self.assertEqual(texts(root)[2], f"surface 1 is not drawn: {NO_RADIUS}")
        self.assertEqual((texts(root).count("0"), texts(root).count("1")), (2, 0))
        self.assertEqual(texts(drawn(PLANE))[2], "Section x = 0: y upwards, z to the right")

    def test_an_index_that_is_no_number_is_no_glass(self):
        for index in ("nan:7FF8000000000000", "inf"):
            dark = PLANE.replace("index=2", f"index={index}")
            back = "mirror conic vertex=9 index=1 c=0 k=0 semi=10\nconic vertex=3 index=1 c=0 k=0 semi=10\n"
            self.assertNotIn("glass", texts(drawn(dark + back)))

    def test_titles(self):
        for title in ("a < b & c", "\0\x1b\udc80", "π"):
            self.assertIsNotNone(drawn(PLANE, title=title))

    def test_labels(self):
        labels = Labels(0, 200)
        labels.take_line([(100, 0), (100, 80)])
        feet = [labels.place("12", (100, 90), ABOVE) for _ in range(3)]
        self.assertEqual(len(set(feet)), 3)

    def test_round_numbers(self):
        for x, y in ((1, 1), (1.1, 2), (3, 5), (5.1, 10), (21.3, 50), (0.03, 0.05), (1000, 1000)):
            self.assertAlmostEqual(rounded_up(x), y)


class Tool(Refusing, unittest.TestCase):
    def test_bytes_and_text_are_the_same_picture(self):
        options = ["--title", "doublet"]
        done = ran("draw", SAMPLES / "doublet", LISTINGS / "doublet", *options)
        self.assertEqual(done.status, 0)
        listing = (LISTINGS / "doublet").read_bytes()
        self.assertEqual(ran("draw", SAMPLES / "doublet.txt", "-", *options, given=listing).out, done.out)
        self.assertEqual(ElementTree.fromstring(done.out).find(SVG + "title").text, "doublet")

    def test_refusals(self):
        self.assert_refused(ran("draw", "-"), "standard input: nothing to draw")
        self.assert_refused(ran("draw", SAMPLES), "Is a directory")
        self.assert_refused(ran("draw", "-", given=b"cone"), "standard input:1: 'cone' is no kind")
        self.assert_refused(ran("draw", "-", given=b"\x2a\0\7\0"), "standard input: byte 0: surface 0: cut short")
        self.assert_refused(ran("draw", "-", given=b"\xff\xff"), "standard input:1: not text in UTF-8")
        self.assert_refused(ran("draw", SAMPLES / "doublet", "-", given=b"end\n"), "standard input:1: 1 word,")
        self.assert_refused(ran("draw", SAMPLES / "toroid", LISTINGS / "doublet"), "this is no listing of")
        toroid = b"toroid vertex=3 index=1 rx=0 cy=0.05 ky=0 semi=10"
        self.assert_refused(ran("draw", "-", given=toroid), "nothing to draw: surface 0 is not drawn: rx is 0")

    def test_usage(self):
        self.assertEqual(ran("draw", "-", "-").status, 2)
        self.assertIn(b"LISTING", ran("draw", "--help").out)


if __name__ == "__main__":
    unittest.main()
