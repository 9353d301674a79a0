import math
import unittest

import trying  # the path to the tools
from prescription import read
from records import SHAPES
from sags import crossing, profile, reach, sag, way_to


def surface(line):
    return read(line).prescription.surfaces[0]


CONIC = surface("conic vertex=10 index=1 c=0.125 k=-1 semi=5")
BALL = surface("conic vertex=0 index=1 c=1 k=0 semi=3")
EVEN = surface("even vertex=0 index=1 c=0 k=0 semi=5 a1=0.125 a2=1")
BICONIC = surface("biconic vertex=0 index=1 cx=0.125 kx=-1 cy=0.25 ky=-1 semi=5")
TOROID = surface("toroid vertex=0 index=1 rx=5 cy=0 ky=0 semi=9")
ODD = surface("odd vertex=2 index=1 c=0 k=0 semi=4 a1=0.125 b1=0.5 b2=1")
TURNED = surface("toroid vertex=0 index=1 rx=-5 cy=0 ky=0 semi=9")


class Sags(unittest.TestCase):
    def test_known_sags(self):
        of_revolution = [(CONIC, 4, 0, 1), (BALL, 0, 1, 1), (EVEN, 0, 2, 16.5), (ODD, 0, 2, 9.5)]
        others = [(BICONIC, 4, 0, 1), (BICONIC, 0, 4, 2), (TOROID, 3, 0, 1), (TURNED, 3, 0, -1), (TOROID, 0, 7, 0)]
        for one, x, y, z in [*of_revolution, *others]:
            self.assertEqual(sag(one, x, y), z)
        self.assertEqual({one.kind for one in (CONIC, EVEN, BICONIC, TOROID, ODD)}, set(SHAPES))

    def test_where_there_is_none(self):
        for one, x, y in ((BALL, 1.01, 0), (TOROID, 5.01, 0), (EVEN, 1e200, 0), (CONIC, math.inf, 0)):
            self.assertIsNone(sag(one, x, y))

    def test_sections(self):
        self.assertEqual(reach(CONIC, 0), 5)
        self.assertAlmostEqual(reach(BALL, 1), 1)
        self.assertAlmostEqual(reach(TOROID, 0), 5)
        self.assertEqual(reach(TOROID, 1), 9)
        points = profile(CONIC, 0)
        self.assertEqual((points[0], points[len(points) // 2]), ((11.5625, -5), (10, 0)))

    def test_a_cone_has_its_tip(self):
        points = profile(surface("odd vertex=2 index=1 c=0 k=0 semi=4 b1=0.5"), 1)
        self.assertEqual([points[0], points[len(points) // 2], points[-1]], [(4, -4), (2, 0), (4, 4)])

    def test_where_surfaces_cross(self):
        lines = (f"conic vertex={z} index=1 radius={r} k=0 semi=4" for z, r in ((0, 5), (1, -5), (9, -5)))
        front, back, apart = map(surface, lines)
        self.assertAlmostEqual(crossing(front, back, 1), math.sqrt(25 - 4.5**2))
        self.assertIsNone(crossing(front, apart, 0))

    def test_way_to_a_surface(self):
        self.assertAlmostEqual(way_to(CONIC, (4, 0, 0), (0, 0, 1), 20), 11, 1)
        self.assertIsNone(way_to(CONIC, (4, 0, 0), (0, 0, -1), 20))
        self.assertIsNone(way_to(BALL, (2, 0, -5), (0, 0, 1), 20))


if __name__ == "__main__":
    unittest.main()
