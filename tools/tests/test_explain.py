import os
import tempfile
import unittest

from trying import LISTINGS, NAMES, SAMPLES, ZERO, Refusing, ran, refused_at_first
from numerals import pattern
from prescription import read
from records import file, record
from table import ENDS, MEANINGS, WHY

VIGNETTED = refused_at_first(7, 12.0, 10.0)
RAY = "ray x=12 y=0 z=-5 dx=0 dy=0 dz=1 index=1\n"
PLANE = "conic vertex=0 index=2 c=0 k=0 semi=10\n"
DARK = PLANE.replace("index=2", "index=0")
ALL_FIT = "Every record is that of the lens and the ray as they stand now.\n"
REFUSAL_FITS = "Every record, the refusal's too, is that of the lens and the ray as they stand now.\n"
NO_RECIPE = "No recipe is given: whether this is of the lens and the ray as they stand now is not known.\n"


def told(listing, *options):
    done = ran("explain", *options, given=listing.encode())
    return done.out.decode() if done.status == 0 else done.err


class Explain(Refusing, unittest.TestCase):
    def setUp(self):
        folder = tempfile.TemporaryDirectory()
        self.addCleanup(folder.cleanup)
        self.folder = folder.name

    def recipe(self, data):
        """As text or bytes."""
        path = os.path.join(self.folder, "recipe")
        with open(path, "wb") as stream:
            stream.write(data.encode() if isinstance(data, str) else data)
        return path

    def test_doublet(self):
        text = ran("explain", LISTINGS / "doublet", "--recipe", SAMPLES / "doublet").out.decode()
        hit = "hit at x 6, y 3, z 0.35959609 mm, 20.3595961 mm after the start, on its front face"
        self.assertTrue(text.startswith(f"Surface 0 (conic): {hit}; 1 step.\n"))
        row = "      1   1 hit      1  3.16462186      5.89651048       2.94825524  3.52210204  25.1596945\n"
        self.assertIn(row, text)
        done = "Done: all 4 surfaces are hit; 4 steps, optical path 127.349074 mm."
        self.assertTrue(text.endswith(f"\n{done}\n\n{ALL_FIT}"))

    def test_samples_without_their_recipes(self):
        for name in NAMES:
            listing = (LISTINGS / name).read_text()
            text = told(listing)
            self.assertEqual(text.count("hit at"), listing.count("\n") - 1)
            self.assertIn("Done: all ", text)
            self.assertIn(" lengths of the ray's direction after the start, on its front face", text)

    def test_path_up_to_a_surface(self):
        """It takes the indices, and the length of the ray's direction, so the recipe."""
        for name, t in (("doublet", "20.3595961"), ("pointer", " 10.179798")):
            text = ran("explain", LISTINGS / name, "--recipe", SAMPLES / name).out.decode()
            row = f"      0   1 hit      1  {t}               6                3  0.35959609  20.3595961\n"
            self.assertIn(row, text)
            self.assertIn("z 0.35959609 mm, 20.3595961 mm after the start", text)
            self.assertIn("4 steps, optical path 127.349074 mm", text)
        self.assertIn("                3  0.35959609     -\n", told((LISTINGS / "doublet").read_text()))

    def test_exact_numbers(self):
        self.assertIn("optical path 127.34907388496008 mm", told((LISTINGS / "doublet").read_text(), "--exact"))

    def test_cover(self):
        text = ran("explain", LISTINGS / "cover", "--recipe", SAMPLES / "cover").out.decode()
        hit = "hit at x 0.4, y -0.389379596, z 0.0649842422 mm, 1.10935859 mm after the start, on its front face"
        self.assertTrue(text.startswith(f"Surface 0 (odd): {hit}; 4 steps.\n"))
        done = "Done: all 5 surfaces are hit; 10 steps, optical path 4.04639952 mm."
        self.assertTrue(text.endswith(f"\n{done}\n\n{ALL_FIT}"))

    def test_lost(self):
        text = ran("explain", LISTINGS / "lost", "--recipe", SAMPLES / "lost.txt").out.decode()
        why = "no point of the surface was found ahead of the beam"
        self.assertIn(f"Surface 2 (conic): refused with 6, missed, after 1 step: {why}.\n", text)
        self.assertIn("      2  6 missed      1           -           -           -           -           -\n", text)
        path = "optical path 25.1596945 mm up to the last hit"
        ended = f"Ended by the refusal at surface 2, with 6 (missed); 3 steps, {path}.\n"
        behind = "The record of surface 3 is blank: nothing of it was measured.\n"
        self.assertTrue(text.endswith(f"{ended}{behind}\n{REFUSAL_FITS}"))

    def test_one_surface(self):
        told_all = ran("explain", LISTINGS / "doublet", "--recipe", SAMPLES / "doublet").out.decode().splitlines()
        for number in range(4):
            one = ran("explain", LISTINGS / "doublet", "--recipe", SAMPLES / "doublet", "--surface", str(number))
            text = one.out.decode()
            self.assertEqual(text.splitlines()[0], told_all[number])
            self.assertEqual(text.count("hit at"), 1)
            self.assertEqual([row.split()[0] for row in text.splitlines() if row.startswith(" ")], [str(number)] * 2)
            self.assertTrue(text.endswith(f"\n\n{ALL_FIT}"))
            self.assertNotIn("Done", text)

    def test_one_surface_of_a_beam_that_was_lost(self):
        lost = (LISTINGS / "lost").read_text()
        ended = "blank. The beam ended at surface 2, with 6 (missed), and did not reach it.\n"
        recipe = ("--recipe", SAMPLES / "lost.txt")
        self.assertTrue(told(lost, "--surface", "2", *recipe).startswith("Surface 2 (conic): refused with 6, missed"))
        self.assertTrue(told(lost, "--surface", "3", *recipe).startswith(f"Surface 3 (conic): {ended}"))
        self.assertTrue(told(lost, "--surface", "9").startswith(f"Surface 9, if there is one: {ended}"))
        running = f"end 0 0 {ZERO}\n"
        yet = "Surface 0, if there is one: blank. Nothing of it is measured yet: 0 surfaces hit so far.\n"
        self.assertTrue(told(running, "--surface", "0").startswith(yet))

    def test_a_surface_that_there_is_not(self):
        for options in ((), ("--recipe", SAMPLES / "doublet")):
            done = ran("explain", LISTINGS / "doublet", "--surface", "4", *options)
            self.assert_refused(done, f"{LISTINGS / 'doublet'}: there is no surface 4")
        for word in ("-1", "1.0", "", "a"):
            self.assertIn("is no number of a surface", ran("explain", f"--surface={word}").err)

    def test_one_surface_of_a_refused_start(self):
        text = told("refused 4 60\n", "--recipe", self.recipe(RAY + DARK), "--surface", "7")
        self.assertTrue(text.startswith("Refused at the start with 4 "))
        self.assertEqual(text, told("refused 4 60\n", "--recipe", self.recipe(RAY + DARK)))

    def test_the_note_stands_with_the_first_surface(self):
        noted = [ran("explain", LISTINGS / "pointer", "--recipe", SAMPLES / "pointer", "--surface", str(number)).out
                 for number in (0, 1)]
        self.assertEqual([b"The ray's direction has the length 2" in out for out in noted], [True, False])

    def test_a_lens_or_ray_that_was_changed(self):
        """The listing is of the lens before, and nothing of it is told or drawn."""
        for name, old, new, said in (
            ("doublet", "vertex=4 ", "vertex=4.004 ", "2: surface 1: t is 3.1646218"),
            ("doublet", " x=6 ", " x=6.006 ", "1: surface 0: t is 20.359596"),
            ("doublet", "index=1.6727", "index=1.6726", "2: surface 1: new direction x is"),
            ("phone", "a3=0.022", "a3=0.0221", "2: surface 1: t is"),
            ("mirrors", "kx=0", "kx=0.001", "4: surface 3: t is"),
            ("cover", "b5=-5e-5", "b5=-6e-5", "2: surface 1: t is"),
            ("toroid", "semi=25", "semi=5", "3: surface 2: the listing has a hit, and lens and ray a refusal with"),
            ("lost", "vertex=-6.5", "vertex=6.5", "3: surface 2: the listing has a refusal with 6 (missed), and lens"),
        ):
            changed = self.recipe((SAMPLES / f"{name}.txt").read_text().replace(old, new))
            for done in (ran("explain", LISTINGS / name, "--recipe", changed), ran("draw", changed, LISTINGS / name)):
                self.assert_refused(done, f"{LISTINGS / name}:{said}")
                self.assertIn(f"this is no listing of {changed} as it stands", done.err)

    def test_what_is_known_of_its_age(self):
        self.assertTrue(told(VIGNETTED, "--recipe", self.recipe(RAY + PLANE)).endswith(REFUSAL_FITS))
        self.assertTrue(told(VIGNETTED).endswith(NO_RECIPE))
        self.assertNotIn("as they stand now", told(f"end 1 0 {ZERO}\n", "--recipe", self.recipe(RAY)))

    def test_a_toroid_without_a_radius(self):
        toroid = "toroid vertex=0 index=2 rx=0 cy=0 ky=0 semi=20\n"
        text = told(refused_at_first(6), "--recipe", self.recipe(RAY + toroid))
        self.assertIn("a cylinder is a biconic with radiusx=inf).\n", text)

    def test_vignetted(self):
        why = "the beam meets it 12 mm from the axis, and its semi-diameter is 10 mm"
        self.assertIn(f"Surface 0: refused with 7, vignetted, after 1 step: {why}.\n", told(VIGNETTED))
        self.assertIn("The records after it are blank: nothing of them was measured.\n", told(VIGNETTED))
        blank = "The records of surfaces 1 to 3 are blank: nothing of them was measured."
        for surfaces, said in ((1, "No surface comes after it."), (4, blank)):
            self.assertIn(said, told(VIGNETTED, "--recipe", self.recipe(RAY + PLANE * surfaces)))
        far = VIGNETTED.replace(pattern(12.0), "7FF0000000000000")
        self.assertIn("farther from the axis than the largest number", told(far))

    def test_every_refusal_has_a_reason(self):
        for number in ENDS:
            if number != 7:
                said = f"refused with {number}, {MEANINGS[number]}, after 1 step: {WHY[number]}.\n"
                self.assertIn(said, told(refused_at_first(number)))

    def test_not_ended(self):
        text = told(f"end 0 3 {ZERO}\n")
        self.assertEqual(text, "Not ended: 0 surfaces hit so far; 3 steps, optical path 0 mm.\n"
                               "From surface 0 on the records are blank: nothing of them is measured yet.\n"
                               f"\n{NO_RECIPE}")

    def test_no_surfaces(self):
        done = "Done: the recipe has no surface; 0 steps, optical path 0 mm.\n"
        self.assertEqual(told(f"end 1 0 {ZERO}\n"), f"{done}\n{NO_RECIPE}")

    def test_a_direction_of_another_length(self):
        """It is told where there is a first t."""
        counts = "t of surface 0 counts in these lengths, and the path in mm"
        text = ran("explain", LISTINGS / "pointer", "--recipe", SAMPLES / "pointer").out.decode()
        self.assertIn(f"The ray's direction has the length 2: {counts}.\n", text)
        refused = told(VIGNETTED, "--recipe", self.recipe(RAY.replace("dz=1", "dz=2") + PLANE))
        self.assertIn(REFUSAL_FITS, refused)
        self.assertNotIn("The ray's direction", refused)

    def test_refused_starts(self):
        nothing = "Nothing was traced: every record is blank.\n"
        self.assertEqual(told("refused 3 60\n"), "Refused at the start with 3 (negative semi-diameter of a conic), "
                                                 f"at the record that begins at byte 60.\n{nothing}")
        self.assertIn("for the ray or its starting index", told("refused 4 0\n"))
        negative = PLANE.replace("semi=", "semi=-")
        texts = (RAY + PLANE, RAY + DARK + PLANE, PLANE + PLANE)
        cut, dark, rayless = (file(read(text).prescription)[:-1] for text in texts)
        long = file(read(RAY).prescription) + record("odd", 0, 1, [0] * 19) * 380 + record("biconic", 0, 1, [0] * 5) * 3
        for listing, recipe, said in (
            ("refused 3 60\n", RAY + negative, "Surface 0 (conic): the semi-diameter is negative.\n"),
            ("refused 4 0\n", RAY.replace("index=1", "index=-1"), "The ray: the index is not above 0.\n"),
            ("refused 10 0\n", PLANE, "The recipe has no ray.\n"),
            ("refused 10 60\n", cut, "Surface 0: cut short: 43 of the record's 44 bytes.\n"),
            ("refused 4 60\n", dark, "Surface 0 (conic): the index is not above 0.\n"),
            ("refused 10 0\n", b"\x3a\0\0\0", "Cut short: 4 of the record's 60 bytes.\n"),
            ("refused 10 0\n", rayless, "The recipe has no ray.\n"),
            ("refused 10 65540\n", long, "Surface 382: a recipe has at most 65536 bytes"),
        ):
            text = told(listing, "--recipe", self.recipe(recipe))
            self.assertIn(said, text)
            self.assertTrue(text.endswith(nothing))

    def test_refusals(self):
        self.assert_refused(ran("explain"), "standard input:1: the listing breaks off")
        self.assert_refused(ran("explain", given=b"end 1 0\n"), "standard input:1: 3 words")
        self.assert_refused(ran("explain", given=b"\xff\xfe\0"), "standard input:1: not text in UTF-8")
        self.assert_refused(ran("explain", SAMPLES), "Is a directory")
        other = ran("explain", LISTINGS / "doublet", "--recipe", SAMPLES / "toroid")
        unlike = "surface 0: t is 20.359596090424287 in the listing, and 10.97"
        self.assert_refused(other, f"{LISTINGS / 'doublet'}:1: {unlike}")
        cone = ran("explain", "--recipe", self.recipe("cone"), given=b"refused 3 60\n")
        self.assert_refused(cone, "recipe:1: 'cone' is no kind")
        cut = ran("explain", "--recipe", self.recipe(b"\0"), given=VIGNETTED.encode())
        self.assert_refused(cut, "this is no listing of")
        self.assertEqual(ran("explain", "--recipe", "-").status, 2)

    def test_usage(self):
        self.assertIn(b"--recipe FILE", ran("explain", "--help").out)


if __name__ == "__main__":
    unittest.main()
