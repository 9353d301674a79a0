import os
import tempfile
import unittest

from trying import NAMES, NO_RADIUS, SAMPLES, Refusing, ran


class Recipe(Refusing, unittest.TestCase):
    def test_forth_and_back(self):
        for name in NAMES:
            data = (SAMPLES / name).read_bytes()
            self.assertEqual(ran("recipe", SAMPLES / f"{name}.txt").out, data)
            for options in (["--back"], ["--back", "--hex"]):
                self.assertEqual(ran("recipe", given=ran("recipe", *options, SAMPLES / name).out).out, data)

    def test_without_a_ray(self):
        text = b"mirror conic vertex=0 index=1 c=0 k=-0 semi=1\n"
        data = ran("recipe", given=text).out
        self.assertEqual((len(data), data[:4]), (44, b"\x2a\0\1\1"))
        self.assertEqual(ran("recipe", "--back", "-", given=data).out, text)

    def test_nothing_is_an_empty_recipe(self):
        for options in ([], ["--back"]):
            done = ran("recipe", *options)
            self.assertEqual((done.status, done.out), (0, b""))
            self.assertEqual(done.err, "standard input: warning: there is no surface: a trace is done at once\n")

    def test_byte_order_mark_and_other_line_ends(self):
        text, data = ((SAMPLES / name).read_bytes() for name in ("doublet.txt", "doublet"))
        for end in (b"\r\n", b"\r"):
            self.assertEqual(ran("recipe", given=b"\xef\xbb\xbf" + text.replace(b"\n", end)).out, data)

    def test_warnings_name_the_refusal(self):
        done = ran("recipe", given=b"\nconic vertex=0 index=1 c=0 k=0 semi=-1\n")
        self.assertEqual((done.status, len(done.out)), (0, 44))
        said = "the semi-diameter is negative: a trace is refused with 3 (negative semi-diameter of a conic)\n"
        self.assertEqual(done.err, f"standard input:2: warning: {said}")
        self.assertEqual(ran("recipe", "--back", given=done.out).err, f"standard input: byte 0: warning: {said}")

    def test_a_toroid_without_a_radius(self):
        done = ran("recipe", given=b"\ntoroid vertex=0 index=1 rx=0 cy=0.1 ky=0 semi=1\n")
        self.assertEqual((done.status, len(done.out)), (0, 52))
        self.assertEqual(done.err, f"standard input:2: warning: {NO_RADIUS}\n")
        self.assertIn("standard input: byte 0: warning: rx is 0", ran("recipe", "--back", given=done.out).err)
        cylinder = b"biconic vertex=0 index=1 radiusx=inf kx=0 radiusy=9 ky=0 semi=1"
        self.assertEqual(ran("recipe", given=cylinder).err, "")

    def test_refusals(self):
        self.assert_refused(ran("recipe", given=b"\ncone"), "standard input:2: 'cone' is no kind")
        self.assert_refused(ran("recipe", given=b"conic\n\xff"), "standard input:2: not text in UTF-8")
        self.assert_refused(ran("recipe", SAMPLES / "doublet"), "doublet:1: a zero byte, which no text has")
        self.assert_refused(ran("recipe", SAMPLES), "samples: Is a directory")
        self.assert_refused(ran("recipe", "no such file"), "no such file: No such file or directory")
        self.assert_refused(ran("recipe", "--back", SAMPLES / "doublet.txt"), "byte 0: ")
        cut = (SAMPLES / "doublet").read_bytes()[:-1]
        said = "byte 192: surface 3: cut short: 43 of the record's 44 bytes"
        self.assert_refused(ran("recipe", "--back", given=cut), said)
        self.assert_refused(ran("recipe", "--back", given=os.urandom(3)), "byte 0: surface 0: cut short")

    def test_usage(self):
        self.assertEqual(ran("recipe", "--hex").status, 2)
        self.assertIn(b"the text:", ran("recipe", "--help").out)

    def test_written_through_a_file(self):
        with tempfile.TemporaryDirectory() as folder:
            path = os.path.join(folder, "bytes")
            with open(path, "wb") as stream:
                stream.write(ran("recipe", SAMPLES / "phone.txt").out)
            self.assertEqual(ran("recipe", "--back", path).out, ran("recipe", "--back", SAMPLES / "phone").out)


if __name__ == "__main__":
    unittest.main()
