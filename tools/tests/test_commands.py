import os
import unittest

from trying import SAMPLES, TOOLS, Refusing, started

# each tool with something to write
CALLS = ('"$T/recipe" "$S/doublet.txt"', '"$T/explain" "$T/tests/listings/doublet"', '"$T/draw" "$S/doublet"')


class Streams(Refusing, unittest.TestCase):
    def test_run_by_their_names(self):
        self.assertEqual(started(CALLS[0]).out, (SAMPLES / "doublet").read_bytes())
        for call in CALLS[1:]:
            done = started(call)
            self.assertEqual((done.status, done.err), (0, ""))

    def test_a_reader_that_has_gone(self):
        for call in CALLS:
            # the status stands on the other side of the pipe
            done = started(f"{{ sleep 0.2; {call}; echo $? >&2; }} | true")
            self.assertEqual(done.err, "standard output: Broken pipe\n2\n")

    @unittest.skipUnless(os.path.exists("/dev/full"), "there is no full device")
    def test_a_full_device(self):
        self.assert_refused(started(f"{CALLS[0]} > /dev/full"), "standard output: No space left on device")

    def test_closed_streams(self):
        self.assert_refused(started('"$T/recipe" <&-'), "standard input is closed")
        self.assert_refused(started(f"{CALLS[0]} >&-"), "standard output is closed")

    def test_no_module_hides_one_of_pythons(self):
        import sys
        names = getattr(sys, "stdlib_module_names", ())
        self.assertEqual([path.stem for path in TOOLS.glob("*.py") if path.stem in names], [])


if __name__ == "__main__":
    unittest.main()
