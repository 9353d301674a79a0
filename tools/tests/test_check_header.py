"""check-header accepts the header as it is, and refuses each change of header, crate, wrapper or archive by a line that
names it."""
import shutil
import subprocess
import tempfile
import unittest
from pathlib import Path

TOP = Path(__file__).resolve().parents[2]
HEADER = "include/pilingrue.h"
STATION = "crates/station/src/lib.rt"
LEG = "crates/trace/src/leg.rt"
RUN = "crates/trace/src/run.rt"
WHY = "crates/trace/src/refusal.rt"
STATE = "crates/trace/src/state.rt"
KIND = "crates/recipe/src/kind.rt"
RECORD = "crates/recipe/src/record.rt"
NEWTON = "crates/surfaces/src/newton.rt"
REFUSAL = "crates/surfaces/src/refusal.rt"
WRAPPER = "examples/rust/src/lib.rs"
RAW = "examples/rust/src/raw.rs"
NAMES = ("pilingrue_version", "pilingrue_start", "pilingrue_continue", "pilingrue_whole", "pilingrue_reach")

# A file, a text that it has once, what stands there instead, and what the refusal has to say.
CHANGES = {
    "another version": (HEADER, "VERSION 2", "VERSION 3", "PILINGRUE_VERSION is 3"),
    "a wider record": (HEADER, "RECORD_NUMBERS 13", "RECORD_NUMBERS 15", "PILINGRUE_RECORD_NUMBERS is 15"),
    "a longer array": (HEADER, "COUNTS 5", "COUNTS 6", "uint64_t [6] counts"),
    "another slot": (HEADER, "RECORD_POINT 2", "RECORD_POINT 5", "PILINGRUE_RECORD_POINT is 5"),
    "another slot of the state": (HEADER, "COUNTS_OUTCOME 4", "COUNTS_OUTCOME 3", "PILINGRUE_COUNTS_OUTCOME is 3"),
    "another number of the table": (HEADER, "MISSED 6", "MISSED 5", "PILINGRUE_MISSED is 5"),
    "another limit": (HEADER, "STEPS_BICONIC 35", "STEPS_BICONIC 25", "PILINGRUE_STEPS_BICONIC is 25"),
    "another kind": (HEADER, "KIND_TOROID 4", "KIND_TOROID 5", "PILINGRUE_KIND_TOROID is 5"),
    "more records": (HEADER, "MOST_RECORDS 512", "MOST_RECORDS 513", "PILINGRUE_MOST_RECORDS is 513"),
    "a shorter buffer": (HEADER, "MOST_ROOM 6656", "MOST_ROOM 6655", "PILINGRUE_MOST_ROOM is 6655"),
    "a longer recipe": (HEADER, "BYTES 65536", "BYTES 65537", "PILINGRUE_MOST_RECIPE_BYTES is 65537"),
    "one constant more": (HEADER, "COUNTS 5\n", "COUNTS 5\n#define PILINGRUE_MORE 1\n", "PILINGRUE_MORE is in"),
    "one constant less": (HEADER, "#define PILINGRUE_MALFORMED 10", "", "PILINGRUE_MALFORMED is not"),
    "a wider allowance": (HEADER, "uint16_t allowed", "uint32_t allowed", "uint32_t allowed"),
    "a shorter length": (HEADER, "size_t recipe_bytes, double *", "uint32_t recipe_bytes, double *", "uint32_t recipe"),
    "a narrower surface": (HEADER, "uint64_t surface", "uint32_t surface", "uint32_t surface"),
    "a record that is longer": (HEADER, "record[PILINGRUE_RECORD_NUMBERS]", "record[PILINGRUE_COUNTS]", "[5] record"),
    "a recipe to write": (HEADER, "continue(const uint8_t", "continue(uint8_t", "(uint8_t * recipe"),
    "another name": (HEADER, "uint64_t pilingrue_version(", "uint64_t pilingrue_revision(", "pilingrue_revision is in"),
    "another answer": (HEADER, "uint64_t pilingrue_version(", "uint32_t pilingrue_version(", "uint32_t (void)"),
    "a narrower field": (HEADER, "uint64_t place;", "uint32_t place;", "pilingrue_verdict is"),
    "fields exchanged": (HEADER, "number;\n    uint64_t place", "place;\n    uint64_t number", "pilingrue_verdict is"),
    "names exchanged": (
        HEADER,
        "recipe_bytes, double *buffer, size_t room",
        "room, double *buffer, size_t recipe_bytes",
        "size_t room",
    ),
    "more numbers": (STATION, "usize = NUMBERS_PATH + 1", "usize = NUMBERS_PATH + 2", "PILINGRUE_NUMBERS is 9"),
    "a later version": (STATION, "VERSION: u64 = 2", "VERSION: u64 = 3", "PILINGRUE_VERSION is 2"),
    "a version by itself": (STATION, "{\n    VERSION\n}", "{\n    3\n}", "VERSION is a constant of crates/station"),
    "a wider allowance in the crate": (STATION, "allowed: u16", "allowed: u32", "u32 allowed"),
    "one parameter less": (STATION, "\n    allowed: u16,", "", "pilingrue_continue is"),
    "slots exchanged": (
        STATION,
        "s.number as u64,\n        s.place",
        "s.place as u64,\n        s.number",
        "PILINGRUE_COUNTS_SURFACE is 0",
    ),
    "another slot in the crate": (STATION, "PLACE: usize = 1", "PLACE: usize = 2", "PILINGRUE_COUNTS_PLACE is 1"),
    "a wider record in the crate": (
        LEG,
        "usize = RECORD_STEPS + 1",
        "usize = RECORD_STEPS + 3",
        "PILINGRUE_RECORD_NUMBERS is 13",
    ),
    "a record laid out otherwise": (
        LEG,
        "HIT,\n        g.t,\n        p.x,",
        "HIT,\n        p.x,\n        g.t,",
        "PILINGRUE_RECORD_T is 1",
    ),
    "a refusal laid out otherwise": (
        LEG,
        "l.r,\n        l.limit,",
        "l.limit,\n        l.r,",
        "PILINGRUE_RECORD_R is 1",
    ),
    "another status of a hit": (LEG, "HIT: f64 = 1.0", "HIT: f64 = 2.0", "PILINGRUE_HIT is 1"),
    "another outcome": (STATE, "DONE: u8 = 1", "DONE: u8 = 0", "PILINGRUE_DONE is 1"),
    "another number in the crate": (REFUSAL, "MISSED: u8 = 6", "MISSED: u8 = 5", "PILINGRUE_MISSED is 6"),
    "a number for another": (REFUSAL, "plain(MISSED)", "plain(OUTSIDE_DOMAIN)", "MISSED is a constant of"),
    "a number that is not named": (WHY, "=> STATE_DOES_NOT_FIT", "=> 12", "STATE_DOES_NOT_FIT is a constant of"),
    "one number more": (RUN, "// How many records", "pub const MORE: u8 = 13;\n//", "PILINGRUE_MORE is not in include"),
    "another name in the crate": (RUN, "const MOST_RECORDS", "const LARGEST", "MOST_RECORDS is the name of no"),
    "a value of another form": (RUN, "usize = 512", "usize = 1 << 9", "run.rt: a value that cannot be read"),
    "a name of two constants": (RUN, "// How many records", "pub const HIT: u8 = 1;\n//", "HIT is a constant of"),
    "another kind in the crate": (KIND, "MIRROR: usize = 256", "MIRROR: usize = 512", "PILINGRUE_KIND_MIRROR is 256"),
    "a longer recipe in the crate": (
        RECORD,
        "MOST_RECIPE_BYTES: usize = 65536",
        "MOST_RECIPE_BYTES: usize = 65540",
        "PILINGRUE_MOST_RECIPE_BYTES is 65536",
    ),
    "a wider room in the crate": (
        LEG,
        "usize = RECORD_STEPS + 1",
        "usize = RECORD_STEPS + 3",
        "PILINGRUE_MOST_ROOM is 6656",
    ),
    "another limit in the crate": (NEWTON, "TOROID: u16 = 35", "TOROID: u16 = 36", "PILINGRUE_STEPS_TOROID is 35"),
    "another constant of the wrapper": (WRAPPER, "TOROID: u16 = 35", "TOROID: u16 = 25", "STEPS_TOROID is 35"),
    "another parameter of the wrapper": (RAW, "allowed: u16,\n    ) ->", "allowed: u32,\n    ) ->", "u32 allowed"),
}


def check(top, *words):
    ran = subprocess.run([TOP / "tools/check-header", "--top", top, *words], capture_output=True, text=True)
    return ran.returncode, ran.stdout + ran.stderr


def copy_to(folder):
    """What check-header reads."""
    unread = shutil.ignore_patterns("proofs", "specs", "must-fail", "out")
    for name in ("include", "crates", "examples/rust/src"):
        shutil.copytree(TOP / name, folder / name, ignore=unread)


def archive(folder, source):
    (folder / "station.c").write_text(source)
    subprocess.run(["cc", "-c", "station.c"], cwd=folder, check=True)
    subprocess.run(["ar", "rcs", "libstation.a", "station.o"], cwd=folder, check=True)
    return folder / "libstation.a"


class CheckHeader(unittest.TestCase):
    def setUp(self):
        made = tempfile.TemporaryDirectory()
        self.addCleanup(made.cleanup)
        self.top = Path(made.name)
        copy_to(self.top)

    def refused(self, said, *words):
        status, output = check(self.top, *words)
        self.assertEqual(status, 1, output)
        self.assertIn(said, output)

    def test_accepts_what_agrees(self):
        self.assertEqual(check(self.top)[0], 0)

    def test_refuses_each_change(self):
        for name, (where, old, new, said) in CHANGES.items():
            with self.subTest(name):
                path = self.top / where
                text = path.read_text()
                self.assertEqual(text.count(old), 1)
                path.write_text(text.replace(old, new))
                self.refused(said)
                path.write_text(text)

    def test_archive(self):
        four = "".join(f"void {name}(void) {{}}\n" for name in NAMES)
        self.assertEqual(check(self.top, archive(self.top, four))[0], 0)
        self.refused("does not have it", archive(self.top, four.replace(NAMES[0], "version")))
        self.refused("has pilingrue_more, which is not", archive(self.top, four + "void pilingrue_more(void) {}\n"))
        asking = four.replace("version(void) {}", "version(void) { extern void halt(void); halt(); }")
        self.refused("asks for halt", archive(self.top, asking))


if __name__ == "__main__":
    unittest.main()
