"""What the tests share: the folders, and tools run as a person runs them."""
import io
import runpy
import subprocess
import sys
from contextlib import redirect_stderr, redirect_stdout
from pathlib import Path

TOOLS = Path(__file__).resolve().parent.parent
SAMPLES = TOOLS.parent / "samples"
LISTINGS = TOOLS / "tests" / "listings"
CRATES = TOOLS.parent / "crates"
NAMES = ("doublet", "phone", "mirrors", "toroid", "cover", "pointer")

# what is said of a toroid with rx 0
NO_RADIUS = ("rx is 0, a circle without a radius, which a beam hardly meets: "
             "a cylinder is a biconic with radiusx=inf")

sys.path.insert(0, str(TOOLS))
from numerals import pattern

ZERO = pattern(0.0)


def record_line(number, status, steps, *slots):
    """As `tracelist` prints it. Slots that are not given are blank."""
    return " ".join([f"{number} {status} {steps}", *map(pattern, slots), *[ZERO] * (11 - len(slots))])


def refused_at_first(number, *slots):
    """The listing of a trace whose first surface is refused in one step."""
    return f"{record_line(0, number, 1, *slots)}\nend {number} 1 {ZERO}\n"


# a plane that is hit, how a trace of it ends, and two ways in which the surface behind it is refused
HIT_LINE = record_line(0, 1, 1, 5.0, 0.0, 0.0, 0.0, 0.0, 0.0, -1.0, 0.0, 0.0, 1.0, 1.0)
END_LINE = f"end 1 1 {pattern(5.0)}"
MISSED_LINE = record_line(1, 6, 3)
VIGNETTED_LINE = record_line(1, 7, 1, 12.0, 10.0)


class Ran:
    def __init__(self, status, out, err):
        self.status, self.out, self.err = status, out, err.decode()


def stream(data=b""):
    return io.TextIOWrapper(io.BytesIO(data), encoding="utf-8")


def written_to(text_stream):
    text_stream.flush()
    return text_stream.buffer.getvalue()


def ran(tool, *arguments, given=b""):
    """Within this process, which is quick."""
    before, status, out, err = (sys.argv, sys.stdin), 0, stream(), stream()
    sys.argv, sys.stdin = [tool, *map(str, arguments)], stream(given)
    try:
        with redirect_stdout(out), redirect_stderr(err):
            runpy.run_path(str(TOOLS / tool), run_name="__main__")
    except SystemExit as ended:
        status = ended.code or 0
    finally:
        sys.argv, sys.stdin = before
    return Ran(status, written_to(out), written_to(err))


def started(shell):
    """A process of its own, by a line of the shell in which T stands for the tools' folder and S for the samples'."""
    names = {"T": str(TOOLS), "S": str(SAMPLES), "PATH": "/usr/local/bin:/usr/bin:/bin", "PYTHONDONTWRITEBYTECODE": "1"}
    done = subprocess.run(["sh", "-c", shell], capture_output=True, stdin=subprocess.DEVNULL, env=names)
    return Ran(done.returncode, done.stdout, done.stderr)


def refusal_by(bad, reader, *given):
    """Line and reason with which a reader refuses, by the exception that it raises then; None where it does not."""
    try:
        reader(*given)
    except bad as wrong:
        return wrong.line, wrong.reason
    return None


class Refusing:
    """For a TestCase."""

    def assert_told(self, told, line, reason):
        """A reader refuses with this line, and with a reason that says this."""
        self.assertIsNotNone(told, reason)
        self.assertEqual(told[0], line, told)
        self.assertIn(reason, told[1])

    def assert_refused(self, done, said):
        """A tool refuses with status 2 and one line, and writes nothing."""
        self.assertEqual((done.status, done.out), (2, b""), done.err)
        self.assertEqual(done.err.count("\n"), 1, done.err)
        self.assertIn(said, done.err)
