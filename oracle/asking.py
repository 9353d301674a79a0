"""Builds the oracle, asks it or another program that reads the same questions, and tells what SCOPE makes of its
answers."""
import os
import subprocess
import sys
import tempfile
from pathlib import Path

from fixed import SPACED, UNREADABLE, WORKED, is_written
from floats import of_pattern
from limits import LIMITS, around
from operations import is_intersection, line
from rules import expected

HERE = Path(__file__).resolve().parent
TARGET = HERE.parent / "target" / "oracle"


def built_oracle(program="oracle"):
    """The command of a program over the Rust text."""
    if "OPTICS_CORE" not in os.environ:
        sys.exit("OPTICS_CORE has to name the folder with the Rust text's types.rs")
    build = ["cargo", "build", "--release", "--offline", "--locked", "--quiet", "--target-dir", TARGET]
    subprocess.run(build, cwd=HERE, check=True)
    return [TARGET / "release" / program]


def written_by(command, lines):
    """All that a program writes on these lines."""
    with tempfile.TemporaryFile("w+") as questions:
        questions.write("\n".join(lines))
        questions.seek(0)
        ran = subprocess.run(command, stdin=questions, stdout=subprocess.PIPE, check=True)
    return ran.stdout.decode().splitlines()


def ask(command, lines):
    """The answers, one for each line."""
    answers = written_by(command, lines)
    if len(answers) != len(lines):
        sys.exit(f"{command[0]} answers {len(answers)} of {len(lines)} lines")
    return answers


def with_directions_of_rust(oracle, questions):
    """The same questions, their rays with the direction that Rust's `Ray::new` makes of theirs, where it does not
    refuse."""
    rays = [operands[:6] for operation, operands in questions if is_intersection(operation)]
    made = iter(ask(oracle, [line(("ray_new", ray)) for ray in rays]))
    for operation, operands in questions:
        told = next(made) if is_intersection(operation) else ""
        turned = told.startswith("1 ")
        yield operation, [*map(of_pattern, told.split()[1:]), *operands[6:]] if turned else operands


def wanted(oracle, asked):
    """For each question and its line Rust's answer, SCOPE's, and the listed difference between them. A line
    without a question cannot be read."""
    answers = []
    for (question, _), rust in zip(asked, ask(oracle, [text for _, text in asked])):
        answer, group = expected(question, rust) if question else ("?", None)
        answers.append((rust, answer, group))
    for (_, text), (rust, answer, _) in zip(asked, answers):
        if (answer == "?") != (rust == "?"):
            sys.exit(f"the oracle answers {rust} to: {text}")
    return answers


def fixed_questions(oracle):
    """Worked cases and limits, which have to be where they are written to be, and lines that cannot be read."""
    worked = [((operation, operands), line((operation, operands))) for operation, operands, _ in WORKED]
    for (_, text), (_, answer, _), (*_, written) in zip(worked, wanted(oracle, worked), WORKED):
        if not is_written(answer, written):
            sys.exit(f"{answer} is not the written answer to: {text}")
    limits = [(question, line(question)) for limit in LIMITS for question in around(*limit)]
    numbers = [rust.split()[0] for rust, _, _ in wanted(oracle, limits)]
    for i, (operation, operands, limit, written) in enumerate(LIMITS):
        if "".join(numbers[3 * i : 3 * i + 3]) != written:
            sys.exit(f"{limit} is not the limit of {operation} in {operands}")
    return [*worked, *limits, *SPACED, *((None, text) for text in UNREADABLE)]
