"""tests/reference: its questions and its answers, and the programs that are asked the same."""
import pathlib, subprocess

TOP = pathlib.Path(__file__).resolve().parent.parent
FOLDER = TOP / "tests" / "reference"
SPOOLS = FOLDER / "target" / "release" / "spools"
ANSWERS = FOLDER / "target" / "release" / "answers"


def build():
    subprocess.run(["cargo", "build", "--release", "--offline", "--quiet"], cwd=FOLDER, check=True)


def write_questions(count, seed, path):
    with open(path, "wb") as to:
        subprocess.run([SPOOLS, str(count), str(seed)], stdout=to, check=True)


def lines_of(program, questions):
    """The lines that a program prints for a file of questions, and its status."""
    with open(questions, "rb") as asked:
        done = subprocess.run(program, stdin=asked, stdout=subprocess.PIPE, text=True)
    return done.stdout.splitlines(), done.returncode


def answers(count, questions):
    """The reference's own lines."""
    lines, status = lines_of([ANSWERS], questions)
    assert status == 0 and len(lines) == count, f"the reference gave {len(lines)} answers to {count} questions and ended with {status}"
    return lines
