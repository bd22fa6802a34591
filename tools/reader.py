"""The reader's answer to a spool, at any class and wire part: by accclass, which is proved (target/bin/accclass), or, where it is asked for, by
the same program built without proof (target/unproved/accclass), which proves nothing."""
import argparse, collections, pathlib, re, subprocess

from spools import MOST_BYTES

TOP = pathlib.Path(__file__).resolve().parent.parent
PROGRAM = "accclass"
PROVED = TOP / "target" / "bin" / PROGRAM
UNPROVED = TOP / "target" / "unproved" / PROGRAM
FULL_CLASS, FULL_WIRE = 15, 18  # this class with this wire part skips nothing
ROOM = 256  # records
NOT_PROVED = "by an unproved reader"  # said of whatever it answers
MOST_ROOM = 10240  # for which the program has a table; no spool has more records

# number: the refusal's, 0 where it is accepted; records: lists of 32 numbers.
Answer = collections.namedtuple("Answer", "number volume line count records")


class NoReader(Exception):
    """The program is not built, or did not answer."""


def program(unproved=False):
    """The program that answers; NoReader tells how to get it."""
    wanted = UNPROVED if unproved else PROVED
    if not wanted.is_file():
        raise NoReader(f"{wanted.relative_to(TOP)} is not built: `make try` builds a reader without proof in half a minute, `make answer` proves it first")
    return wanted


def ask(spool, cls=FULL_CLASS, wire=FULL_WIRE, room=ROOM, unproved=False):
    """What the reader answers for a spool at a class with a wire part, in a table of so many records."""
    words = [TOP / "tools" / "x86", "run", program(unproved), *map(str, (cls, wire, room))]
    done = subprocess.run(words, input=spool[: MOST_BYTES + 1], capture_output=True)
    lines = done.stdout.decode("ascii", "replace").splitlines()
    if done.returncode != 0 or not lines or done.stderr:
        raise NoReader(f"the reader did not answer: {done.stderr.decode(errors='replace').strip()[:200] or 'status ' + str(done.returncode)}")
    number, volume, line, count = map(int, lines[0].split())
    return Answer(number, volume, line, count, [[int(n) for n in text.split()] for text in lines[1:]])


# ── words of a command ──


def number(word):
    """Decimal digits; whether there is such a class or wire part is the reader's to say."""
    if not re.fullmatch("[0-9]{1,9}", word):
        raise argparse.ArgumentTypeError(f"{word!a} is no number")
    return int(word)


def room(word):
    if not 1 <= number(word) <= MOST_ROOM:
        raise argparse.ArgumentTypeError(f"there is room for 1 to {MOST_ROOM} records")
    return int(word)


def add_options(parser, own_room=ROOM):
    """How the reader is asked: the front end, the room, and whether it must be proved."""
    parser.add_argument("--class", type=number, default=FULL_CLASS, metavar="N", dest="cls", help="the front end's class (%(default)s)")
    parser.add_argument("--wire", type=number, default=FULL_WIRE, metavar="N",
                        help="its wire part (%(default)s); class 15 with wire part 18 skips nothing")
    parser.add_argument("--room", type=room, default=own_room, metavar="N", help=f"room for so many records (%(default)s; at most {MOST_ROOM})")
    parser.add_argument("--unproved", action="store_true", help="ask the reader that `make try` builds without proof; what is printed says so")
