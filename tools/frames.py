"""Questions to the program of crates/asked, framed: a byte that says what is asked, then a question as tests/reference frames it (README.md
there): the class, its wire part, the lengths of a table (in numbers) and of an output (in bytes) that are lent, the length of the spool, the
spool. The length SAME_SPOOL says that the question is about the spool of the question before.
"""
import pathlib

TOP = pathlib.Path(__file__).resolve().parent.parent
CRATE = TOP / "crates" / "asked"
# The questions about sample spools and vectors, and the answers to them, are kept: NAME.questions and NAME.answers of these.
KEPT = TOP / "tests" / "asked"
KEPT_NAMES = "listed", "rewritten"

LIST, REWRITE, COMPARE = b"l", b"w", b"c"
NUMBERS = 32  # of a record
SAME_SPOOL = 0xFFFFFFFF
REFERENCE_HEAD = 14  # the bytes of a question of tests/reference before its spool
HEAD = 1 + REFERENCE_HEAD


def kept(kind):
    """The kept questions, or answers, one behind the other."""
    return b"".join((KEPT / f"{name}.{kind}").read_bytes() for name in KEPT_NAMES)


def total(count):
    """What the program prints behind its answers."""
    return f"{count} questions\n".encode()


def length(n):
    return n.to_bytes(4, "big")


def question(what, spool, front=(0, 0), records=0, room=0):
    """A question about a spool, or, where it is None, about the one before; front: the class and its wire part."""
    head = what + bytes(front) + length(NUMBERS * records) + length(room)
    return head + (length(SAME_SPOOL) if spool is None else length(len(spool)) + spool)


def cut(questions, head):
    """Each of the questions that stand one behind the other, with so many bytes before its spool."""
    at = 0
    while at < len(questions):
        spool = int.from_bytes(questions[at + head - 4 : at + head], "big")
        end = at + head + (0 if spool == SAME_SPOOL else spool)
        assert end <= len(questions), "the last question is cut short"
        yield questions[at:end]
        at = end
