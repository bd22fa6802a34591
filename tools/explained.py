"""An answer about a spool in plain words: the place, the fault and what to do. `sentence` is what other tools import."""
import spools
from faults import fault
from rulebook import refusals
from spools import FINAL, shown

RECORDS, BYTES = "records", "bytes"
NO_WORDS = "docs/REFUSALS.md has no words for this number."


def place(spool, volume, line):
    """`volume 2 (PART2), line 37, "line=0,0,1"`, or what of it can be said."""
    found = spools.volumes(spool)
    if volume > len(found):
        return f"volume {volume} (not in this spool)" + (f", line {line}" if line else "")
    name, body = found[volume - 1]
    text = spools.called(volume, name)
    if line == 0:
        return text + (", which has no line" if body == FINAL else "")
    if line > len(spools.lines(body)):
        return f"{text}, line {line} (not in this volume)"
    raw = spools.lines(body)[line - 1]
    return f'{text}, line {line}, "{shown(raw)}"' if raw else f"{text}, line {line}, which is empty"


def family(answer):
    """What the table says of every refusal of a number."""
    what = refusals().get(answer, (NO_WORDS, ""))[0]
    return what[0].lower() + what[1:] if what != NO_WORDS else what


def advice(answer):
    return refusals().get(answer, ("", ""))[1]


def accepted(count, counted):
    if count is None:
        return "Accepted."
    if counted == BYTES:
        return f"Accepted: the fixed form has {count:,} bytes."
    return f"Accepted: {count} record{'' if count == 1 else 's'}."


def sentence(spool, answer, volume, line, count=None, front=None, room=256, counted=RECORDS):
    """The whole text. front: the class and wire part that were asked, (15, 18) where it is None; room: the records that the table has room
    for; counted: what `count` is one of."""
    if answer == 0:
        return accepted(count, counted)
    where = f"{place(spool, volume, line)}: " if volume else ""
    seen = fault(spool, answer, volume, line, front, room)
    wrong = f"{seen}." if seen else family(answer)
    return f"Refused, {answer}: {where}{wrong} {advice(answer)}".rstrip()
