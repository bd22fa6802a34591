"""What is wrong with a spool's bytes (2), with a volume's lines (3), and which byte of a line may not stand there (4)."""
import re

from spools import CODES, FINAL, HEAD, LENGTH, LINE_END, MARK, MOST_BYTES, NAME, called, quoted, shown, unindented

MOST_VOLUMES, MOST_IN_LINE = 12, 512
# Files that are sent in a spool's place, by their first bytes.
FIRST_BYTES = {b"%PDF": "a PDF file", b"PK\x03\x04": "a zip file"}
FIRST_BLOCK = b"FILE_FORMAT"
SMALL, NAME_LETTERS = re.compile(rb"[a-z]"), re.compile(rb"[A-Z0-9]*")


# ── 2: the spool ──


def spool_fault(spool):
    """None where its volumes are sound."""
    if not spool:
        return "the spool is empty"
    return other_file(spool) or too_long(spool) or volume_fault(spool)


def other_file(spool):
    for first, what in FIRST_BYTES.items():
        if spool.startswith(first):
            return f"this is {what} by its first bytes, and no spool"
    text = (unindented(line) for line in re.split(rb"[\r\n]+", spool[:MOST_BYTES]))
    if next(filter(None, text), b"").startswith(FIRST_BLOCK):
        return "this is a bare ACC file without a head: before each volume stand VP, its name in 8 bytes and its length in 2"
    return None


def too_long(spool):
    """How long it is is not said: who reads a file need not read on."""
    return f"the spool has over {MOST_BYTES:,} bytes, the most that it may have" if len(spool) > MOST_BYTES else None


def volume_fault(spool):
    """The first volume whose head is wrong."""
    at, names = 0, {}
    while at < len(spool):
        number, head = len(names) + 1, spool[at : at + HEAD]
        fault = head_fault(head, at, number, len(spool) - at) or name_fault(head[NAME], number) or length_fault(head, spool[at + HEAD :], number)
        if fault:
            return fault
        name = head[NAME].rstrip(b" ")
        if name in names:
            return f"volume {number} has the name of volume {names[name]}, {shown(name)}"
        names[name] = number
        at += HEAD + int.from_bytes(head[LENGTH], "big")
    return None


def head_fault(head, at, number, left):
    begins = " ".join(f"{byte:02X}" for byte in head[: len(MARK)])
    if not head.startswith(MARK) and number == 1:
        return f"it begins with {begins} hex, and not with the mark VP (56 50 hex) of a volume"
    if not head.startswith(MARK):
        behind = f"behind volume {number - 1}, from byte {at:,} on, stand {left:,} bytes that are no volume"
        return f"{behind}: they begin with {begins} hex, and not with VP"
    if number > MOST_VOLUMES:
        return f"a thirteenth volume begins at byte {at:,}, and {MOST_VOLUMES} is the most"
    if len(head) < HEAD:
        return f"the head of volume {number}, from byte {at:,} on, is cut short: {len(head)} of its {HEAD} bytes are there"
    return None


def name_fault(padded, number):
    name = padded.rstrip(b" ")
    if not name:
        return f"volume {number} has no name"
    if NAME_LETTERS.fullmatch(name):
        return None
    what = "a small letter" if SMALL.search(name) else "a blank" if b" " in name else "another byte"
    return f"the name of volume {number}, {quoted(name)}, has {what} in it, where A-Z and 0-9 stand alone"


def length_fault(head, left, number):
    """A length that runs over what is left of the spool: it was cut short, or each line lost a byte."""
    length = int.from_bytes(head[LENGTH], "big")
    if length <= len(left):
        return None
    changed = ": its lines end by LF alone, as a program leaves them that changes line ends" if b"\n" in left and LINE_END not in left else ""
    return f"{called(number, head[NAME].rstrip(b' '))} has the length {length:,} in its head, and {len(left):,} bytes follow it{changed}"


# ── 3: a volume's lines ──


def lines_fault(body):
    """The first place of a volume where its lines aren't ended as they must be; None where all are."""
    if not body:
        return "its length is 0, and even a volume without lines has its final byte 1A hex"
    for number, line in enumerate(re.findall(rb".*?(?:\r\n|\Z)", body, re.DOTALL), 1):
        fault = line_fault(line, number)
        if fault:
            return fault
        if line == FINAL:
            return None
    return None


def line_fault(line, number):
    """Of a line with its end, of which the last of the volume is the final byte alone."""
    text = line.removesuffix(LINE_END)
    stray = re.search(rb"[\r\n\x1a]", text)
    if stray and line != FINAL:
        return stray_byte(text, stray.start(), number, line.endswith(LINE_END))
    if len(text) > MOST_IN_LINE:
        return f"line {number} has {len(text):,} bytes, and {MOST_IN_LINE} is the most"
    if line.endswith(LINE_END) or line == FINAL:
        return None
    if not line:
        return f"the final byte 1A hex is missing behind line {number - 1}"
    return f"the volume ends in line {number}, without CR LF and 1A hex"


def stray_byte(text, at, number, ended):
    byte, behind = text[at : at + 1], text[at + 1 :]
    if byte == b"\n":
        return f"line {number} ends in LF alone, without CR"
    if byte == b"\r":
        return f"line {number} has a CR without LF behind it"
    if not behind and not ended:
        return f"line {number} has no CR LF before the final byte 1A hex"
    return f"the final byte 1A hex stands in line {number} already, with more behind it"


# ── 4: a line's bytes ──


def byte_fault(raw):
    """The first byte of a line that may not stand there; None where all may."""
    text = unindented(raw)
    at = len(raw) - len(text)
    for code in CODES.findall(text):
        if len(code) == 1 and not (0x20 <= code[0] <= 0x7E or 0xA1 <= code[0] <= 0xDF):
            return f"its byte {at + 1}, {code[0]:02X} hex, {bad_byte(code[0], at + 1 == len(raw))}"
        at += len(code)
    return None


def bad_byte(byte, last):
    if byte == 0x09:
        return "is a tab, which may only stand in front of the line"
    if 0x81 <= byte <= 0x9F or 0xE0 <= byte <= 0xFC:
        return "is the first half of a double byte, and " + ("the line ends behind it" if last else "no second half follows it")
    return "is no letter of the code page"
