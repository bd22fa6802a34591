"""A spool as far as it can be told: its volumes, their lines, what a line is made of, and its letters."""
import collections, os, re

MOST_BYTES = 61440
MARK, HEAD, FINAL = b"VP", 12, b"\x1a"
NAME, LENGTH = slice(2, 10), slice(10, HEAD)  # of a head
LINE_END = b"\r\n"
MOST_SHOWN = 72
# A pair of bytes that document 01 allows, or else one byte.
CODES = re.compile(rb"[\x81-\x9f\xe0-\xfc][\x40-\x7e\x80-\xfc]|.", re.DOTALL)
WIDE_BLANK, SHOWN_BLANK = "\u3000", "\u2423"
BLANKS = re.compile(rb"(?: |\t|\x81\x40)*")
END_BLANKS = re.compile(rb"(?: |\x81\x40)+\Z")
COMMENT = b"#"
# The key ends at the first `=` or `:{`.
KEY = re.compile(rb"(.*?)(=|:\{)(.*)", re.DOTALL)
OPENER = b":{"


# ── files ──

STANDARD_INPUT = "-"


def contents(file):
    """A file's bytes, at most one more than a spool may have: what stands behind changes no answer."""
    given = file == STANDARD_INPUT
    with open(0 if given else file, "rb", buffering=0, closefd=not given) as source:
        raw = b""
        while more := os.read(source.fileno(), MOST_BYTES + 1 - len(raw)):
            raw += more
        return raw


# ── volumes and lines ──


def volumes(spool):
    """The name and the bytes of each volume. Bytes without a mark end them; a length that runs over the spool's end takes what there is."""
    found, at = [], 0
    while spool.startswith(MARK, at):
        head = spool[at : at + HEAD]
        length = int.from_bytes(head[LENGTH], "big")
        found.append((head[NAME].rstrip(b" "), spool[at + HEAD : at + HEAD + length]))
        at += HEAD + length
    return found


def called(number, name):
    """A volume as people are told of it."""
    return f"volume {number} ({shown(name) or 'without a name'})"


def lines(body):
    """The lines of a volume; behind the last line's end stands the final byte."""
    return body.split(LINE_END)[:-1]


def unindented(raw):
    """A line without its leading blanks; nothing of a comment."""
    return b"" if raw.startswith(COMMENT) else raw[BLANKS.match(raw).end() :]


# ── the form of a line ──

CLOSE, EOF, OPENS, EMPTY, CONTENT, OPENING, FORMLESS = "}", "EOF", "key:{", "key=", "key=content", "key=content:{", ""
Form = collections.namedtuple("Form", "shape key content", defaults=(b"", b""))


def form_of(text, free=False):
    """The form of a line without blanks, `free` where its content runs to the line's end whatever it is."""
    cut = KEY.fullmatch(text)
    if not cut:
        return Form({b"}": CLOSE, b"EOF": EOF}.get(text, FORMLESS))
    key, ends, rest = cut.groups()
    if not key or (ends == OPENER and rest):
        return Form(FORMLESS, key, rest)
    if ends == OPENER:
        return Form(OPENS, key)
    if not rest:
        return Form(EMPTY, key)
    if free or not rest.endswith(OPENER):
        return Form(CONTENT, key, rest)
    return Form(OPENING if rest != OPENER else FORMLESS, key, rest.removesuffix(OPENER))


# ── letters ──


def letter(code):
    """The letter of a byte or a pair, Shift-JIS as Windows has it; None where it has none."""
    try:
        return code.decode("cp932")
    except UnicodeDecodeError:
        return None


def escaped(code):
    return "".join(f"\\x{byte:02x}" for byte in code)


def character(code):
    """A byte or a pair as it can be read: where it is a letter that shows, and escaped otherwise."""
    if code == b"\t":
        return "\\t"
    if code in (b"\\", b'"'):
        return "\\" + code.decode()
    text = letter(code)
    shows = text is not None and len(text) == 1 and (text.isprintable() or text == WIDE_BLANK)
    return text if shows else escaped(code)


def shown(raw):
    text = ""
    for code in CODES.findall(raw):
        more = character(code)
        if len(text) + len(more) > MOST_SHOWN:
            return text + "…"
        text += more
    return text


def quoted(raw):
    """In quotation marks, with the blanks at both ends made visible."""
    text = shown(raw)
    inner = text.strip(" " + WIDE_BLANK)
    front = len(text) - len(text.lstrip(" " + WIDE_BLANK))
    behind = len(text) - front - len(inner)
    return f'"{SHOWN_BLANK * front}{inner}{SHOWN_BLANK * behind}"'
