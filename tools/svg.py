"""Marks of a picture in SVG: elements, numbers and texts written so that any reader of XML takes them as they are meant."""
import re

DIGITS = 4  # behind the point: a ten-thousandth of a millimetre, as fine as a decimal of a record
# What XML 1.0 has no place for, escaped or not.
NO_XML = re.compile("[^\t\n\r\u0020-\ud7ff\ue000-\ufffd\U00010000-\U0010ffff]")
ESCAPES = str.maketrans({"&": "&amp;", "<": "&lt;", ">": "&gt;", '"': "&quot;"})


def number(value):
    text = f"{value:.{DIGITS}f}".rstrip("0").rstrip(".")
    return "0" if text == "-0" else text


def escaped(text):
    return NO_XML.sub("\ufffd", text).translate(ESCAPES)


def shown(value):
    """An attribute's value: a text, a whole number, a number in millimetres, or several of these."""
    if isinstance(value, (str, int)):
        return escaped(str(value))
    if isinstance(value, float):
        return number(value)
    return " ".join(map(shown, value))


def element(name, *inside, **attributes):
    """An element; what is inside it is written already. An attribute's name has `_` for `-`, or behind a word of Python; None leaves it out."""
    given = "".join(f' {key.rstrip("_").replace("_", "-")}="{shown(value)}"' for key, value in attributes.items() if value is not None)
    return f"<{name}{given}>{''.join(inside)}</{name}>" if inside else f"<{name}{given}/>"


def titled(text):
    """What a viewer shows where the pointer rests."""
    return element("title", escaped(text))
