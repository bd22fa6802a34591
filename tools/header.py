"""include/ploverdell.h, and the version that it names."""
import pathlib, re

TOP = pathlib.Path(__file__).resolve().parent.parent
HEADER = TOP / "include" / "ploverdell.h"
PARTS = "MAJOR", "MINOR", "PATCH"


def version():
    """Its three numbers with points between them, which its text must be too; None where it has none."""
    text = HEADER.read_text(encoding="utf-8")
    found = [re.search(rf"^#define PLOVERDELL_VERSION_{part} ([0-9]+)$", text, re.MULTILINE) for part in PARTS]
    if not all(found):
        return None
    joined = ".".join(number[1] for number in found)
    return joined if f'#define PLOVERDELL_VERSION "{joined}"\n' in text else None
