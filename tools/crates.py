"""The crates of the repository: what each uses (crates.txt), and what it hands to C."""
import pathlib, re

TOP = pathlib.Path(__file__).resolve().parent.parent


def used_by():
    """Of each crate in crates.txt, the names behind it: crates of the repository and of the kit."""
    text = re.sub("#.*", "", (TOP / "crates.txt").read_text())
    return {name: names.split() for name, names in re.findall(r"^(\w+)(?: +staticlib)? *:(.*)", text, re.M)}


def needed(names):
    """The crates of the repository that the named ones need, they among them."""
    listed, found, left = used_by(), set(), list(names)
    while left:
        name = left.pop()
        if name in listed and name not in found:
            found.add(name)
            left += listed[name]
    return found


def is_program(crate):
    return (TOP / "crates" / crate / "src" / "main.rt").is_file()


def exported(crate):
    """Name: (parameters with their types, result or nothing) of each function that the crate hands to C. None where one is not understood."""
    found = {}
    text = (TOP / "crates" / crate / "src" / "lib.rt").read_text()
    for name, parameters, result in re.findall(r'^#\[unsafe\(no_mangle\)\]\npub extern "C" fn (\w+)\((.*?)\)(?: -> (\w+))?\s', text, re.M | re.S):
        found[name] = ([tuple(p.strip().split(": ", 1)) for p in parameters.split(",") if p.strip()], result)
    return found if len(found) == len(re.findall(r'\bextern "C" fn', text)) else None
