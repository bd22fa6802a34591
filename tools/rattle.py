"""Rattle code, as text in the layout of `rt fmt`."""
import collections, textwrap

# the widest line, and the widest list of arguments in one line, of the layout (`rt fmt`)
TO_ONE_LINE = 100
TO_ONE_CALL = 60
# a longer list whose items are no wider than this stands several items to a line
NARROW_ITEM = 10


def in_order(names):
    """Names as the layout wants them: capitals first, `_` before letters."""
    return sorted(set(names), key=lambda n: n.replace("_", "\x01"))


def uses(paths):
    """The lines of what is used, sorted: a path by itself, names of one module in braces, over several lines where one is too narrow."""
    modules = collections.defaultdict(list)
    for path in set(paths):
        module, _, name = path.rpartition("::")
        modules[module].append(name)
    found = [f"{module}::{names[0]}" if len(names) == 1 else f"{module}::{{{', '.join(in_order(names))}}}" for module, names in modules.items()]
    return "".join(in_lines(f"use {path};") for path in in_order(found))


def in_lines(use):
    """A line of names in braces, which are laid out below it where it is too long."""
    if len(use) <= TO_ONE_LINE:
        return f"{use}\n"
    front, names = use.removesuffix("};").split("{")
    inner = textwrap.wrap(names + ",", TO_ONE_LINE - 1, initial_indent=" " * 4, subsequent_indent=" " * 4)
    return "\n".join([f"{front}{{", *inner, "};\n"])


def ghost(module, names):
    """The line of what contracts use of a module; none where that is nothing."""
    names = list(dict.fromkeys(names))
    return f"ghost use {module}.{{{', '.join(names)}}};\n" if names else ""


def listed(items, indent, around):
    """A borrowed list in the layout of `rt fmt`; around: how many more characters stand in its line."""
    line = ", ".join(items)
    if len(line) <= TO_ONE_CALL and indent + around + len(f"&[{line}]") <= TO_ONE_LINE:
        return f"&[{line}]"
    inner = " " * (indent + 4)
    rows = [f"{inner}{i},\n" for i in items]
    if max(map(len, items)) <= NARROW_ITEM:
        rows = [f"{r}\n" for r in textwrap.wrap(line + ",", TO_ONE_LINE - 1, initial_indent=inner, subsequent_indent=inner)]
    return f"&[\n{''.join(rows)}{' ' * indent}]"
