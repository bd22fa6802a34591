"""The rows of the definitions' tables, read from their files: enough of the notation for crates/rules/specs/Blocks.antt and Figures.antt, for
the values of Values.antt that they name, and for the lists of numbers in crates/tables/specs. What is not understood ends the script."""
import collections, re, sys

TOKEN = re.compile(r'"[^"]*"|[()]|\[\]|∷|\+\+|[^\s()"]+')
JOINS = ("∷", "++")

# head and arguments; a name, a number and a text in quotation marks have no arguments
Term = collections.namedtuple("Term", "head args")


def fail(why):
    sys.exit(f"{sys.argv[0].split('/')[-1]}: {why}")


def atom(word):
    return Term(word, ())


def show(term, inner=False):
    """A term as it is written."""
    if not term.args:
        return term.head
    text = " ".join([term.head, *(show(a, True) for a in term.args)])
    return f"({text})" if inner else text


# ── reading ──


class Parser:
    """One expression: `∷` and `++` bind loosest and to the right, then `+`, then application."""

    def __init__(self, text):
        self.words = TOKEN.findall(text)
        self.at = 0

    def peek(self):
        return self.words[self.at] if self.at < len(self.words) else None

    def next(self):
        self.at += 1
        return self.words[self.at - 1]

    def whole(self):
        left = self.sum()
        return Term(self.next(), (left, self.whole())) if self.peek() in JOINS else left

    def sum(self):
        left = self.applied()
        while self.peek() == "+":
            left = Term(self.next(), (left, self.applied()))
        return left

    def applied(self):
        parts = []
        while self.peek() not in (None, ")", "+", *JOINS):
            parts.append(self.single())
        if not parts:
            fail(f"not understood: {' '.join(self.words)}")
        return Term(parts[0].head, (*parts[0].args, *parts[1:]))

    def single(self):
        word = self.next()
        if word != "(":
            return atom(word)
        inner = self.whole()
        if self.at == len(self.words) or self.next() != ")":
            fail(f"not understood: {' '.join(self.words)}")
        return inner


def parsed(text):
    p = Parser(text)
    term = p.whole()
    if p.peek() is not None:
        fail(f"not understood: {text}")
    return term


def clauses(path):
    """The equations of a file: name: [(patterns, right side as text)]."""
    text = re.sub(r"--.*", "", path.read_text(encoding="utf-8"))
    found = collections.OrderedDict()
    for item in re.findall(r"^\S.*(?:\n[ \t]+.*)*", text, re.M):
        left, equals, right = item.partition(" =")
        if not equals or re.match(r"(use|abbrev|unfoldable|unfolding|pub)\b", item):
            continue
        name, *patterns = words_of(left)
        found.setdefault(name, []).append((patterns, " ".join(right.split())))
    return found


def words_of(left):
    """The name that an equation is of, and its patterns."""
    p = Parser(left)
    name, patterns = p.next(), []
    while p.peek() is not None:
        patterns.append(p.single())
    return name, *patterns


# ── computing ──


class Definitions:
    """Files whose equations compute; every name without an equation stands for itself."""

    def __init__(self, *paths):
        self.files = {path: clauses(path) for path in paths}
        self.rules = {name: rules for found in self.files.values() for name, rules in found.items()}

    def file_of(self, name):
        """The name of the file that has the equations of a name."""
        for path, found in self.files.items():
            if name in found:
                return path.stem
        return fail(f"{name} is defined in none of {', '.join(str(p) for p in self.files)}")

    def value(self, term, bound={}):
        """What a term computes to: a list, a number, or a Term of what stands for itself."""
        if term.head in bound and not term.args:
            return bound[term.head]
        args = [self.value(a, bound) for a in term.args]
        if term.head == "[]":
            return []
        if term.head == "∷":
            return [args[0], *args[1]]
        if term.head == "++":
            return args[0] + args[1]
        if term.head == "+":
            return args[0] + args[1]
        if term.head.isdigit():
            return int(term.head)
        for patterns, right in self.rules.get(term.head, ()):
            given = matched(patterns, args)
            if given is not None:
                return self.value(parsed(right), given)
        if term.head in self.rules and args:
            fail(f"no equation of {term.head} fits {show(term)}")
        return Term(term.head, tuple(args))


def matched(patterns, args):
    """What a clause's names are bound to, None where it does not fit."""
    if len(patterns) != len(args):
        return None
    bound = {}
    for pattern, arg in zip(patterns, args):
        if pattern.head == "∷" and isinstance(arg, list) and arg:
            bound[pattern.args[0].head], bound[pattern.args[1].head] = arg[0], arg[1:]
        elif pattern.head in ("true", "false"):
            if arg != atom(pattern.head):
                return None
        elif pattern.head in ("∷", "[]"):
            if pattern.head == "∷" or arg != []:
                return None
        else:
            bound[pattern.head] = arg
    return bound


def written(value):
    """A computed value as it is written, for looking it up."""
    if isinstance(value, int):
        return str(value)
    return " ".join([value.head, *(written(a) for a in value.args)])


# ── rows ──

# A row: its key, what it holds, its place, and the words round it, the outermost first: (word, numbers).
Row = collections.namedtuple("Row", "key holds place words")


def row_of(rule):
    words = []
    while rule.head != "row":
        words.append((rule.head, rule.args[:-1]))
        rule = rule.args[-1]
    key, holds, place = rule.args
    return Row(key.head.strip('"'), holds, place, words)


def rows_of(definitions, table):
    """The rows of a table, which is an expression."""
    return [row_of(r) for r in definitions.value(table)]


def cases(definitions, name):
    """A definition by numbers, `cond (eqb n name) term (..)`: (name, term) of each test, and the last term."""
    (_, right), = definitions.rules[name]
    found, rest = [], parsed(right)
    while rest.head == "cond":
        test, term, rest = rest.args
        found.append((test.args[-1].head, term))
    return found, rest
