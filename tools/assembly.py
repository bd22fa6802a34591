"""What the kit's compiler makes of a module for x86-64, with the words that rt compiles a library with: how much stack each function takes,
where it calls others, and the arrays that it keeps in memory."""
import collections, re, sys

import caught

WORDS = ["-march=x86-64", "-O3", "-fPIC", "-ffunction-sections", "-fdata-sections"]
OF_LLVM = "-no-trap-after-noreturn -trap-unreachable -no-x86-call-frame-opt -disable-machine-licm -disable-postra-machine-licm -sink-common-insts=false"
WORDS += [word for flag in OF_LLVM.split() for word in ("-mllvm", flag)]
UNWOUND = ("attributes #0 = { nounwind", "attributes #0 = { nounwind uwtable(sync)")
LABEL = re.compile(r'"?([^\s"#.][^\s"#]*)"?:')
OFFSET = re.compile(r"\.cfi_def_cfa(?:_offset| %r(?:sp|11),) (\d+)")
MOVED = re.compile(r"\.cfi_adjust_cfa_offset (-?\d+)")
# a call, or a jump out of the function that stands for one
CALL = re.compile(r'callq?\s+"?([^\s"@]+)"?(?:@PLT)?$')
JUMP = re.compile(r'jmp\s+"?([^\s"@.*][^\s"@]*)"?(?:@PLT)?\s+# TAILCALL')
BELOW = re.compile(r"-(\d+)\(%rsp")
DEFINED = re.compile(r'define .*?@"?([^\s"(]+)"?\(')
ARRAY = re.compile(r"= alloca \[(\d+) x i8\]")

# depth: the most bytes of stack that the function takes itself, with the place that its caller goes on at.
# calls: the functions that it calls, each with the bytes that it has taken by then.
Function = collections.namedtuple("Function", "depth calls")


def made(text, words, ending, room):
    """What the compiler makes of the module's text."""
    source, to = room / "source.ll", room / f"made.{ending}"
    source.write_text(text)
    caught.compiled([*WORDS, *words], source, to)
    return to


class Reading:
    """One function's lines. What is on the stack is told by the directives for unwinding, which are asked for of every function."""

    def __init__(self):
        self.taken, self.depth, self.calls, self.kept = 8, 8, [], []

    def take(self, line):
        told = OFFSET.match(line) or MOVED.match(line)
        if told:
            self.taken = int(told[1]) + (self.taken if told.re is MOVED else 0)
        elif line == ".cfi_remember_state":
            self.kept.append(self.taken)
        elif line == ".cfi_restore_state":
            self.taken = self.kept.pop()
        elif line.startswith(("call", "jmp")):
            self.call(line)
        # what a function that calls nothing keeps below its stack
        below = [int(n) for n in BELOW.findall(line)]
        self.depth = max([self.depth, self.taken, *(self.taken + n for n in below)])

    def call(self, line):
        called, left = CALL.match(line), JUMP.match(line)
        if called:
            self.calls.append((self.taken, called[1]))
        elif left: # its own stack is given back by then
            self.calls.append((self.taken - 8, left[1]))
        elif line.startswith("call"):
            sys.exit(f"assembly: where does this call go? {line}")


def functions(text, room):
    """Name: Function, of every function in the module's assembly."""
    if UNWOUND[0] not in text:
        sys.exit("assembly: the module's functions don't have the attributes that were expected")
    found, reading = {}, None
    for line in made(text.replace(*UNWOUND), ["-S"], "s", room).read_text().splitlines():
        label = LABEL.match(line)
        if label:
            reading = found.setdefault(label[1], Reading())
        elif reading and line.startswith("\t"):
            reading.take(line.strip())
    return {name: Function(r.depth, r.calls) for name, r in found.items() if not name.startswith((".", "Lswitch"))}


def arrays(text, room):
    """Name: the bytes of each array and struct that the function still keeps in memory when the compiler has optimized it."""
    found, name = {}, None
    for line in made(text, ["-S", "-emit-llvm"], "opt.ll", room).read_text().splitlines():
        defined, kept = DEFINED.match(line), ARRAY.search(line)
        if defined:
            name = defined[1]
            found[name] = []
        elif kept:
            found[name].append(int(kept[1]))
    return found


def deepest(found, name, again, above=()):
    """The bytes that a call takes with all that it calls, and the way there: (function, bytes taken at the call that goes on) of each.
    again: how many calls of a function that calls itself may be open at once. above: the functions on the way to this one."""
    if name in above:
        sys.exit(f"assembly: {' calls '.join([*above[above.index(name):], name])}, and nobody says how often")
    here = found[name]
    own = [taken for taken, called in here.calls if called == name]
    if own and name not in again:
        sys.exit(f"assembly: {name} calls itself, and nobody says how often")
    most, way = here.depth, [(name, here.depth)]
    for taken, called in here.calls:
        if called == name:
            continue
        # what is linked with the library: the place to go on at, and no more of it is known
        below, on = deepest(found, called, again, (*above, name)) if called in found else (8, [(called, 8)])
        if taken + below > most:
            most, way = taken + below, [(name, taken), *on]
    if not own:
        return most, way
    more = again[name] - 1
    return most + more * max(own), [(name, max(own))] * more + way
