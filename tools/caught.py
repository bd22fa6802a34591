"""The module that rt compiles, before any processor is chosen, and the kit's tools that compile and link it."""
import os, pathlib, re, shutil, subprocess, sys, time

import gated
from crates import needed, used_by

TOP = pathlib.Path(__file__).resolve().parent.parent
# The last line of `rt try` where the program ended by itself.
ENDED = re.compile(r"^run=ended .*proved=no\n\Z", re.M)


def kit():
    """The folder of the kit, as rt itself finds it. Ends this program where there is none."""
    missing = subprocess.run([TOP / "tools" / "need", "rt"]).returncode
    if missing:
        sys.exit(missing)
    return pathlib.Path(shutil.which("rt")).resolve().parent.parent


def library(crate):
    """The command that builds a crate's static library into its out/, once it is proved: `rt lib`. `rt ci` proves all below it from nothing and leaves
    the libraries, but without the stamp that `rt lib` goes by. Where it passed on these very files, the kit's rattle builds over them, as rt would,
    and proves the crate itself alone."""
    below = needed([crate]) - {crate}
    rlibs = {name: TOP / "crates" / name / "out" / "rlib" / f"{name}.rlib" for name in below}
    if not all((rlib / "format").is_file() and not (rlib.parent / "stamp").exists() for rlib in rlibs.values()) or not gated.proved_here():
        return ["rt", "lib"]
    own = kit()
    of_kit = dict.fromkeys(["std", *(name for name in used_by()[crate] if name not in below)])
    words = [word for name in of_kit for word in ("--extern", f"{name}={own}/rlibs/{name}.rlib")]
    words += [word for name in used_by()[crate] if name in below for word in ("--extern", f"{name}={rlibs[name]}")]
    words += [word for folder in (own / "rlibs", *(rlib.parent for rlib in rlibs.values())) for word in ("-L", f"dependency={folder}")]
    words += ["--antt-project", own / "rattle" / "logic" / "antt-project.json", "--logic-built", own / "logic_built", "--links", f"{crate}="]
    words += ["--crate-type", "staticlib", "--toolchain", own / "toolchain", "--backend", "llvm", "-o", f"out/lib{crate}.a"]
    return [own / "bin" / "rattle", "build", "--crate-name", crate, "src/lib.rt", *words]


def emptied(work):
    """Takes away what rt left in its folder. A process that it began may still be doing so when rt has ended: that one is waited for."""
    for _ in range(500):
        shutil.rmtree(work, ignore_errors=True)
        if not work.exists():
            return
        time.sleep(0.02)


def module(command, crate, room):
    """The module that a command of rt compiles for a crate: rt puts it into the folder for temporary files while it works. (`rt try` puts a small
    one beside it, for the sanitizer.)"""
    work = room / "work"
    work.mkdir()
    said = room / "said"
    with open(said, "wb") as to:
        env = {**os.environ, "TMPDIR": str(work)}
        rt = subprocess.Popen(command, cwd=TOP / "crates" / crate, env=env, stdin=subprocess.DEVNULL, stdout=to, stderr=subprocess.STDOUT)
    seen = {}
    while rt.poll() is None:
        try:
            for found in work.glob("**/module.bc"):
                seen[found] = max(seen.get(found, b""), found.read_bytes(), key=len)
        except FileNotFoundError: # rt was quicker, with the file or with a folder on the way to it
            pass
        time.sleep(0.01)
    emptied(work)
    text = said.read_text(errors="replace")
    done = ENDED.search(text) if "try" in command else rt.returncode == 0
    if not done or not seen:
        sys.exit(f"{text}{' '.join(map(str, command[:2]))} failed for {crate}, or its module was not seen")
    kept = room / "module.bc"
    kept.write_bytes(max(seen.values(), key=len))
    return kept


def done(words):
    """Runs one of the kit's tools, which is quiet where it succeeds."""
    ran = subprocess.run(words, capture_output=True, text=True)
    if ran.returncode != 0:
        sys.exit(ran.stdout + ran.stderr)


def compiled(words, source, to):
    done([kit() / "toolchain" / "bin" / "clang", "--target=x86_64-unknown-linux-gnu", "-Wno-override-module", *words, "-x", "ir", source, "-o", to])


def linked(things, to):
    """A program of these objects and archives, linked by the kit as rt links it."""
    own = kit()
    words = ["--target", "x86_64-unknown-linux-gnu", "--toolchain", own / "toolchain", "-o", to, *things]
    done([own / "bin" / "rattle-link", *words, own / "c" / "libos_c.a", own / "c" / "liblibc_c.a"])


def program(name, room):
    """A program of crates/, compiled and linked without proof in a folder. `rt try` has by then run it with no input and no argument. What it
    compiles has tests at each index, sum, cast and call, which end the program where they fail; those of the address sanitizer are left out."""
    folder = room / name
    folder.mkdir()
    thing, to = folder / "module.o", folder / name
    compiled(["-O2", "-fPIC", "-c"], module(["rt", "try", name], name, folder), thing)
    linked([thing], to)
    return to
