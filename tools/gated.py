"""The gate's last line, kept in target/gate with a digest of the files that it judged, so that nobody takes it for one about others."""
import hashlib, os, pathlib, re, subprocess

TOP = pathlib.Path(__file__).resolve().parent.parent
KEPT = "gate"  # the file's name, in target/
CI = TOP / "target" / "rt-ci"  # the same of `rt ci`, the gate's middle (tools/ci)
PASSED = re.compile(r"[0-9]+ passed, 0 failed")


def said(*words):
    """What a command prints; nothing where it fails."""
    try:
        done = subprocess.run(words, cwd=TOP, capture_output=True)
    except OSError:
        return b""
    return done.stdout if done.returncode == 0 else b""


def tree():
    """A digest of the repository's files, but those that git is told to ignore: names, contents, and which are programs. Empty where git can't
    list them."""
    listed = said("git", "ls-files", "-z", "--cached", "--others", "--exclude-standard")
    found = hashlib.sha256()
    for name in sorted(set(filter(None, listed.split(b"\0")))):
        path = TOP / os.fsdecode(name)
        if path.is_file():
            raw = path.read_bytes()
            found.update(b"%s %d %d\n" % (name, os.access(path, os.X_OK), len(raw)) + raw)
    return found.hexdigest() if listed else ""


def text(last, digest):
    """What is kept: the line, the files, and for people the commit and the kit."""
    commit = said("git", "describe", "--always", "--dirty", "--abbrev=40").decode().strip()
    return f"{last}\ntree {digest}\ncommit {commit}\nkit {said('rt', 'version').decode().strip()}\n"


def proved_here():
    """Whether `rt ci` passed here on these very files."""
    now = tree()
    return bool(now) and CI.is_file() and f"tree {now}" in CI.read_text().splitlines()


def fault(kept):
    """Why what is kept is no gate passed on these files; nothing where it is one."""
    if not kept.is_file():
        return "the gate has not passed here: run `make test`"
    last, digest, *_ = kept.read_text().splitlines() + ["", ""]
    if not PASSED.fullmatch(last):
        return f"{kept} has no gate's last line"
    if not tree() or digest != f"tree {tree()}":
        return "the gate passed on other files than these: run `make test` again"
    return ""
