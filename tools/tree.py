"""What this tree is: its files, its commit, and which gate proved it. A checkout asks git. An unpacked source archive has its list of files in
SHA256SUMS and its commit in PROVED.

    python3 tools/tree.py --gate     says and keeps that `rt ci` has just proved this tree, for `.ci/run`
"""
import collections
import hashlib
import pathlib
import re
import subprocess
import sys
import time

ROOT = pathlib.Path(__file__).resolve().parent.parent
# The files that the gate keeps: one has its line, and one has how many `rt ci` says have passed.
GATE, COUNT = ROOT / "out/gate.txt", ROOT / "out/gate-count.txt"
# The files that an archive adds to those of the tree.
SUMS, PROVED = "SHA256SUMS", "PROVED"
LINE = re.compile(r"gate: proved commit ([0-9a-f]{40,64}) by (.+) on (\d{4}-\d\d-\d\d)")

# `moment` is when the commit was made, in seconds. `changed` are the files that differ from it.
Tree = collections.namedtuple("Tree", "files commit moment changed")
# `fault` says why a tree isn't proved, or is empty.
Gate = collections.namedtuple("Gate", "kit date result fault")


class NoTree(Exception):
    """The folder is neither a checkout nor an unpacked source archive."""


def git(*words):
    # (a gate may run as somebody else than the owner of the checkout)
    return subprocess.run(["git", "-C", ROOT, "-c", "safe.directory=*", *words], capture_output=True, text=True, check=True).stdout


def sum_of(path):
    return hashlib.sha256(path.read_bytes()).hexdigest()


def tree():
    if (ROOT / ".git").exists():
        try:
            files = sorted(git("ls-files", "-z").split("\0")[:-1])
            commit, moment = git("log", "-1", "--format=%H %ct").split()
            changed = [line[3:] for line in git("status", "--porcelain").splitlines()]
        except (OSError, subprocess.CalledProcessError) as fault:
            raise NoTree(f"git can't read this checkout: {fault}") from None
        return Tree([it for it in files if (ROOT / it).is_file()], commit, int(moment), changed)
    try:
        sums = dict(reversed(line.split("  ", 1)) for line in (ROOT / SUMS).read_text().splitlines())
        told = dict(line.split(": ", 1) for line in (ROOT / PROVED).read_text().splitlines() if ": " in line)
        commit, moment = told["commit"].split()[0], int(told["time"])
    except (OSError, KeyError, ValueError):
        raise NoTree("this folder is neither a checkout nor an unpacked source archive") from None
    changed = [name for name, wanted in sums.items() if not (ROOT / name).is_file() or sum_of(ROOT / name) != wanted]
    return Tree(sorted(it for it in sums if it != PROVED), commit, moment, changed)


def gate(found):
    """Which gate proved this tree, or why none did."""
    lines = GATE.read_text().splitlines() if GATE.is_file() else []
    told = LINE.fullmatch(lines[0]) if len(lines) == 2 else None
    if not told:
        return Gate("", "", "", "no gate has proved a tree here: .ci/run does")
    if found.changed:
        return Gate("", "", "", f"files differ from the commit, as {found.changed[0]}")
    if told[1] != found.commit:
        return Gate("", "", "", f"the gate proved commit {told[1][:12]}, and this is {found.commit[:12]}")
    return Gate(told[2], told[3], lines[1], "")


def keep_gate():
    """Says which commit was proved, and keeps that for `tools/release`. If the tree has other files than its commit, nothing is kept."""
    try:
        found = tree()
    except NoTree as fault:
        print(f"gate: proved a tree without a commit: {fault}")
        return 0
    kit = subprocess.run(["rt", "version"], capture_output=True, text=True).stdout.strip()
    if found.changed:
        print(f"gate: proved commit {found.commit}, but for files that differ from it, as {found.changed[0]}, by {kit}")
        return 0
    line = f"gate: proved commit {found.commit} by {kit} on {time.strftime('%Y-%m-%d', time.gmtime())}"
    GATE.parent.mkdir(exist_ok=True)
    count = COUNT.read_text().strip() if COUNT.is_file() else "passed"
    GATE.write_text(f"{line}\n{count}\n")
    print(line)
    return 0


if __name__ == "__main__":
    if sys.argv[1:] != ["--gate"]:
        print(__doc__, end="", file=sys.stderr)
        sys.exit(2)
    sys.exit(keep_gate())
