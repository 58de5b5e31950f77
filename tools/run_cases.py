#!/usr/bin/env python3
"""Runs the cases on a program that was built, and ends with status 1 if one differs.

    python3 tools/run_cases.py [PROGRAM [FOLDER..]]
    python3 tools/run_cases.py --unproved          runs all but the examples, on what `rt try` builds without proof
    python3 tools/run_cases.py --unproved examples runs the examples, and the input that is stored beside the program, in the same way

PROGRAM is what the gate built, `crates/pybuf_program/out/pybuf_program`, if none is named. The FOLDERs are `examples` and every
folder of `cases/`, if none is named. Then the lines of `cases/no-commands.txt` and `cases/no-operations.txt` and the inputs
that are made here are run too. Without proof the examples run on the program itself, and all others on its one call,
`serve`. `tools/unproved.py` says why. Cases that need memory to be short are skipped then.

A case is a file NAME, which is the input. Beside it, NAME.stdout has what has to be written. NAME.args has the words behind
the program's name, with a word in each line. If it isn't there, there are none. NAME.status has the status that has to come.
If it isn't there, this is 0. NAME.stderr has what has to come on standard error. If it isn't there, `tools/complaints.py` says
what has to come. Each line of `cases/no-commands.txt` is an input of its own, and so is each line of `cases/no-operations.txt`,
which is read with the words `array H`.

In `share`, the order between the sessions is open. So if an input has lines of more than one session, what is written has to
be what a single thread gets in the order that stands there (`tools/check_sessions.py`). The stored output has to be so too.
Some such inputs are drawn.

As many cases run side by side as there are processors. The last line counts them. A folder fails that isn't there or has no
case. So does a file that isn't a case, belongs to none, and isn't a README.md.
"""

import ast
import collections
import itertools
import os
import pathlib
import re
import resource
import subprocess
import sys
from concurrent.futures import ThreadPoolExecutor

sys.dont_write_bytecode = True

import check_sessions
import complaints
import unproved
from unproved import Ran

ROOT = pathlib.Path(__file__).resolve().parent.parent
PROGRAM = ROOT / "crates/pybuf_program/out/pybuf_program"
# Files of wrong lines, and the words with which each file is read.
WRONG_LINES = {"no-commands": (), "no-operations": (b"array", b"H")}
PAGE = "README.md"
SECONDS = 10
# The number of bytes that an input may have.
LIMIT = 1_048_576
# This is many times what the program needs for any input here, and less than three dozen lists of a million places take.
ADDRESS_SPACE = 256 * 1024 * 1024
DONE, BAD_LINE, NO_MEMORY, USAGE, TOO_LONG, BAD_DATA = 0, 2, 3, 6, 7, 9
# In both inputs only the third command runs out of memory. In the first it finds none, in the second its reply does.
GREATER = b"new bytearray x61\nget h0 0\ncall h0 mul 60000000000\nget h0 0\n"
LONGER = b"new bytearray 15000000\nget h0 0\nbytes h0\nget h0 0\n"

# `address_space` is how many bytes the process may map, or None for no such limit.
# `written` is None if only the checker of sessions says what may come.
# `complaint` is what has to come on standard error, or None if tools/complaints.py says it.
Case = collections.namedtuple("Case", "name given written status words address_space complaint", defaults=((), None, None))
# `faults` are what is wrong with the folder itself.
Folder = collections.namedtuple("Folder", "name cases faults")


def shown(line):
    """A line as Python writes its bytes. Of a long line only the front is shown."""
    if line is None:
        return "nothing"
    return repr(line) if len(line) <= 100 else f"{line[:100]!r} and {len(line) - 100} bytes more"


def first_difference(wanted, came):
    """The first line that differs. Line feeds are shown, since the last one may be missing."""
    lines = (re.findall(rb"[^\n]*\n|[^\n]+", text) for text in (wanted, came))
    for number, (expected, found) in enumerate(itertools.zip_longest(*lines), 1):
        if expected != found:
            return f"line {number} of the output has to be {shown(expected)}, and is {shown(found)}"
    return None


def has_open_order(case):
    """Whether an input has lines of several sessions, so that their order is open."""
    sessions = {line.split(b" ")[0] for line in case.given.split(b"\n")[1:] if line}
    return list(case.words) == [b"share"] and case.status == DONE and len(sessions) > 1


def difference(program, case, written):
    """What differs in what was written, as a text, or None."""
    if not has_open_order(case):
        return None if written is None else first_difference(case.written, written)
    given = case.given.removesuffix(b"\n").split(b"\n")
    for what, text in (("what is written", written), ("what is kept", case.written)):
        # (if the last line feed is missing, the last line doesn't end)
        fault = text is not None and check_sessions.fault_of(program, given, text.split(b"\n")[:-1])
        if fault:
            return f"{what} is not what one thread gets: {fault}"
    return None


def run(program, case):
    """Runs a case on a program that was built."""
    pipes = dict.fromkeys(("stdin", "stdout", "stderr"), subprocess.PIPE)
    try:
        with subprocess.Popen([program, *case.words], env={}, **pipes) as process:
            if case.address_space is not None:
                # (in time: the program works once its input has ended, and nothing of that was written yet)
                resource.prlimit(process.pid, resource.RLIMIT_AS, (case.address_space, case.address_space))
            try:
                written, complaint = process.communicate(case.given, timeout=SECONDS)
            except subprocess.TimeoutExpired:
                process.kill()
                return Ran(None, None, b"", f"it had not ended after {SECONDS} seconds")
    except (OSError, ValueError) as error:
        return Ran(None, None, b"", f"it was not run: {error}")
    return Ran(process.returncode, written, complaint)


def differences(program, case, ran):
    """What differs in the result of a case, as texts."""
    if ran.fault:
        return [ran.fault]
    found = [difference(program, case, ran.written)]
    if ran.status < 0:
        found.append(f"signal {-ran.status} ended it")
    elif ran.status != case.status:
        found.append(f"the status has to be {case.status}, and is {ran.status}")
    if ran.complaint is not None:
        written = case.written if ran.written is None else ran.written
        found.append(complaints.fault_of(case.status, case.words, case.given, written or b"", ran.complaint))
        if case.complaint is not None and ran.complaint != case.complaint:
            found.append(f"standard error has to have {case.complaint!r}, and it has {ran.complaint!r}")
    return [it for it in found if it is not None]


def folder_of(path):
    """The cases of a folder of files."""
    label = os.path.relpath(path, ROOT) if ROOT in path.parents else str(path)
    if not path.is_dir():
        return Folder(label, [], ["it is not there"])
    files = {it.name for it in path.iterdir() if it.is_file()}
    inputs = sorted(name for name in files if f"{name}.stdout" in files)
    belonging = {name + ending for name in inputs for ending in ("", ".stdout", ".args", ".status", ".stderr")}
    strays = sorted(it.name for it in path.iterdir() if it.name not in {*(files & belonging), PAGE})
    faults = [f"{name} neither is a case nor belongs to one" for name in strays]
    cases = []
    for name in inputs:
        status, words = b"0", b""
        if f"{name}.status" in files:
            status = (path / f"{name}.status").read_bytes().strip()
        if f"{name}.args" in files:
            words = (path / f"{name}.args").read_bytes()
        if re.fullmatch(rb"[0-9]{1,3}", status) is None:
            faults.append(f"{name}.status holds no status")
            continue
        given, written = ((path / it).read_bytes() for it in (name, f"{name}.stdout"))
        told = (path / f"{name}.stderr").read_bytes() if f"{name}.stderr" in files else None
        # (the last line feed ends a word, and doesn't begin one)
        lines = words.split(b"\n")
        cases.append(Case(name, given, written, int(status), lines if lines[-1] else lines[:-1], None, told))
    return Folder(label, cases, faults)


def wrong_lines(name, words):
    """The lines of a file, of which each is an input of its own. None is a command, or an operation if these words are given."""
    path, cases, faults = ROOT / f"cases/{name}.txt", [], []
    lines = path.read_text().split("\n") if path.is_file() else []
    for number, text in enumerate(lines, 1):
        if not text or text.startswith("#"):
            continue
        try:
            line = ast.literal_eval(text)
        except (SyntaxError, ValueError):
            line = None
        if not isinstance(line, bytes) or b"\n" in line:
            faults.append(f"line {number} of {path.relative_to(ROOT)} is no literal of the bytes of one line")
        else:
            cases.append(Case(text, line + b"\n", b"line 1 is not a command\n", BAD_LINE, words))
    return Folder(name, cases, faults)


def long_words():
    """Words of about a million bytes. What is read in steps that grow with the square of a word's length would not end
    in time, and what calls itself for each part of a word would run out of stack. Each is a key of a bytearray, and
    where it is a value the command is refused, since only a number or a slice is a key; else its line is no command."""
    refused, bad = (b"h0\n! TypeError\n", DONE), (b"line 2 is not a command\n", BAD_LINE)
    for name, word, (written, status) in [
        # zeros in front of a number don't count, however many there are
        ("a 2 behind a million zeros", b"0" * 1_000_000 + b"2", (b"h0\n99\n", DONE)),
        # a number has at most 128 bits
        ("a number of a million digits", b"9" * 1_000_000, bad),
        ("a text of a million bytes", b"'" + b"a" * 1_000_000 + b"'", refused),
        ("a million digits of bytes", b"x" + b"aB" * 500_000, refused),
        ("a tuple of half a million numbers", b"(1" + b",1" * 500_000 + b")", refused),
        # a comma between quotes separates nothing
        ("a list of many texts with commas", b"[1" + b",'a,b'" * 160_000 + b"]", refused),
        ("a tuple of many slices", b"(1:1:1" + b",1:1:1" * 160_000 + b")", refused),
        # a tuple of slices has no other part, and here only the last part shows that this isn't one
        ("a number behind many slices", b"(1:1:1" + b",1:1:1" * 160_000 + b",1)", bad),
        # no part of a slice or of a tuple may be empty
        ("a million colons", b"1" + b":" * 1_000_000, bad),
        ("a million commas", b"(" + b"," * 1_000_000 + b")", bad),
    ]:
        yield Case(name, b"new bytearray x616263\nget h0 " + word + b"\n", written, status)


def drawn_sessions():
    """Inputs of sessions that are drawn. Each run draws the same ones."""
    inputs = check_sessions.drawn(16, 17, 16, 200) + check_sessions.scripts(10, 50)
    given = (b"".join(line + b"\n" for line in lines) for lines in inputs)
    # (an input with lines of no session, or of only one, is no such case)
    cases = [Case(f"input {number}", it, None, DONE, [b"share"]) for number, it in enumerate(given, 1)]
    return Folder("drawn sessions", [it for it in cases if has_open_order(it)], [])


def large_inputs():
    """Cases that are too large to be kept as files."""
    made, count = b"new bytearray x\n", 149_792
    lines = made + count * b"len h0\n" + made
    assert len(lines) == LIMIT
    asked = 104_856
    shared = b"new bytearray x\n" + asked * b"0 len own\n"
    assert len(shared) == LIMIT
    views = b"new bytearray 1000000\n" + 10_000 * b"view h0\n" + b"set h1 999999 7\nget h10000 999999\n"
    handles = b"".join(b"h%d\n" % number for number in range(10_001))
    # A quarter of a million numbers in one line, and a view of a view of a view of them.
    listed = b"extend [258" + 249_999 * b",258" + b"]\nbyteswap\n"
    viewed = b"view\nvslice 0 None:None:-1\nvslice 1 1:None:-9223372036854775808\nvget 2 -1\nlen\nappend 0\n"
    released = b"release 0\nrelease 1\nrelease 2\npop\n"
    cases = [
        # There are as many lines as an input can hold, each with its reply. More than 64 KiB are written in several pieces.
        Case("as many lines as an input can hold", lines, b"h0\n" + count * b"0\n" + b"h1\n", DONE),
        # If an input is too long, nothing of it is run, though each of its whole lines is a command.
        Case("as many lines, and one byte more", lines + b"\n", b"", TOO_LONG),
        # The longest input is read. Only then is its one line, which lacks its line feed, found to be no command.
        Case("the longest input", LIMIT * b"a", b"line 1 is not a command\n", BAD_LINE),
        # An input with one byte more is too long, whatever its lines are.
        Case("the longest input, and one byte more", (LIMIT + 1) * b"a", b"", TOO_LONG),
        # The same holds for an input of sessions: none of them begins.
        Case("the longest input of sessions", shared, b"0: len own -> 0\n" * asked + b"calls %d\nbytes b''\n" % asked, DONE, [b"share"]),
        Case("the longest input of sessions, and one byte more", shared + b"\n", b"", TOO_LONG, [b"share"]),
        Case("the longest line of sessions", LIMIT * b"a", b"line 1 is not a command\n", BAD_LINE, [b"share"]),
        # In the longest input of operations each is answered, and the replies are written in several pieces.
        Case("as many operations as an input can hold", LIMIT // 4 * b"len\n", LIMIT // 4 * b"0\n", DONE, [b"array", b"b"]),
        Case("the longest input of operations, and one byte more", LIMIT // 4 * b"len\n" + b"\n", b"", TOO_LONG, [b"array", b"b"]),
        Case(
            "a quarter of a million numbers in a list",
            listed + viewed + released,
            b"ok\nok\nv0\nv1\nv2\n513\n250000\n! BufferError\nok\nok\nok\n513\n",
            DONE,
            [b"array", b"H"],
        ),
        # As many records as an input can hold, each with its line, which takes no more memory than one does; of such an
        # input with one byte more, and of one with a byte that makes no whole record, none is written.
        Case("the longest table", LIMIT * b"\7", b"(7,)\n" * LIMIT, DONE, [b"table", b"B"], ADDRESS_SPACE // 4),
        Case("records that are chosen of the longest table", (LIMIT // 2) * b"\7\1", b"(7,)\n" * (LIMIT // 2), DONE, [b"table", b"B", b"0", b">", b"1"], ADDRESS_SPACE // 4),
        Case("the longest table, and one byte more", (LIMIT + 1) * b"\7", b"", TOO_LONG, [b"table", b"B"]),
        Case("the longest table of which a byte is left over", LIMIT * b"\7", b"1 bytes left over\n", BAD_DATA, [b"table", b"3B"]),
        # The byte that is written through the first view is read through the last. A view that kept a list of its
        # places would need more memory than there is.
        Case("ten thousand views of a million bytes", views, handles + b"ok\n7\n", DONE, (), ADDRESS_SPACE),
        # This shows that there is no more memory than that, and that running out of it has a status of its own.
        Case("more bytes than there is memory for", b"new bytearray 1000000000\n", b"", NO_MEMORY, (), ADDRESS_SPACE),
        # What was replied before is written, whether the command finds no memory or its reply doesn't: each of these
        # bytes is four in the reply. (A quarter of that memory, which is sooner used up.)
        Case("a command that finds no memory, behind others", GREATER, b"h0\n97\n", NO_MEMORY, (), ADDRESS_SPACE),
        Case("a reply that finds no memory, behind others", LONGER, b"h0\n0\n", NO_MEMORY, (), ADDRESS_SPACE // 4),
    ]
    return Folder("large inputs", [*cases, *long_words()], [])


def folders(named):
    """The folders that are named, or all folders."""
    if named:
        return [folder_of(pathlib.Path(name).resolve()) for name in named]
    kept = sorted(path for path in (ROOT / "cases").glob("*") if path.is_dir())
    wrong = [wrong_lines(name, words) for name, words in WRONG_LINES.items()]
    return [*map(folder_of, [ROOT / "examples", *kept]), *wrong, drawn_sessions(), large_inputs()]


def own_input():
    """The input that is stored beside the program, with its words, output and status, as a case."""
    stored = {name: path.read_bytes() for name in ("stdin", "stdout", "args", "status") for path in [ROOT / "crates/pybuf_program" / name] if path.is_file()}
    words = stored.get("args", b"").split(b"\n")
    case = Case("the stored input", stored.get("stdin", b""), stored.get("stdout", b""), int(stored.get("status", b"0")), words if words[-1] else words[:-1])
    return Folder("crates/pybuf_program", [case], [])


class Replays:
    """What stands for the program in `check_sessions`, where no program is kept: it first takes the lines that one thread is asked,
    and once these were run, it has the replies."""

    def __init__(self):
        self.cases, self.came = {}, {}

    def run(self, program, word, lines):
        given = b"".join(line + b"\n" for line in lines)
        self.cases[given] = Case("a replay", given, None, DONE)
        ran = self.came.get(given)
        if ran is None or ran.fault or ran.status != DONE:
            return None, ran.fault or f"{word} ended with status {ran.status}" if ran else "it was not run"
        return ran.written.split(b"\n")[:-1], None


def run_unproved(chosen, is_program):
    """Runs the cases of folders without proof, and gives what came of each, by folders."""
    is_told = lambda case: case.written is None or has_open_order(case)
    cases = [case for folder in chosen for case in folder.cases]
    ran = unproved.tried(cases, is_told) if is_program else unproved.served(cases, is_told)
    came = [[ran.pop(0) for _ in folder.cases] for folder in chosen]
    replays = Replays()
    check_sessions.run = replays.run
    for folder, answers in zip(chosen, came):
        for case, ran in zip(folder.cases, answers):
            if has_open_order(case) and not ran.fault:
                differences(None, case, ran)
                # (the stored output is replayed even if what is written differs)
                difference(None, case, None)
    if replays.cases:
        replays.came = dict(zip(replays.cases, unproved.served([*replays.cases.values()], is_told)))
    return came


def told(folder, results):
    """Prints what differs in a folder, and gives how many cases passed and failed."""
    differing = [(case, found) for case, found in zip(folder.cases, results) if found]
    faults = folder.faults if folder.cases or folder.faults else ["it has no case"]
    print(f"{folder.name}: {len(folder.cases)} ran, {len(differing)} differ", flush=True)
    for fault in faults:
        print(f"    {fault}")
    texts = {}
    for case, found in differing:
        texts.setdefault("; ".join(found), []).append(case.name)
    for text, names in texts.items():
        others = f" and {len(names) - 1} others" if len(names) > 1 else ""
        print(f"    {names[0]}{others}: {text}")
    return len(folder.cases) - len(differing), len(differing) + len(faults)


def main_unproved(named):
    if named not in ([], ["examples"]):
        print("without proof, either the examples are run or all other cases: run_cases.py --unproved [examples]", file=sys.stderr)
        return 2
    chosen = [*folders(["examples"]), own_input()] if named else folders([])[1:]
    left = [case for folder in chosen for case in folder.cases if case.address_space is not None]
    chosen = [folder._replace(cases=[case for case in folder.cases if case.address_space is None]) for folder in chosen]
    passed = failed = 0
    try:
        ran = run_unproved(chosen, bool(named))
    except unproved.NotRun as fault:
        print(f"no case was run, as nothing was built: {fault}")
        print(f"0 passed, {sum(len(folder.cases) for folder in chosen)} failed")
        return 1
    for folder, came in zip(chosen, ran):
        more = told(folder, [differences(None, case, ran) for case, ran in zip(folder.cases, came)])
        passed, failed = passed + more[0], failed + more[1]
    for case in left:
        print(f"skipped: the case '{case.name}': it needs a limit of memory, which rt try can't set; `.ci/run` runs it")
    print(f"{passed} passed, {failed} failed" + (f", {len(left)} skipped" if left else ""))
    return 1 if failed else 0


def main(words):
    if words[:1] == ["--unproved"]:
        return main_unproved(words[1:])
    program = pathlib.Path(words[0] if words else PROGRAM).resolve()
    if not program.is_file():
        print(f"{program} is not there: build it by `rt ci`, or by `rt run` in crates/pybuf_program", file=sys.stderr)
        print("0 passed, 1 failed")
        return 1
    passed = failed = 0
    with ThreadPoolExecutor(os.cpu_count() or 1) as pool:
        for folder in folders(words[1:]):
            more = told(folder, pool.map(lambda case: differences(program, case, run(program, case)), folder.cases))
            passed, failed = passed + more[0], failed + more[1]
    print(f"{passed} passed, {failed} failed")
    return 1 if failed else 0


if __name__ == "__main__":
    sys.exit(main(sys.argv[1:]))
