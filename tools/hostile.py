#!/usr/bin/env python3
"""Runs the built program while memory is refused, and on lines that were changed at random, and says what it did.

    python3 tools/hostile.py refused [--try] [--last N]
    python3 tools/hostile.py mutated [--count N] [--seed N]

It isn't part of the gate. The program is `crates/pybuf_program/out/pybuf_program`, or what `--program` names. The script ends with
status 1 if a run ended in a way that isn't allowed.

`refused` runs a few cases of `cases/worked`, two of them of `array`, two inputs of `share` and three of `table`, with one growth of memory refused, the first, then the second, and so on until a
run needs no more of them. Each number is run once more with every growth refused from there on. A run may end with the whole output of
the case and status 0. Else it has to end with status 3, its line on standard error, and the replies of the first commands, each
whole. If sessions come in an open order, what is written has to be what a single thread gets, as far as it goes
(`tools/check_sessions.py`). What refuses memory is a small library, compiled by `cc`, that stands before the C library's `malloc`. With `--try` the
toolchain refuses, by `rt try --fail-alloc`, which builds the program anew for each number: that takes a minute for each,
so `--last` says which number is the last.

`mutated` takes a case of `cases/worked` or `examples`, of which each line is a command, and changes one line: a byte is
changed, put in, left out or doubled, two bytes change places, two parts between blanks do, or a number becomes another.
Lines that would ask for more than a million bytes are drawn again. The program has to end with status 0 and as many lines
of replies as the input has lines, or with status 2 and the number of the changed line. The same is done with lines of
`cases/arrays`, and with lines of the cases of `share`, where what is written also has to be what a single thread gets.
"""

import argparse
import collections
import os
import pathlib
import random
import re
import subprocess
import sys
import tempfile
from concurrent.futures import ThreadPoolExecutor

sys.dont_write_bytecode = True

import check_sessions
import complaints

ROOT = pathlib.Path(__file__).resolve().parent.parent
WORKED, SESSIONS, ARRAYS, TABLES = (ROOT / "cases" / name for name in ("worked", "sessions", "arrays", "tables"))
SECONDS = 20
DONE, BAD_LINE, NO_MEMORY = 0, 2, 3
NO_MEMORY_LINE = b"pybuf: no memory\n"
# The cases whose memory is refused. They have items of two bytes, a slice that is assigned over itself, casts and edits.
REFUSED = [
    "items-of-two-bytes-are-listed-and-written",
    "a-slice-is-assigned-one-place-on",
    "a-header-is-written-through-casts-and-bytes-are-added-once-no-view-is-left",
    "edits-by-slices-and-by-indices",
    "a-typed-array-isnt-resized-while-a-view-is-unreleased",
    "a-number-of-a-typed-array-is-set-through-a-slice-of-a-view",
]
# Inputs of `share`: one session with views, an iterator and copies, and two whose order is open.
REFUSED_SESSIONS = ["names-in-replies", "two-sessions-write-six-bytes"]
# Inputs of `table`: records of several values, some that are chosen, and some that are chosen by bytes.
REFUSED_TABLES = ["tables-07", "a-record-that-is-chosen", "bytes-are-no-number"]
# Stands before `malloc` and what else gives memory: refuses the growth of the number in REFUSE_AT, with REFUSE_ON=1 all
# behind it too, and writes a byte to standard error's neighbour, 3, when it first does.
REFUSING = r"""
#define _GNU_SOURCE
#include <dlfcn.h>
#include <errno.h>
#include <stdlib.h>
#include <unistd.h>

static long seen, at = -1;
static int on;

static int refuse(void) {
    if (at < 0) {
        const char *text = getenv("REFUSE_AT");
        at = text ? atol(text) : 0;
        text = getenv("REFUSE_ON");
        on = text && text[0] == '1';
    }
    long number = __atomic_add_fetch(&seen, 1, __ATOMIC_SEQ_CST);
    if (at == 0 || number < at || (number > at && !on)) return 0;
    if (number == at && write(3, "r", 1) != 1) _exit(99);
    errno = ENOMEM;
    return 1;
}

void *malloc(size_t size) {
    static void *(*real)(size_t);
    if (!real) real = dlsym(RTLD_NEXT, "malloc");
    return refuse() ? 0 : real(size);
}

void *realloc(void *old, size_t size) {
    static void *(*real)(void *, size_t);
    if (!real) real = dlsym(RTLD_NEXT, "realloc");
    return refuse() ? 0 : real(old, size);
}

void *aligned_alloc(size_t align, size_t size) {
    static void *(*real)(size_t, size_t);
    if (!real) real = dlsym(RTLD_NEXT, "aligned_alloc");
    return refuse() ? 0 : real(align, size);
}

int posix_memalign(void **out, size_t align, size_t size) {
    static int (*real)(void **, size_t, size_t);
    if (!real) real = dlsym(RTLD_NEXT, "posix_memalign");
    return refuse() ? ENOMEM : real(out, align, size);
}
"""

Ended = collections.namedtuple("Ended", "status written complaint refused", defaults=(None,))


def run(program, given, environment=None, told=None, words=()):
    """Runs the program on an input. `told` is the end of a pipe, which the program may write to as number 3."""
    keep = {} if told is None else {"pass_fds": (3,), "preexec_fn": lambda: os.dup2(told, 3)}
    pipes = dict.fromkeys(("stdout", "stderr"), subprocess.PIPE)
    ended = subprocess.run([program, *words], input=given, env=environment or {}, timeout=SECONDS, **pipes, **keep)
    return Ended(ended.returncode, ended.stdout, ended.stderr)


def lines_of(text):
    return text.removesuffix(b"\n").split(b"\n") if text else []


def fault_of_shared(program, given, ended):
    """The same for sessions, whose order is open."""
    if ended.status not in (DONE, NO_MEMORY):
        return f"it ended with status {ended.status}"
    if ended.complaint != (NO_MEMORY_LINE if ended.status else b""):
        return f"standard error has {ended.complaint!r}"
    if ended.written and not ended.written.endswith(b"\n"):
        return f"the last line of {ended.written!r} is not whole"
    return check_sessions.fault_of(program, lines_of(given), lines_of(ended.written), ended.status == DONE)


def fault_of(ended, whole):
    """What is wrong with a run whose memory was refused, or None. `whole` is what is written with enough memory."""
    if ended.status == DONE:
        return None if ended.written == whole and not ended.complaint else "it ended well with another output"
    if ended.status != NO_MEMORY:
        return f"it ended with status {ended.status}"
    if ended.complaint != NO_MEMORY_LINE:
        return f"standard error has {ended.complaint!r}"
    if not whole.startswith(ended.written):
        return f"{ended.written!r} isn't the beginning of what is due"
    if ended.written and not ended.written.endswith(b"\n"):
        return f"the last reply of {ended.written!r} is not whole"
    return None


def refusing_library(folder):
    """The library that refuses, compiled into a folder."""
    source, library = pathlib.Path(folder) / "refuse.c", pathlib.Path(folder) / "refuse.so"
    source.write_text(REFUSING)
    subprocess.run(["cc", "-shared", "-fPIC", "-O1", "-o", library, source, "-ldl"], check=True)
    return library


def with_refusal(program, library, given, number, behind, words):
    """A run in which the growth with this number is refused, and all later ones too if `behind` says so."""
    reading, writing = os.pipe()
    environment = {"LD_PRELOAD": str(library), "REFUSE_AT": str(number), "REFUSE_ON": str(int(behind))}
    ended = run(program, given, environment, writing, words)
    os.close(writing)
    with os.fdopen(reading, "rb") as told:
        return ended._replace(refused=told.read() != b"")


def words_of(path):
    """The words of a case."""
    args = path.with_name(path.name + ".args")
    return args.read_text().split() if args.exists() else []


def refused_of_case(program, library, folder, name, behind):
    """Runs a case with one number after the other, until a run needs no more growths, and gives a fault or None for each run."""
    given, whole = (folder / name).read_bytes(), (folder / f"{name}.stdout").read_bytes()
    words = words_of(folder / name)
    statuses, fronts, faults = collections.Counter(), collections.Counter(), []
    number = 1
    while True:
        ended = with_refusal(program, library, given, number, behind, words)
        if not ended.refused:
            break
        statuses[ended.status] += 1
        if ended.status == NO_MEMORY:
            fronts[ended.written.count(b"\n")] += 1
        fault = fault_of_shared(program, given, ended) if folder == SESSIONS else fault_of(ended, whole)
        if fault:
            faults.append(f"{name}, growth {number}: {fault}")
        number += 1
    told = ", ".join(f"{count} times {lines}" for lines, count in sorted(fronts.items()))
    which = "all from one on" if behind else "one at a time"
    print(
        f"{name}, {which}: {number - 1} growths refused, {statuses[NO_MEMORY]} runs ended since memory ran out, "
        f"{statuses[DONE]} with the whole output; replies that were put first: {told}",
        flush=True,
    )
    return faults


def refused(program):
    with tempfile.TemporaryDirectory() as folder:
        library = refusing_library(folder)
        return [
            fault
            for behind in (False, True)
            for where, names in ((WORKED, REFUSED), (SESSIONS, REFUSED_SESSIONS), (TABLES, REFUSED_TABLES))
            for name in names
            for fault in refused_of_case(program, library, where, name, behind)
        ]


def refused_by_try(last):
    """The same by the toolchain. It builds once for each number, and then runs each case."""
    faults, statuses = [], collections.Counter()
    for number in range(1, last + 1):
        for name in REFUSED:
            given, whole = (WORKED / name).read_bytes(), (WORKED / f"{name}.stdout").read_bytes()
            words = ["rt", "try", "--fail-alloc", str(number)]
            pipes = dict.fromkeys(("stdout", "stderr"), subprocess.PIPE)
            ended = subprocess.run(words, input=given, cwd=ROOT / "crates/pybuf_program", **pipes)
            # (the toolchain also writes of its run on standard error)
            complaint = NO_MEMORY_LINE if NO_MEMORY_LINE in ended.stderr else b""
            statuses[ended.returncode] += 1
            fault = fault_of(Ended(ended.returncode, ended.stdout, complaint), whole)
            if fault:
                faults.append(f"{name}, growth {number}: {fault}")
            print(f"{name}, growth {number}: status {ended.returncode}, {ended.stdout.count(10)} replies", flush=True)
    print(f"{sum(statuses.values())} runs: {statuses[NO_MEMORY]} ended since memory ran out, and {statuses[DONE]} ended well")
    return faults


NUMBERS = [b"0", b"-1", b"1", b"2", b"7", b"255", b"256", b"65536", b"999999"]
NUMBERS += [b"9223372036854775808", b"-9223372036854775809", b"18446744073709551616"]
NUMBERS += [b"170141183460469231731687303715884105727", b"-170141183460469231731687303715884105728", b"1" + b"0" * 40]
BYTES = bytes(range(32, 127)) + b"\t\r\x00\xff\x80" + b"0123456789abcdefhvx'(),:[]<>=! " * 4
# A number that may be the size of something and is larger than a million. It may begin with zeros.
LARGE = re.compile(rb"(?<![0-9A-Za-z])0*[0-9]{7,19}(?![0-9])")


def changed(draw, line):
    """The line with one change."""
    at, byte = draw.randrange(len(line)), bytes([draw.choice(BYTES)])
    numbers, parts = list(re.finditer(rb"-?[0-9]+", line)), line.split(b" ")
    kind = draw.choice("change put leave double swap parts number number".split())
    if kind == "change":
        return line[:at] + byte + line[at + 1 :]
    if kind == "put":
        return line[:at] + byte + line[at:]
    if kind == "leave":
        return line[:at] + line[at + 1 :]
    if kind == "double":
        return line[: at + 1] + line[at:]
    if kind == "swap":
        return line[:at] + line[at : at + 2][::-1] + line[at + 2 :]
    if kind == "parts":
        one, other = draw.randrange(len(parts)), draw.randrange(len(parts))
        parts[one], parts[other] = parts[other], parts[one]
        return b" ".join(parts)
    if numbers:
        found = draw.choice(numbers)
        return line[: found.start()] + draw.choice(NUMBERS) + line[found.end() :]
    return line


def mutated_input(draw, inputs):
    """The lines of a case, of which one is changed, and the number of that line."""
    while True:
        lines = list(draw.choice(inputs))
        at = draw.randrange(len(lines))
        line = changed(draw, lines[at])
        large = set(LARGE.findall(line)) - set(LARGE.findall(lines[at]))
        if line != lines[at] and not large:
            lines[at] = line
            return lines, at + 1


def fault_of_mutated(program, lines, number, words=()):
    """How the run ended, and what is wrong with it, or None."""
    try:
        ended = run(program, b"".join(line + b"\n" for line in lines), words=words)
    except subprocess.TimeoutExpired:
        return None, f"{lines[number - 1]!r}: it had not ended after {SECONDS} seconds"
    fault = None
    if ended.status == DONE:
        count = ended.written.count(b"\n")
        if count != len(lines) or not ended.written.endswith(b"\n"):
            fault = f"{count} lines were written for {len(lines)} commands"
    elif ended.status == BAD_LINE:
        if ended.written != b"line %d is not a command\n" % number:
            fault = f"the output is {ended.written!r}, and line {number} was changed"
    else:
        fault = f"it ended with status {ended.status}"
    given = b"".join(line + b"\n" for line in lines)
    fault = fault or complaints.fault_of(ended.status, (), given, ended.written, ended.complaint)
    return ended.status, fault and f"{lines[number - 1]!r}, line {number} of {lines!r}: {fault}"


def fault_of_mutated_sessions(program, lines, number):
    """The same for lines of sessions."""
    try:
        ended = run(program, b"".join(line + b"\n" for line in lines), words=["share"])
        fault = None
        if ended.status == BAD_LINE:
            if ended.written != b"line %d is not a command\n" % number:
                fault = f"the output is {ended.written!r}, and line {number} was changed"
            given = b"".join(line + b"\n" for line in lines)
            fault = fault or complaints.fault_of(ended.status, [b"share"], given, ended.written, ended.complaint)
        elif ended.status == DONE:
            fault = check_sessions.fault_of(program, lines, lines_of(ended.written))
        else:
            fault = f"it ended with status {ended.status}"
    except subprocess.TimeoutExpired:
        return None, f"{lines[number - 1]!r}: it had not ended after {SECONDS} seconds"
    return ended.status, fault and f"{lines[number - 1]!r}, line {number} of {lines!r}: {fault}"


def mutated(program, count, seed):
    draw = random.Random(seed)
    faults = mutated_cases(program, count, draw) + mutated_arrays(program, count // 5, draw)
    inputs = [path for path in sorted(SESSIONS.iterdir()) if not path.suffix]
    inputs = [it.read_bytes() for it in inputs if b" is not a command" not in it.with_name(it.name + ".stdout").read_bytes()]
    inputs = [it for it in map(lines_of, inputs) if len(it) > 1]
    drawn = [mutated_input(draw, inputs) for _ in range(count // 5)]
    with ThreadPoolExecutor(os.cpu_count() or 1) as pool:
        results = list(pool.map(lambda it: fault_of_mutated_sessions(program, *it), drawn))
    statuses = collections.Counter(status for status, _ in results)
    print(
        f"{count // 5} lines changed in {len(inputs)} inputs of sessions: {statuses[DONE]} are still commands, and a single thread "
        f"gets what was written; {statuses[BAD_LINE]} aren't commands, and their number was told"
    )
    return faults + [fault for _, fault in results if fault]


def mutated_arrays(program, count, draw):
    """The same for lines of operations on arrays."""
    cases = [path for path in sorted(ARRAYS.iterdir()) if not path.suffix]
    drawn = []
    for _ in range(count):
        case = draw.choice(cases)
        # (the first lines are enough: those of a case don't ask for more as they go on)
        lines, number = mutated_input(draw, [lines_of(case.read_bytes())[:40]])
        drawn.append((lines, number, words_of(case)))
    with ThreadPoolExecutor(os.cpu_count() or 1) as pool:
        results = list(pool.map(lambda it: fault_of_mutated(program, *it), drawn))
    statuses = collections.Counter(status for status, _ in results)
    print(
        f"{count} lines changed in {len(cases)} cases of arrays: {statuses[DONE]} are still operations, and as many replies were "
        f"written as the case has lines; {statuses[BAD_LINE]} aren't operations, and their number was told"
    )
    return [fault for _, fault in results if fault]


def mutated_cases(program, count, draw):
    inputs = [path for folder in (WORKED, ROOT / "examples") for path in sorted(folder.iterdir())]
    inputs = [it for it in inputs if not it.suffix and not it.with_name(it.name + ".args").exists()]
    # (if the output of a case tells of a line that is no command, the case has such a line already)
    inputs = [it.read_bytes() for it in inputs if b" is not a command" not in it.with_name(it.name + ".stdout").read_bytes()]
    inputs = [it.removesuffix(b"\n").split(b"\n") for it in inputs]
    drawn = [mutated_input(draw, inputs) for _ in range(count)]
    with ThreadPoolExecutor(os.cpu_count() or 1) as pool:
        results = list(pool.map(lambda it: fault_of_mutated(program, *it), drawn))
    statuses = collections.Counter(status for status, _ in results)
    print(
        f"{count} lines changed in {len(inputs)} cases: {statuses[DONE]} are still commands, and as many "
        f"replies were written as the case has commands; {statuses[BAD_LINE]} aren't commands, and their number was told"
    )
    return [fault for _, fault in results if fault]


def main():
    parser = argparse.ArgumentParser(description=__doc__, formatter_class=argparse.RawDescriptionHelpFormatter)
    parser.add_argument("what", choices=["refused", "mutated"])
    parser.add_argument("--program", default=str(ROOT / "crates/pybuf_program/out/pybuf_program"))
    parser.add_argument("--try", dest="by_try", action="store_true")
    parser.add_argument("--last", type=int, default=10)
    parser.add_argument("--count", type=int, default=100_000)
    parser.add_argument("--seed", type=int, default=1)
    words = parser.parse_args()
    if words.what == "mutated":
        faults = mutated(words.program, words.count, words.seed)
    elif words.by_try:
        faults = refused_by_try(words.last)
    else:
        faults = refused(words.program)
    for fault in faults[:20]:
        print(f"    {fault}")
    print(f"{len(faults)} runs ended otherwise than they may")
    return 1 if faults else 0


if __name__ == "__main__":
    sys.exit(main())
