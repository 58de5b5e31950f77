#!/usr/bin/env python3
"""Builds the program and all tests without proof, and runs everything that is tested. `./test` calls this.

    ./test             all parts
    ./test WORD..      those parts whose names have one of the words
    ./test --built     those parts that `rt ci` has not run, on what it built: so does `.ci/run`
    ./test --list      the names of the parts

It proves nothing. Its parts are each crate of tests and each program with stored output, which `rt try` builds and runs; the
cases and examples; what the pages show; the sections of programs, compared with `readelf`; a release; a repository into which the
library is vendored; and the bindings. As many parts
run side by side as there are processors, and memory for them. Each part has a line when it ends. If it failed, what it said stands
below that line, with the command that repeats the part alone. A part that can't be run here is skipped, and the reason is said.

The last line is `N passed, M failed`, or `N passed, M failed, K skipped`: of test functions, programs, cases and checks. The
status is 1 if anything failed, 2 if a word names no part, and else 0.

Two parts, `file-reader` and `interpreter`, follow the pages to learn from in a fresh folder. `--built` leaves them out, as they build
their programs anew.
"""
import os
import pathlib
import re
import subprocess
import sys
import threading
import time
from concurrent.futures import ThreadPoolExecutor, as_completed

sys.dont_write_bytecode = True

from processes import started_from_here

ROOT = pathlib.Path(__file__).resolve().parent.parent
# The program that the examples and its stored input run on.
PROGRAM = "pybuf_program"
# How much memory an `rt try` may want, and how many seconds a program or a test may take, as under `rt ci`.
ROOM_KIB = 3_000_000
SECONDS = "120"
# The last line of a part that counts its own checks, and the lines about what it skipped.
COUNTED = re.compile(r"(\d+) passed, (\d+) failed(?:, (\d+) skipped)?")
SKIPPED = re.compile(r"skipped: (.+)")
SHOWN = 60


class Result:
    """How many tests of a part passed and failed, and how many were skipped, with the reasons. It also has what a reader of a failure needs."""

    def __init__(self, passed, failed, skipped=0, reasons=(), said=""):
        self.passed, self.failed, self.skipped, self.reasons, self.said = passed, failed, skipped, list(reasons), said

    def line(self):
        counts = [(self.passed, "passed"), (self.failed, "FAILED"), (self.skipped, "skipped")]
        return ", ".join(f"{count} {what}" for count, what in counts if count) or "nothing to run"


class Part:
    """A part of the tests: its name, the command that repeats it alone, how it is run, and how large it is."""

    def __init__(self, name, command, run, size=0):
        self.name, self.command, self.run, self.size = name, command, run, size


def said_by(words, folder=ROOT, given=b""):
    """The status of a command, what it wrote, and what it said on standard error."""
    ran = subprocess.run(words, cwd=folder, input=given, stdout=subprocess.PIPE, stderr=subprocess.PIPE)
    return ran.returncode, ran.stdout, ran.stderr.decode(errors="replace")


def counted(words):
    """A part that is a command. Its last line counts its checks, or else the part is one check."""

    def run():
        status, written, complaint = said_by(words)
        text = written.decode(errors="replace") + complaint
        lines = written.decode(errors="replace").rstrip("\n").split("\n")
        found = COUNTED.fullmatch(lines[-1])
        passed, failed, skipped = (int(it or 0) for it in found.groups()) if found else (int(not status), int(bool(status)), 0)
        reasons = [it[1] for it in map(SKIPPED.fullmatch, lines) if it]
        return Result(passed, failed or int(bool(status)), skipped, reasons, text)

    return Part(words[-1], " ".join(words), run)


def command_part(name, *words):
    part = counted(list(words))
    part.name = name
    return part


def skipped_part(name, command, reason):
    return Part(name, command, lambda: Result(0, 0, 1, [f"{name}: {reason}"]))


def tests_part(name, size):
    """The tests of a crate."""

    def run():
        status, written, complaint = said_by(["rt", "try", "--test", "--seconds", SECONDS], ROOT / "crates" / name)
        text = written.decode(errors="replace")
        found = re.search(r"^test result: \w+\. (\d+) passed; (\d+) failed;", text, re.MULTILINE)
        passed, failed = map(int, found.groups()) if found else (0, 1)
        return Result(passed, failed or int(bool(status)), said=text + complaint)

    return Part(name, f"cd crates/{name} && rt try --test", run, size)


def stored(name, file):
    path = ROOT / "crates" / name / file
    return path.read_bytes() if path.is_file() else b""


def program_part(name, size):
    """A program. Its input, words, output and status are stored beside its sources."""
    words = stored(name, "args").decode().splitlines()
    folder = ROOT / "crates" / name
    data = [f"{path.relative_to(folder / 'data')}={path}" for path in sorted(folder.glob("data/**/*")) if path.is_file()]
    flags = [flag for it in data for flag in ("--data", it)]

    def run():
        # (the interpreter would only run once more what is compiled with checks)
        command = ["rt", "try", "--steps", "0", "--seconds", SECONDS, *flags, "--", *words]
        _, written, complaint = said_by(command, folder, stored(name, "stdin"))
        ended = re.findall(r"^run=ended status=(\d+) ", complaint, re.MULTILINE)
        faults = []
        if written != stored(name, "stdout"):
            faults.append(f"{name}: what it wrote is not what its file stdout has\n")
        if ended != [stored(name, "status").decode().strip() or "0"]:
            faults.append(f"{name}: it ended otherwise than it should\n{complaint}")
        return Result(int(not faults), int(bool(faults)), said="".join(faults))

    given = " < stdin" if (folder / "stdin").is_file() else ""
    return Part(name, f"cd crates/{name} && rt try {' '.join([*flags, '--', *words])}{given} | diff - stdout".replace(" -- |", " |").replace(" -- <", " <"), run, size)


def sources(crate):
    return sorted((ROOT / "crates" / crate / "src").glob("**/*.rt"))


def crates():
    """The crates, each with the crates that it stands on."""
    found = {}
    for line in (ROOT / "crates.txt").read_text().split("\n"):
        name, colon, uses = line.partition("#")[0].partition(":")
        if colon:
            found[name.split()[0]] = uses.split()
    return found


def crate_parts():
    """The parts that `rt try` builds. The largest comes first, so that none of them is left to run alone at the end."""
    every, sizes, parts = crates(), {}, []
    for name in every:
        sizes[name] = sum(path.stat().st_size for path in sources(name))

    def size(name):
        below, waiting = set(), [name]
        while waiting:
            below.add(waiting.pop())
            waiting = [it for known in below for it in every[known] if it in every and it not in below]
        return sum(sizes[it] for it in below)

    for name in every:
        if any(re.search(r"^\s*#\[test\]", path.read_text(), re.MULTILINE) for path in sources(name)):
            parts.append(tests_part(name, size(name)))
        if (ROOT / "crates" / name / "src/main.rt").is_file() and name != PROGRAM:
            parts.append(program_part(name, size(name)))
    return sorted(parts, key=lambda part: -part.size)


def parts(built):
    """All parts. If everything is built, the parts that `rt ci` has run are left out."""
    checks = [
        command_part("documents", "python3", "tools/check_documents.py"),
        command_part("tasks", "python3", "tools/python_tasks.py", "--check"),
        command_part("items", "python3", "tools/check_items.py"),
        command_part("names", "python3", "tools/check_names.py"),
        command_part("boundaries", ".ci/boundaries"),
        command_part("byhand", ".ci/byhand"),
        command_part("misuse", "python3", "tools/misuse.py"),
    ]
    if built:
        return [
            *checks,
            command_part("cases", "python3", "tools/run_cases.py"),
            command_part("sections", "python3", "tools/compare_sections.py"),
            command_part("bindings-build", "bindings/build", "--after-ci"),
            command_part("bindings", "bindings/test"),
            command_part("release", "python3", "tools/check_release.py"),
            command_part("vendor", "python3", "tools/check_vendor.py", "--proved"),
        ]
    return [
        command_part("cases", "python3", "tools/run_cases.py", "--unproved"),
        command_part("examples", "python3", "tools/run_cases.py", "--unproved", "examples"),
        *crate_parts(),
        command_part("file-reader", "python3", "tools/run_pages.py", "file-reader"),
        command_part("interpreter", "python3", "tools/run_pages.py", "interpreter"),
        *checks,
        command_part("sections", "python3", "tools/compare_sections.py", "--stored"),
        command_part("exports", "python3", "bindings/check_exports.py"),
        command_part("release", "python3", "tools/check_release.py", "--stand-in"),
        command_part("vendor", "python3", "tools/check_vendor.py"),
        skipped_part("bindings", "bindings/build && bindings/test", "rt builds a static library of a proved crate alone; `.ci/run` runs them"),
    ]


def at_once():
    """How many parts run side by side."""
    processors = len(os.sched_getaffinity(0))
    found = re.search(r"^MemAvailable: +(\d+) kB", pathlib.Path("/proc/meminfo").read_text(), re.MULTILINE)
    return max(1, min(processors, int(found[1]) // ROOM_KIB if found else processors))


def give_way():
    """Lets what `rt try` does beside a build, for a hint on names that a proof would refuse, have only what is left of the processors: it
    takes as much as the build. No test needs it."""
    known = set()
    while True:
        for number, (words, _) in started_from_here().items():
            if "no function" in words and number not in known:
                known.add(number)
                try:
                    os.sched_setscheduler(int(number), os.SCHED_IDLE, os.sched_param(0))
                except OSError:
                    pass
        time.sleep(0.5)


def timed(part):
    start = time.monotonic()
    try:
        result = part.run()
    except OSError as fault:
        result = Result(0, 1, said=f"{fault}\n")
    return result, time.monotonic() - start


def main(words):
    if "--help" in words or "-h" in words:
        print(__doc__, end="")
        return 0
    chosen = parts("--built" in words)
    names = [it for it in words if not it.startswith("--")]
    strange = [it for it in words if it.startswith("--") and it not in ("--built", "--list")]
    if strange:
        print(f"test: there is no option {strange[0]}; ./test --help says which there are", file=sys.stderr)
        return 2
    for name in names:
        if not any(name in part.name for part in chosen):
            print(f"test: no part has {name!r} in its name; ./test --list names the parts", file=sys.stderr)
            return 2
    if names:
        chosen = [part for part in chosen if any(name in part.name for name in names)]
    if "--list" in words:
        print("\n".join(part.name for part in chosen))
        return 0
    start, results = time.monotonic(), []
    threading.Thread(target=give_way, daemon=True).start()
    with ThreadPoolExecutor(1 if "--built" in words else at_once()) as pool:
        running = {pool.submit(timed, part): part for part in chosen}
        for done in as_completed(running):
            part, (result, seconds) = running[done], done.result()
            results.append(result)
            print(f"{part.name}: {result.line()}, {seconds:.0f} s", flush=True)
            if result.failed:
                lines = result.said.rstrip("\n").split("\n")
                if len(lines) > SHOWN:
                    print(f"    .. ({len(lines) - SHOWN} lines before)")
                print("".join(f"    {line}\n" for line in lines[-SHOWN:]), end="")
                print(f"    repeat it alone: {part.command}", flush=True)
    minutes, seconds = divmod(round(time.monotonic() - start), 60)
    print(f"{len(results)} parts in {minutes} min {seconds} s")
    for result in results:
        for reason in result.reasons:
            print(f"skipped: {reason}")
    passed, failed, skipped = (sum(getattr(it, what) for it in results) for what in ("passed", "failed", "skipped"))
    print(f"{passed} passed, {failed} failed" + (f", {skipped} skipped" if skipped else ""))
    return 1 if failed else 0


if __name__ == "__main__":
    sys.exit(main(sys.argv[1:]))
