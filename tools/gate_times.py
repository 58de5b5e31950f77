#!/usr/bin/env python3
"""Runs the gate, and says how long it took, and how much of that each crate took.

    python3 tools/gate_times.py [COMMAND..]     COMMAND is `.ci/run` if none is given

What the command prints is passed on. Behind it stand the minutes, the processor minutes of all processes that it started, and whether
this was a run from nothing. A gate that kept something of an earlier run says so, and its figures aren't those of a whole run. Then
comes a row for each crate: the processor minutes of its proof, of its tests, of its edits (with the proof of the crate that they begin with, and
of the one behind them) and of what was built of it; and then the longest single works. It ends with the status of the command.

Twice a second the processes of the prover are looked at, so what they do at their very end isn't in the rows. The sum of all
processes is the system's own, and what is in no row is `rt`, the tests, the programs and the cases.
"""
import ctypes
import os
import pathlib
import re
import resource
import subprocess
import sys
import threading
import time

sys.dont_write_bytecode = True

from processes import read, started_from_here

ROOT = pathlib.Path(__file__).resolve().parent.parent
TICKS = os.sysconf("SC_CLK_TCK")
LONGEST = 12
PAUSE = 0.5
# The arguments of `prctl` by which a process becomes the parent of processes that lose their own.
SET_CHILD_SUBREAPER = 36
COLUMNS = ("proof", "tests", "edits", "programs")
# The column of each kind of work.
COLUMN = {"proof": "proof", "tests": "tests", "edit": "edits", "edit from nothing": "edits", "crate behind its edits": "edits", "build of what was proved": "programs"}
WHOLE = "every proof and must-fail edit was done in this run"
PART = re.compile(r"done in this run: (.*?); the others are kept")


def processes():
    """Each process of the prover that was started from here: its parent's number, its words, its folder and its time."""
    found = {}
    for number, (words, stat) in started_from_here().items():
        if words[0].endswith("/rattle"):
            try:
                folder = os.readlink(f"/proc/{number}/cwd")
            except OSError:
                continue
            # its own time, and that of the children that have ended
            own, ended = (sum(map(int, stat[at : at + 2])) / TICKS for at in (11, 13))
            found[number] = (stat[1], words, folder, own, ended)
    return found


def edited(crate, edit):
    """What an edit makes of each file that it changes."""
    file, old, texts = None, None, {}
    for line in read(edit).split("\n"):
        if line.startswith("file: "):
            file = line.removeprefix("file: ").strip()
        elif line.startswith("old: "):
            old = line.removeprefix("old: ")
        elif line.startswith("new:") and file and old:
            text = texts.get(file) or read(ROOT / "crates" / crate / file)
            texts[file] = text.replace(old, line.removeprefix("new:").removeprefix(" "))
            old = None
    return texts


def edit_named(crate, folder):
    """The name of the edit by which a copy of a crate was made. It is None for the crate as it is."""
    for edit in sorted((ROOT / "crates" / crate / "must-fail").glob("*.edit")):
        texts = edited(crate, edit)
        if texts and all(read(f"{folder}/{file}") == text for file, text in texts.items()):
            return edit.stem
    return None


def what(words, folder):
    """The kind of a process's work, and what the work is done for. It is None for a process that proves nothing."""
    if "--crate-name" not in words or words[1] not in ("build", "check"):
        return None
    crate = words[words.index("--crate-name") + 1]
    if "rt-edit" in folder:
        name = edit_named(crate, folder)
        if name is None:
            return "crate behind its edits", crate
        return ("edit" if "--incremental" in words else "edit from nothing"), f"{crate}/{name}"
    if "--crate-checked" in words:
        return "build of what was proved", crate
    return ("tests" if "--test" in words else "proof"), crate


class Work:
    """What one process of the prover, with all that it started, was seen to do."""

    def __init__(self, kind, name, begun):
        self.kind, self.name, self.begun, self.ended, self.time = kind, name, begun, begun, 0.0


def look(seen, now):
    """Adds what the processes of this moment show."""
    found = processes()
    for number, (_, words, folder, own, ended) in found.items():
        top = number
        while found[top][0] in found:
            top = found[top][0]
        if top == number:
            label = what(words, folder)
            if label is None:
                continue
            work = seen.setdefault((number, folder), Work(*label, now))
            below = sum(it[3] for other, it in found.items() if other != number and is_below(found, other, number))
            work.ended, work.time = now, max(work.time, own + ended + below)


def is_below(found, number, top):
    while found[number][0] in found:
        number = found[number][0]
        if number == top:
            return True
    return False


def together(works):
    """The works of one name and kind as one."""
    found = {}
    for it in works:
        whole = found.setdefault((it.kind, it.name), Work(it.kind, it.name, it.begun))
        whole.begun, whole.ended, whole.time = min(whole.begun, it.begun), max(whole.ended, it.ended), whole.time + it.time
    return list(found.values())


def minutes(seconds):
    return f"{seconds / 60:.1f}"


def table(works):
    """A row for each crate, the dearest first, and their sums."""
    crates = {}
    for it in works:
        row = crates.setdefault(it.name.partition("/")[0], dict.fromkeys(COLUMNS, 0.0))
        row[COLUMN[it.kind]] += it.time
    rows = sorted(crates.items(), key=lambda row: -sum(row[1].values()))
    rows.append(("sum", {column: sum(row[column] for _, row in rows) for column in COLUMNS}))
    width = max(len(name) for name, _ in rows)
    yield f"{'processor minutes':<{width}}" + "".join(f"{column:>10}" for column in (*COLUMNS, "all"))
    for name, row in rows:
        yield f"{name:<{width}}" + "".join(f"{minutes(seconds):>10}" for seconds in (*row.values(), sum(row.values())))


def longest(works):
    yield "begun   took  processors  the longest works, in minutes"
    for it in sorted(works, key=lambda it: -it.time)[:LONGEST]:
        yield f"{minutes(it.begun):>5}{minutes(it.ended - it.begun):>7}{minutes(it.time):>12}  {it.kind}: {it.name}"


def origin(said):
    """Whether the figures are those of a run from nothing."""
    kept = next((PART.search(line) for line in said if PART.search(line)), None)
    if kept:
        return f"NOT from nothing: this run did {kept[1]}, and the others were kept, so these figures aren't those of a whole gate"
    if any(WHOLE in line for line in said):
        return "from nothing: every proof and every edit was done in this run"
    return "it isn't known whether this was from nothing: the command didn't say what was kept (a kit that keeps nothing doesn't say it)"


def reaped(pid):
    """Waits for children that have ended, and gives the status of the one with this number, or None while it runs."""
    found = None
    while True:
        try:
            number, status, _ = os.wait4(-1, os.WNOHANG)
        except ChildProcessError:
            return found
        if number == 0:
            return found
        if number == pid:
            found = os.WEXITSTATUS(status) if os.WIFEXITED(status) else 128 + os.WTERMSIG(status)


def main():
    command = sys.argv[1:] or [str(ROOT / ".ci" / "run")]
    # (so that the time of a process whose parent ended before it counts too)
    ctypes.CDLL(None).prctl(SET_CHILD_SUBREAPER, 1, 0, 0, 0)
    seen, said, start = {}, [], time.monotonic()
    running = subprocess.Popen(command, stdout=subprocess.PIPE)

    def pass_on():
        for line in running.stdout:
            sys.stdout.buffer.write(line)
            sys.stdout.buffer.flush()
            if line.startswith(b"rt: ok"):
                said.append(line.decode(errors="replace"))

    reader = threading.Thread(target=pass_on, daemon=True)
    reader.start()
    status = None
    while status is None:
        look(seen, time.monotonic() - start)
        time.sleep(PAUSE)
        status = reaped(running.pid)
    whole = time.monotonic() - start
    reader.join(10)
    reaped(running.pid)
    used = resource.getrusage(resource.RUSAGE_CHILDREN)
    works = together(seen.values())
    print(f"\n{minutes(whole)} minutes, {minutes(used.ru_utime + used.ru_stime)} processor minutes of all processes, on {os.cpu_count()} processors, status {status}")
    print(origin(said))
    if works:
        print("", *table(works), "", *longest(works), sep="\n")
    return status


if __name__ == "__main__":
    sys.exit(main())
