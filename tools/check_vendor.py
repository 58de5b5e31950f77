#!/usr/bin/env python3
"""Makes a small repository, puts the library into it by `tools/vendor`, and builds a caller there.

    python3 tools/check_vendor.py             the caller is built and run without proof
    python3 tools/check_vendor.py --proved    `rt ci` proves and runs it, and takes what the gate of this tree kept of the library

The caller changes a bytearray through a view, and has a clause that cites the library's. It has to print what Python prints for the same
lines. Then everything is tried that `tools/vendor` has to refuse, and that it updates. The last line counts the checks.
"""
import os
import pathlib
import shutil
import signal
import subprocess
import sys
import tempfile

sys.dont_write_bytecode = True

ROOT = pathlib.Path(__file__).resolve().parent.parent
SECONDS = 900
CALLER = """//! Adds a byte to a bytearray whose numbers were set through a view, and prints its bytes.
#![tactic(auto)]

ghost use Rattle.pybuf_object.specs.Plain.{Settles, pushed};

use pybuf::{Halt, PyByteArray, PyMemoryView};
use std::process::ExitCode;

/// Adds a byte at the end.
fn grow(array: &mut PyByteArray, byte: u8) -> Result<(), Halt>
    ensures { Settles (pushed array.old byte) array.old result array.new }
{
    array.push(byte)
}

/// Sets the second number through a view, and adds a byte once the view is released.
fn change(array: &mut PyByteArray) -> Result<(), Halt> {
    let state = array.state_mut();
    let view = PyMemoryView::of_all(state)?;
    let numbers = view.cast_to(state, "H")?;
    numbers.set(state, 1, 513)?;
    numbers.try_release(state)?;
    view.try_release(state)?;
    grow(array, 7)
}

fn main(rt: HostRuntime) -> ExitCode {
    let Ok(mut array) = PyByteArray::from_slice(rt.alloc(), b"\\x01\\x00\\x02\\x00") else {
        return ExitCode::from(3);
    };
    let changed = change(&mut array).is_ok();
    match println!(rt; "{changed} {:?}", array.as_slice()) {
        Ok(()) => ExitCode::SUCCESS,
        Err(_) => ExitCode::from(5),
    }
}
"""
LINE = "caller: pybuf_object pybuf"
passed, faults, skips = [], [], []


def check(name, holds, told=""):
    """Counts a check. If it fails, its name is printed, with what is told of it."""
    if holds:
        passed.append(name)
    else:
        faults.append(name)
        print(f"check_vendor: {name}: it doesn't hold" + "".join(f"\n    {line}" for line in str(told).strip().split("\n")[-20:] if line), flush=True)
    return bool(holds)


def run(*words, folder=ROOT):
    """Runs a command. If it takes too long, it is ended with all that it started, and counts as failed."""
    with subprocess.Popen([str(it) for it in words], cwd=folder, stdin=subprocess.DEVNULL, stdout=subprocess.PIPE, stderr=subprocess.PIPE, text=True, start_new_session=True) as it:
        try:
            written, complaint = it.communicate(timeout=SECONDS)
        except subprocess.TimeoutExpired:
            os.killpg(it.pid, signal.SIGKILL)
            written, complaint = it.communicate()
            complaint += f"it was ended after {SECONDS} seconds\n"
    return subprocess.CompletedProcess(words, it.returncode, written, complaint)


def vendor(folder):
    return run(sys.executable, ROOT / "tools/vendor", folder)


def texts(folder):
    """All files but those of `.git` and `out/`, with what they have."""
    found = {}
    for path in sorted(folder.rglob("*")):
        name = path.relative_to(folder)
        if path.is_file() and ".git" not in name.parts and "out" not in name.parts:
            found[str(name)] = path.read_bytes()
    return found


def refused(name, folder, told):
    """Vendors where it has to be refused: by one line with these words, and nothing changes."""
    before = texts(folder) if folder.is_dir() else None
    ran = vendor(folder)
    same = before == (texts(folder) if folder.is_dir() else None)
    good = ran.returncode == 1 and not ran.stdout and ran.stderr.count("\n") == 1 and told in ran.stderr and same
    check(name, good, f"status {ran.returncode}, {'nothing changed' if same else 'something changed'}\n{ran.stdout}{ran.stderr}")


def new_repository(folder):
    folder.mkdir()
    subprocess.run(["git", "init", "-q"], cwd=folder, check=True)
    return folder


def printed():
    """What Python prints for the lines of the caller."""
    array = bytearray(b"\x01\x00\x02\x00")
    with memoryview(array) as view, view.cast("H") as numbers:
        numbers[1] = 513
    array.append(7)
    return f"true {list(array)}\n"


def check_updates(top):
    """Checks what a second call does."""
    once = texts(top)
    ran = vendor(top)
    check("vendoring twice is the same as once", ran.returncode == 0 and texts(top) == once, ran.stdout + ran.stderr)
    (top / "crates/pybuf/src/lib.rt").write_text("// old\n")
    (top / "crates/pybuf/src/gone.rt").write_text("// gone\n")
    kept = top / "crates/pybuf/out/kept"
    kept.parent.mkdir(exist_ok=True)
    kept.write_text("kept")
    listed = (top / "crates.txt").read_text()
    (top / "crates/pybuf_of_yesterday/src").mkdir(parents=True)
    (top / "crates.txt").write_text(listed.replace("pybuf_lemmas: hex\n", "pybuf_lemmas: hex\npybuf_of_yesterday:\n"))
    ran = vendor(top)
    check("an old library is updated", ran.returncode == 0 and texts(top) == once, ran.stdout + ran.stderr)
    check("a crate that went from the library goes", not (top / "crates/pybuf_of_yesterday").exists())
    check("what was built stays", kept.is_file())
    kept.unlink()


def check_refusals(room):
    """Checks what is refused."""
    plain = room / "plain"
    plain.mkdir()
    refused("a folder that is no repository", plain, "is no repository")
    refused("a folder that isn't there", room / "none", "is no repository")
    refused("a file", ROOT / "LICENSE", "is no repository")
    ran = vendor(ROOT)
    check("this repository itself", ran.returncode == 1 and "the library itself" in ran.stderr, ran.stderr)
    own = new_repository(room / "own")
    (own / "crates/pybuf_desc").mkdir(parents=True)
    (own / "crates/pybuf_desc/mine").write_text("mine")
    refused("a folder of a crate with the same name", own, "has a crate pybuf_desc already")
    line = new_repository(room / "line")
    (line / "crates.txt").write_text("pybuf_index:\n")
    refused("a line of a crate with the same name", line, "has a crate pybuf_index already")
    bound = new_repository(room / "bound")
    (bound / "HANDLES").write_text("Handles allowed: Wait.\n")
    refused("a repository that allows less", bound, "doesn't allow Threads")
    half = new_repository(room / "half")
    (half / "crates.txt").write_text("# Vendored from pybuf 0.0.0\npybuf:\n")
    refused("half of what was vendored", half, "and not the last")
    ran = run(sys.executable, ROOT / "tools/vendor")
    check("no folder", ran.returncode == 2 and "tools/vendor FOLDER" in ran.stderr, ran.stderr)
    top = new_repository(room / "top")
    (top / "mine/src").mkdir(parents=True)
    (top / "crates.txt").write_text("mine:\n")
    ran = vendor(top)
    flat = (top / "pybuf/src/lib.rt").is_file() and not (top / "crates").exists() and "\nmine:\n" in (top / "crates.txt").read_text()
    check("a repository with its crates at the top gets them there", ran.returncode == 0 and flat, ran.stdout + ran.stderr)


def keeps():
    """Whether the kit keeps what a gate proved, beside itself."""
    rt = shutil.which("rt")
    return rt is not None and any((pathlib.Path(os.path.realpath(rt)).parent.parent.parent / "rattle-kept").glob("proof-pybuf-*"))


def main(words):
    if words not in ([], ["--proved"]):
        print(__doc__, end="", file=sys.stderr)
        return 2
    with tempfile.TemporaryDirectory(prefix="check-vendor-") as folder:
        room = pathlib.Path(folder)
        check_refusals(room)
        top = new_repository(room / "repository")
        (top / "crates/caller/src").mkdir(parents=True)
        (top / "crates/caller/src/main.rt").write_text(CALLER)
        (top / "crates/caller/stdout").write_text(printed())
        (top / "crates.txt").write_text(f"{LINE}\n")
        ran = vendor(top)
        if check("the library is vendored", ran.returncode == 0, ran.stdout + ran.stderr):
            listed = (top / "crates.txt").read_text()
            check("the caller's line stays", f"\n{LINE}\n" in listed, listed)
            strange = [it for it in texts(top) if it.startswith("crates/") and not it.startswith(("crates/pybuf", "crates/caller"))]
            check("no tests, benchmarks, examples or programs come along", not strange and "crates/pybuf_program/src/main.rt" not in texts(top), strange[:5])
            check_updates(top)
            if words and keeps():
                ran = run("rt", "ci", folder=top)
                check("the repository is proved, and the caller prints what Python prints", ran.returncode == 0, ran.stdout + ran.stderr)
            else:
                if words:
                    skips.append("vendor, the proof of a caller: the kit keeps nothing of what the gate proved")
                ran = run("rt", "try", "--steps", "0", folder=top / "crates/caller")
                check("the caller prints what Python prints", ran.stdout == printed(), ran.stdout + ran.stderr)
    for reason in skips:
        print(f"skipped: {reason}")
    print(f"{len(passed)} passed, {len(faults)} failed" + (f", {len(skips)} skipped" if skips else ""))
    return 1 if faults else 0


if __name__ == "__main__":
    sys.exit(main(sys.argv[1:]))
