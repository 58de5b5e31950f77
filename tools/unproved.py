"""Runs cases on what `rt try` builds without proof, for `tools/run_cases.py`. There are two ways.

`tried` runs the program itself, with `rt try --cases`. That readies each case for half a second, so a thousand cases take ten
minutes. `served` makes a program of its own, in a copy of the sources: it has the program's `src/main.rt` except for `main`, which hands
one case after the other to the same call, `serve`, with sources and sinks in memory. So a thousand cases are run in seconds. The real
words, input and output of the program are what `tried` shows. What a case of `tried` writes on standard error isn't known.
"""

import collections
import os
import pathlib
import re
import shutil
import subprocess
import tempfile

ROOT = pathlib.Path(__file__).resolve().parent.parent
# Below the name that crates have: no crate may have this one.
NAME = "cases_at_once"
SECONDS = "300"
TRY = ["rt", "try", "--steps", "0", "--seconds", SECONDS]
# How many bytes of cases one run of the program serves. A longer case has a run of its own. What ends one run ends no other.
BATCH = 262_144
# If everything that a case writes is told, it counts so many times. It is told in digits, and `rt try` ends a run that writes more than a
# mebibyte. Such a case that reads a few thousand bytes is run alone, since what sessions write may be many times as long, and depends on
# their order.
TOLD = 64

# What came of a case. `written` is None if it is known to be what has to be written. `complaint` is what came on standard error, and None
# if `rt try --cases` doesn't tell it. `fault` says why nothing came.
Ran = collections.namedtuple("Ran", "status written complaint fault", defaults=(None,))


class NotRun(Exception):
    """Nothing was built, so no case was run."""


MAIN = """fn main(rt: HostRuntime) -> ExitCode {
    match words(&rt) {
        Ok(_) => each::serve_all(&rt, rt.alloc(), &mut rt.stdin(), &mut rt.stdout()),
        Err(status) => ExitCode::from(status.number()),
    }
}
"""

# What stands in the program's `src/main.rt`, and what stands there instead if one call serves all cases.
INSTEAD = {
    "mod told;\n": "mod each;\nmod told;\n",
    "use crate::kept::KeptSource;\n": "",
    "use pybuf_cli::{ReaderSource, Status, WriterSink, serve};\n": "use pybuf_cli::Status;\n",
}

# Behind four bytes with how many follow comes each piece: how many words, the words, the input, a byte that is 1 where what is written
# has to be the last piece. The line of a case is its status, the complaint, and `same` or what was written.
EACH = """//! Serves each case of the input, and writes a line of what came.
use crate::told::complaint;
use pybuf_cli::{QuietSink, QuietSource, serve};
use pybuf_line::push_decimal;
use pybuf_value::{ByteList, Made, Text};
use std::alloc::Global;
use std::io::{Read, Write};
use std::process::ExitCode;
use std::sync::Wait;
use std::thread::Threads;

const PIECE: usize = 65_536;
/// So many bytes of what was written are told at most: in digits they are less than a mebibyte.
const TOLD: usize = 400_000;

/// All bytes of the input.
fn read_all<R: Read>(alloc: Global, reader: &mut R) -> Made<Vec<u8>> {
    let mut room = [0u8; PIECE];
    let mut input = Vec::new(alloc);
    for _piece in 0..PIECE {
        match reader.read(&mut room) {
            Ok(count) => {
                if count == 0 {
                    return Ok(input);
                }
                input.extend_from_slice(&room[..count])?;
            }
            Err(_) => return Ok(input),
        }
    }
    Ok(input)
}

/// The number that the next four bytes spell.
fn number_at(input: &[u8], at: usize) -> usize {
    let mut number: usize = 0;
    for place in at..at + 4 {
        number = number * 256 + usize::from(input[place]);
    }
    number
}

/// The bytes that stand behind their number.
fn piece_at(input: &[u8], at: usize) -> &[u8] {
    &input[at + 4..at + 4 + number_at(input, at)]
}

fn list_of(alloc: Global, bytes: &[u8]) -> Made<Vec<u8>> {
    let mut list = Vec::new(alloc);
    list.extend_from_slice(bytes)?;
    Ok(list)
}

fn push_digits(out: &mut Vec<u8>, bytes: &[u8]) -> Made<()> {
    let digits = b"0123456789abcdef";
    for byte in bytes {
        out.push(digits[usize::from(*byte / 16)])?;
        out.push(digits[usize::from(*byte % 16)])?;
    }
    Ok(())
}

/// Serves the case that begins here, adds its line, and says where the next one begins.
fn serve_one<R: Threads + Wait + Sync>(
    rt: &R,
    alloc: Global,
    input: &[u8],
    begin: usize,
    out: &mut Vec<u8>,
) -> Made<usize> {
    let count = number_at(input, begin);
    let mut at = begin + 4;
    let mut words = Vec::new(alloc);
    for _word in 0..count {
        let word = piece_at(input, at);
        at = at + 4 + word.len();
        words.push(Text::from_utf8(list_of(alloc, word)?))?;
    }
    let given = piece_at(input, at);
    at = at + 4 + given.len();
    let is_compared = input[at] == 1;
    let wanted = piece_at(input, at + 1);
    at = at + 5 + wanted.len();
    let mut source = QuietSource::new(ByteList::from_vec(list_of(alloc, given)?));
    let mut sink = QuietSink::new(alloc);
    let status = serve(rt, alloc, words.as_slice(), &mut source, &mut sink);
    push_decimal(out, u64::from(status.number()))?;
    out.extend_from_slice(b" x")?;
    let told = complaint(alloc, words.as_slice(), status, Some(given))?;
    push_digits(out, told.as_slice())?;
    if is_compared && sink.bytes() == wanted {
        out.extend_from_slice(b" same\\n")?;
        return Ok(at);
    }
    out.extend_from_slice(b" x")?;
    let shown = sink.bytes();
    push_digits(out, &shown[..shown.len().min(TOLD)])?;
    out.extend_from_slice(b"\\n")?;
    Ok(at)
}

fn answers<R: Threads + Wait + Sync, I: Read>(
    rt: &R,
    alloc: Global,
    reader: &mut I,
) -> Made<Vec<u8>> {
    let input = read_all(alloc, reader)?;
    let mut out = Vec::new(alloc);
    let mut at: usize = 0;
    for _case in 0..input.len() {
        if at >= input.len() {
            return Ok(out);
        }
        at = serve_one(rt, alloc, input.as_slice(), at, &mut out)?;
    }
    Ok(out)
}

/// Serves all cases of what is read, and writes their lines.
pub fn serve_all<R: Threads + Wait + Sync, I: Read, O: Write>(
    rt: &R,
    alloc: Global,
    reader: &mut I,
    writer: &mut O,
) -> ExitCode {
    match answers(rt, alloc, reader) {
        Ok(out) => match writer.write_all(out.as_slice()) {
            Ok(()) => ExitCode::SUCCESS,
            Err(_) => ExitCode::FAILURE,
        },
        Err(_) => ExitCode::FAILURE,
    }
}
"""


def crates_with(name):
    """The list of crates, with one more. That one uses what the program uses, and the writer of numbers."""
    lines = (ROOT / "crates.txt").read_text().rstrip("\n").split("\n")
    uses = next(line.partition(":")[2].split() for line in lines if line.partition(":")[0] == "pybuf_program")
    return "\n".join([*lines, f"{name}: {' '.join(dict.fromkeys([*uses, 'pybuf_line']))}"]) + "\n"


def copy_sources(to):
    """Copies the crates' sources, except for what only a proof reads."""
    for folder in sorted((ROOT / "crates").iterdir()):
        if (folder / "src").is_dir():
            shutil.copytree(folder / "src", to / "crates" / folder.name / "src")
    (to / "crates.txt").write_text(crates_with(NAME))
    # (the kit looks here for the top of a repository)
    (to / ".git").mkdir()
    main = (ROOT / "crates/pybuf_program/src/main.rt").read_text()
    head, found, _ = main.partition("fn main(")
    for line, instead in INSTEAD.items():
        if not found or line not in head:
            raise OSError(f"tools/unproved.py no longer knows crates/pybuf_program/src/main.rt: it needs the line {line.strip()!r}")
        head = head.replace(line, instead)
    shutil.copytree(ROOT / "crates/pybuf_program/src", to / "crates" / NAME / "src")
    (to / "crates" / NAME / "src/main.rt").write_text(head + MAIN)
    (to / "crates" / NAME / "src/each.rt").write_text(EACH)


def try_cases(folder, files):
    """What `rt try --cases` gives for a folder. By the name of each case this is what it wrote, its complaint and its line."""
    ran = subprocess.run([*TRY, "--cases", files], cwd=folder, stdin=subprocess.DEVNULL, stdout=subprocess.PIPE, stderr=subprocess.PIPE)
    written = {}
    for part in re.split(rb"^== (?=\w+\n)", ran.stdout, flags=re.MULTILINE)[1:]:
        name, _, text = part.partition(b"\n")
        written[name.decode()] = text
    told, complaint = {}, []
    for line in ran.stderr.decode(errors="replace").split("\n"):
        found = re.match(r"case=(\w+) (.*)", line)
        if found:
            told[found[1]] = (written.get(found[1]), "\n".join([*complaint, ""]) if complaint else "", found[2])
            complaint = []
        else:
            complaint.append(line)
    if not told:
        raise NotRun(ran.stderr.decode(errors="replace").strip())
    return told


def tried(cases, is_told):
    """What the program itself does with each case. What is written is told if `is_told` says so, and else only whether it is right."""
    with tempfile.TemporaryDirectory(prefix="cases-") as room:
        for number, case in enumerate(cases):
            path = pathlib.Path(room, f"case{number}")
            path.write_bytes(case.given)
            if case.words:
                path.with_suffix(".args").write_bytes(b"".join(word + b"\n" for word in case.words))
            if not is_told(case):
                path.with_suffix(".stdout").write_bytes(case.written)
        told = try_cases(ROOT / "crates/pybuf_program", room)
    ran = []
    for number, case in enumerate(cases):
        written, complaint, line = told.get(f"case{number}", (None, "", ""))
        status = re.match(r"run=ended status=(\d+) ", line)
        if not status:
            ran.append(Ran(None, None, b"", f"it did not end: {(complaint + line)[-600:]}"))
        elif " output=expected " in line:
            ran.append(Ran(int(status[1]), None, None))
        else:
            ran.append(Ran(int(status[1]), written or b"", None))
    return ran


def piece(text):
    return len(text).to_bytes(4, "big") + text


def frame(case, is_told):
    """A case as the program that serves them all reads it."""
    wanted = b"\0" + piece(b"") if is_told else b"\1" + piece(case.written)
    return len(case.words).to_bytes(4, "big") + b"".join(map(piece, case.words)) + piece(case.given) + wanted


def batches_of(cases, is_told):
    """The cases in lists, with the bytes that the program reads of each list."""
    lists, last = [], BATCH
    for case in cases:
        text = frame(case, is_told(case))
        size = len(text) * (TOLD if is_told(case) else 1)
        if last + size > BATCH:
            lists.append(([], []))
            last = 0
        lists[-1][0].append(case)
        lists[-1][1].append(text)
        last += size
    return [(cases, b"".join(texts)) for cases, texts in lists]


def answer_of(line):
    """What came of a case, as its line says."""
    status, complaint, written = line.split(b" ")
    complaint = bytes.fromhex(complaint[1:].decode())
    return Ran(int(status), None if written == b"same" else bytes.fromhex(written[1:].decode()), complaint)


def served(cases, is_told):
    """What `serve` does with each case."""
    batches, ran = batches_of(cases, is_told), []
    with tempfile.TemporaryDirectory(prefix="cases-") as room:
        room = pathlib.Path(room)
        copy_sources(room)
        (room / "frames").mkdir()
        for number, (_, text) in enumerate(batches):
            (room / f"frames/batch{number}").write_bytes(text)
        told = try_cases(room / "crates" / NAME, room / "frames")
    for number, (together, _) in enumerate(batches):
        written, complaint, line = told.get(f"batch{number}", (b"", "", ""))
        lines = (written or b"").split(b"\n")[:-1]
        if line.startswith("run=ended status=0 ") and len(lines) == len(together):
            ran += map(answer_of, lines)
        else:
            fault = f"it, or one of the {len(together)} cases that were run with it, did not end: {(complaint + line)[-600:]}"
            ran += [Ran(None, None, b"", fault)] * len(together)
    return ran
