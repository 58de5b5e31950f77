"""Compares what the documents show with what is run as a test, and ends with status 1 if they differ.

- A block of Rust or of definitions has to stand word for word in a source of `crates/`.
- A block of C, `rs` or Python has to be a file of `bindings/`. `tools/python_tasks.py` runs those of the cookbook.
- A block of changes has to begin with the name of a file. This file has to have the lines before or after the change. A
  block that only takes lines out has to find them there, unless the changes of the document were made.
- A must-fail edit that a document shows has to lie in a folder `must-fail/`, or to turn a line that a block of changes of
  that document puts in.
- An input of the program has to be an example of `examples/`, with the output that the document shows.
- A session that stands beside Python has to be an example with these replies. Python is run here, and has to give what
  the replies say.
- Lines that stand with their replies have to be a part of an example. Code that stands in four languages has to stand in files that are
  tested.
- Each example has to be named in `examples/README.md`.
- A picture has to be what `tools/draw_pictures.py` draws from the replies of its examples.
- A line in a table of `docs/reference/commands.md` has to stand in an example, with the reply of the table. A value in its
  table of values has to stand in the input of an example. A reply in its table of replies has to stand in the output of one.
- A file or a folder that a document names has to be there, and so has a case or a test that `docs/reference/differences.md` names.
- A link to a heading has to name a heading that is there.
- `docs/reference/api` has to be what `tools/write_reference.py` writes, and every public item has to have a doc comment.
- A page of `docs/` says in its first line for whom it is, and has at most 400 lines. All pages that people write have at most
  30,000 words, and README at most 900.
- Each block of code has to be run, or compared with a tested file, or say why not. `tools/page_blocks.py` checks this.
"""

import pathlib
import re
import shlex
import sys

sys.dont_write_bytecode = True

import draw_pictures
import page_blocks
import write_reference

ROOT = pathlib.Path(__file__).resolve().parent.parent
TOP = [ROOT / "README.md", ROOT / "CONTRIBUTING.md", ROOT / "CHANGELOG.md", ROOT / "examples/README.md"]
# A pattern for the name of a crate.
CRATE = r"(?:pybuf|test|golden|bench|example)_\w+"
API = ROOT / "docs/reference/api"
# The page whose Python `tools/python_tasks.py` runs.
COOKBOOK = ROOT / "docs/tasks/cookbook.md"
DOCUMENTS = TOP + sorted(path for path in (ROOT / "docs").glob("**/*.md") if API not in path.parents)
# How many lines a page may have, how many words README may have, and how many words all pages may have that people write,
# except for the list of changes.
LINES, FIRST_WORDS, WORDS = 400, 900, 30_000
# The head of a session that is shown beside Python.
BESIDE_PYTHON = "| Line | Reply | In Python |"
# The head of a session, or a part of one, that stands with its replies.
SHOWN = "| You write | It replies |"
# The head of tasks in four languages, and where the code of each language is tested.
TASKS = "| Task | Rattle | C | Rust | Python |"
TESTED = ["crates/example_calls/src/*.rt", "bindings/c/*.c", "bindings/rust/examples/*.rs", "bindings/python/*.py"]
ENDINGS = {"rust": ".rt", "antt": ".antt"}
BOUND = {"c": "c/*.c", "rs": "rust/examples/*.rs", "python": "python/*.py"}
faults = []


def report(document, line, what):
    faults.append(f"{document.relative_to(ROOT)}:{line}: {what}")


def stripped(lines):
    """The lines without the indentation that they share, and without blanks at their ends."""
    lines = [line.rstrip() for line in lines]
    indents = [len(line) - len(line.lstrip()) for line in lines if line]
    indent = min(indents, default=0)
    return [line[indent:] for line in lines]


def stands_in(block, source):
    """Whether the lines stand in a source one after the other, all indented alike."""
    for start in range(len(source) - len(block) + 1):
        if block[0].strip() == source[start].strip() and stripped(source[start : start + len(block)]) == block:
            return True
    return False


def sources(ending):
    return [path.read_text().split("\n") for path in sorted((ROOT / "crates").glob("*/*/**/*" + ending)) if "out" not in path.parts]


def change_of(block):
    """The file of a block of changes, and its lines before and after. Each line of the block begins with a blank, a minus or a plus."""
    before = [part[1:] for part in block[1:] if part[:1] in (" ", "-")]
    after = [part[1:] for part in block[1:] if part[:1] in (" ", "+")]
    return ROOT / block[0].removeprefix("--- "), before, after


def holds(path, form):
    """Whether the lines stand in a file one after the other. If there are no lines, they don't."""
    source = path.read_text().split("\n")
    return bool(form) and any(source[at : at + len(form)] == form for at in range(len(source)))


def check_changes(document, blocks):
    """Checks that each block of changes stands in its file as before or as after the change. The blocks have their line numbers."""
    changes = [(line, *change_of(block)) for line, block in blocks]
    for line, path, _, _ in changes:
        if not path.exists():
            report(document, line, f"{path.relative_to(ROOT)} is not there")
            return
    made = any(holds(path, after) and not holds(path, before) for _, path, before, after in changes)
    for line, path, before, after in changes:
        if not holds(path, before) and not holds(path, after) and (after or not made):
            report(document, line, f"neither the lines before the change nor those after it stand in {path.relative_to(ROOT)}")


def check_blocks(document, lines, kept):
    """Checks the blocks between fences. The language of a block stands behind its first fence."""
    start, changes = None, []
    for number, line in enumerate(lines, 1):
        if not line.startswith("```"):
            continue
        if start is None:
            start, language = number, line[3:].strip()
            continue
        if language == "diff":
            changes.append((start, lines[start : number - 1]))
        if language in BOUND and document != COOKBOOK:
            block = "".join(part + "\n" for part in lines[start : number - 1])
            if not any(path.read_text() == block for path in (ROOT / "bindings").glob(BOUND[language])):
                report(document, start, f"the block is no file of bindings/{BOUND[language]}")
        ending = None if document.parent.name == "learn" and start in page_blocks.written(lines) else ENDINGS.get(language)
        if ending is not None:
            block = stripped(lines[start : number - 1])
            if ending not in kept:
                kept[ending] = sources(ending)
            if not any(stands_in(block, source) for source in kept[ending]):
                report(document, start, f"no source with the ending {ending} has this block")
        start = None
    check_changes(document, changes)


def check_edits(document, lines):
    """Checks must-fail edits that are shown whole. These are indented blocks that begin with a file."""
    edits = [path.read_text() for path in sorted((ROOT / "crates").glob("*/must-fail/*.edit"))]
    put = [line[1:].strip() for line in lines if line.startswith("+")]
    for block in plain_blocks(lines):
        if block.startswith("file: ") and block not in edits:
            old = re.search(r"^old: (.*)$", block, re.MULTILINE)
            if old is None or not any(old[1] in line for line in put):
                report(document, 1, f"this is no must-fail edit, and no change puts its line in: {block.splitlines()[1]}")


def outputs():
    """The input and the output of each example. Each character of the input stands for a byte."""
    found = []
    for path in sorted((ROOT / "examples").glob("*.stdout")):
        found.append((path.with_suffix("").read_bytes().decode("latin-1"), path.read_text()))
    return found


def words_of(given, written):
    """The words of each example with this input and this output."""
    for path in sorted((ROOT / "examples").glob("*.stdout")):
        words = path.with_suffix(".args")
        if (path.with_suffix("").read_bytes().decode("latin-1"), path.read_text()) == (given, written):
            yield words.read_text().split("\n")[:-1] if words.exists() else []


def shown_behind(lines, at):
    """The output that stands behind a command of a document."""
    shown = []
    while at < len(lines) and lines[at].startswith("    ") and not lines[at].startswith("    $ "):
        shown.append(lines[at][4:])
        at += 1
    return "".join(line + "\n" for line in shown)


def check_inputs(document, lines, examples):
    """Checks inputs that a document pipes into the program, writes into a file, or takes from an example."""
    for at, line in enumerate(lines):
        tried = re.fullmatch(r" {4}\$ (?:cd crates/pybuf_program && )?rt try < \.\./\.\./examples/(\S+)", line)
        if tried is not None:
            stored, shown = ROOT / "examples" / f"{tried[1]}.stdout", shown_behind(lines, at + 1)
            if not stored.exists():
                report(document, at + 1, f"there is no example {tried[1]}")
            elif shown and shown != stored.read_text():
                report(document, at + 1, "the example has another output")
        piped = re.fullmatch(r" {4}\$ (printf .*) \| pybuf((?: (?:array .*|table .*|share))?)", line)
        if piped is not None:
            text = shlex.split(piped[1])[1].encode().decode("unicode_escape")
            if shlex.split(piped[2]) not in words_of(text, shown_behind(lines, at + 1)):
                report(document, at + 1, "no example has this input, these words and this output")
        alone = re.fullmatch(r" {4}\$ pybuf (make \d+)", line)
        if alone is not None and alone[1].split() not in [
            word for given, written in examples if written == shown_behind(lines, at + 1) for word in words_of(given, written)
        ]:
            report(document, at + 1, "no example has these words and this output")
        if re.fullmatch(r" {4}\$ cat > \S+ <<'END'", line) is not None:
            end = lines.index("    END", at)
            text = "".join(part[4:] + "\n" for part in lines[at + 1 : end])
            if text not in [given for given, _ in examples]:
                report(document, at + 1, "no example has this input")
            elif not any(given == text and written in plain_blocks(lines) for given, written in examples):
                report(document, at + 1, "the output of this input is not shown")


def in_python(statement, names):
    """What Python does, as a reply: a value, a refusal, or nothing."""
    try:
        try:
            value = eval(statement, names)
        except SyntaxError:
            exec(statement, names)
            return None
    except Exception as fault:
        return f"! {type(fault).__name__}"
    return None if value is None else repr(value)


def check_beside_python(document, lines, examples):
    """Checks a session that stands beside Python. If Python has no statement for a line, words stand in its place."""
    given, written, names = "", "", {}
    for number, cells in rows(lines, BESIDE_PYTHON):
        line, reply = (quoted(cell)[0] for cell in cells[:2])
        given, written = given + line + "\n", written + reply + "\n"
        if cells[2] != f"`{cells[2].strip('`')}`":
            continue
        done = in_python(cells[2].strip("`"), names)
        if done != (None if re.fullmatch(r"ok|h[0-9]+", reply) else reply):
            report(document, number, f"Python does not reply {reply}: {done}")
    if given and (given, written) not in examples:
        report(document, 1, "no example has the session that stands beside Python")
    if not given and document == ROOT / "README.md":
        report(document, 1, "no session stands beside Python")


def check_shown(document, lines, examples):
    """Checks that each session with replies is a run of lines of an example."""
    runs = [list(zip(given.split("\n"), written.split("\n"))) for given, written in examples]
    for start, line in enumerate(lines):
        if line.startswith(SHOWN):
            shown = [tuple(quoted(cell)[0] for cell in cells[:2]) for _, cells in rows(lines[start:], SHOWN)]
            if not any(shown == run[at : at + len(shown)] for run in runs for at in range(len(run))):
                report(document, start + 1, "no example has these lines with these replies")


def check_tasks(document, lines):
    """Checks that the code of tasks in four languages stands in files that are tested."""
    for number, cells in rows(lines, TASKS):
        for cell, pattern in zip(cells[1:], TESTED):
            for code in quoted(cell):
                if not any(code in path.read_text() for path in ROOT.glob(pattern)):
                    report(document, number, f"{code} stands in no file {pattern}")


def check_examples(document, lines):
    """Checks that every example is named."""
    named = {name for line in lines for name in quoted(line)}
    for path in sorted((ROOT / "examples").glob("*.stdout")):
        if path.stem not in named:
            report(document, 1, f"the example {path.stem} is not named")


def check_pictures():
    """Checks that every picture is there, and is as the stored replies of its examples draw it."""
    drawn = {draw_pictures.FOLDER / name: text for name, text in draw_pictures.pictures(draw_pictures.stored).items()}
    for path in sorted({*drawn, *(ROOT / "docs").glob("**/*.svg")}):
        if not path.exists() or drawn.get(path) != path.read_text():
            report(path, 1, "tools/draw_pictures.py draws another picture")


def plain_blocks(lines):
    """The indented blocks of a document."""
    blocks, block = [], []
    for line in lines + [""]:
        if line.startswith("    "):
            block.append(line[4:] + "\n")
        elif block:
            blocks.append("".join(block))
            block = []
    return blocks


def rows(lines, head):
    """The rows of the table whose head begins in this way, with their line numbers."""
    start = next((at for at, line in enumerate(lines) if line.startswith(head)), None)
    if start is None:
        return
    for at in range(start + 2, len(lines)):
        if not lines[at].startswith("|"):
            return
        yield at + 1, [cell.strip() for cell in lines[at].strip().strip("|").split("|")]


def quoted(cell):
    """What stands between backquotes."""
    return re.findall(r"`([^`]+)`", cell)


def check_tables(document, lines, examples):
    """Lines and replies of the tables of commands, operations, methods (behind `call h0`), properties (behind `prop` and a
    handle) and refusals."""
    pairs = set()
    for given, written in examples:
        pairs.update(zip(given.split("\n"), written.split("\n")))
    wanted = []
    for head, front in [("| Line | What it does |", ""), ("| METHOD and its arguments |", "call h0 "), ("| Operation | What it does |", "")]:
        for number, cells in rows(lines, head):
            shown = quoted(cells[2])
            if len(shown) % 2:
                report(document, number, "there are not as many replies as lines")
            wanted += [(number, front + line, reply) for line, reply in zip(shown[::2], shown[1::2])]
    for number, cells in rows(lines, "| Name | Property | Reply |"):
        if len(quoted(cells[0])) != len(quoted(cells[2])):
            report(document, number, "there are not as many replies as properties")
        for name, reply in zip(quoted(cells[0]), quoted(cells[2])):
            subject = "h0" if name == "exports" else "h1"
            wanted.append((number, f"prop {subject} {name}", reply))
    for number, cells in rows(lines, "| Refusal | Where it comes |"):
        wanted.append((number, quoted(cells[2])[0], quoted(cells[0])[0]))
    if not wanted:
        report(document, 1, "the tables were not found")
    for number, line, reply in wanted:
        if (line, reply) not in pairs:
            report(document, number, f"no example has the line {line} with the reply {reply}")
    words = {word for given, _ in examples for line in given.split("\n") for word in line.split(" ")}
    replies = {reply for _, written in examples for reply in written.split("\n")}
    spelled = [(number, value) for number, cells in rows(lines, "| Spelling | Value |") for value in quoted(cells[2])]
    written = [(number, reply) for number, cells in rows(lines, "| Reply | Example |") for reply in quoted(cells[1])]
    if not spelled or not written:
        report(document, 1, "the tables of values and of replies were not found")
    for number, value in spelled:
        if value not in words:
            report(document, number, f"no example has the value {value}")
    for number, reply in written:
        if reply not in replies:
            report(document, number, f"no example has the reply {reply}")


def words_in(text):
    """How many words a text has. A word stands between blanks and has a letter or a digit. Code and tables count too."""
    return sum(1 for word in text.split() if re.search(r"\w", word))


def check_size(document, lines):
    """Checks how long a page is, and that its first line says for whom it is."""
    if document == ROOT / "README.md" and words_in("\n".join(lines)) > FIRST_WORDS:
        report(document, 1, f"it has {words_in(chr(10).join(lines))} words, and may have {FIRST_WORDS}")
    if ROOT / "docs" not in document.parents:
        return
    if len(lines) - 1 > LINES:
        report(document, 1, f"it has {len(lines) - 1} lines, and may have {LINES}")
    if len(lines) < 3 or not lines[0].startswith("# ") or not lines[2].startswith("For "):
        report(document, 3, "its first line doesn't say for whom it is (`For ..`)")


def check_words():
    """Checks how many words all pages have."""
    count = sum(words_in(path.read_text()) for path in DOCUMENTS if path.name != "CHANGELOG.md" and path.exists())
    if count > WORDS:
        faults.append(f"all pages have {count} words, and may have {WORDS}")


def check_reference():
    """Checks that the generated reference is what the script writes, and that every public item has a doc comment."""
    written = {API / name: text for name, text in write_reference.pages().items()}
    for path in sorted({*written, *API.glob("*")}):
        if not path.exists() or written.get(path) != path.read_text():
            report(path, 1, "tools/write_reference.py writes another page")
        else:
            check_links(path, path.read_text().split("\n"))
    for crate in write_reference.crates():
        for item in write_reference.public(crate):
            if not item.docs:
                report(item.file, item.line, f"{item.full()} has no doc comment")


def anchors(path, kept={}):
    """The names by which the headings of a page are linked."""
    if path not in kept:
        inside, found = False, set()
        for line in path.read_text().split("\n"):
            inside = inside != line.startswith("```")
            if not inside and re.match(r"#+ ", line):
                found.add(write_reference.anchor(line.lstrip("#").strip()))
        kept[path] = found
    return kept[path]


def check_differences(document, lines):
    """The cases and the tests that show a difference: a name of three words or more is a case. Each line of a list names one,
    or clauses or tests in general."""
    listed = [(number, line) for number, line in enumerate(lines, 1) if line.startswith("- ")]
    if not listed:
        report(document, 1, "the differences were not found")
    for number, line in listed:
        cases = [name for name in quoted(line) if re.fullmatch(r"(?:\w+/)?[A-Za-z0-9]+(?:-[A-Za-z0-9]+){2,}", name)]
        for name in cases:
            if not (ROOT / "cases" / (name if "/" in name else f"differences/{name}")).exists():
                report(document, number, f"no case is named {name}")
        tests = re.findall(r"((?:`\w+`(?:,| and)? ?)+)of `(test_\w+)`", line)
        for names, crate in tests:
            source = "".join(path.read_text() for path in (ROOT / "crates" / crate / "src").glob("**/*.rt"))
            for name in quoted(names):
                if f"fn {name}(" not in source:
                    report(document, number, f"{crate} has no test {name}")
        if not cases and not tests and not re.search(r"`cases/|tests of `|clauses|`golden_methods`", line):
            report(document, number, "nothing that shows the difference is named")


def check_names(document, lines):
    """Checks files and folders that are named between backquotes."""
    tops = ("crates/", "docs/", "examples/", "cases/", "tools/", "bench/", ".ci/")
    made = page_blocks.written(lines).values() if document.parent.name == "learn" else ()
    for number, line in enumerate(lines, 1):
        for name in re.findall(r"`([^`\s]+)`", line):
            if re.match(rf"{CRATE}/(src|specs|proofs)/", name):
                name = "crates/" + name
            if name.startswith(tops) and not re.search(r"[A-Z]{3,}/|NAME|[*{<]", name):
                path = name.split("::")[0].rstrip("/")
                if "/out" not in path and path not in made and not (ROOT / path).exists():
                    report(document, number, f"{name} is not there")


def check_links(document, lines):
    """Checks files and headings that are linked."""
    inside = False
    for number, line in enumerate(lines, 1):
        inside = inside != line.startswith("```")
        if inside:
            continue
        for name, heading in re.findall(r"\]\(([^)#\s]*)(?:#([^)]*))?\)", line):
            if "://" in name:
                continue
            path = document.parent / name if name else document
            if not path.exists():
                report(document, number, f"{name} is not there")
            elif heading and path.suffix == ".md" and heading not in anchors(path):
                report(document, number, f"{name or 'this page'} has no heading #{heading}")


def main():
    kept, tables = {}, []
    examples = outputs()
    for document in DOCUMENTS:
        if not document.exists():
            report(document, 1, "the document is not there")
            continue
        lines = document.read_text().split("\n")
        check_blocks(document, lines, kept)
        check_inputs(document, lines, examples)
        check_beside_python(document, lines, examples)
        check_shown(document, lines, examples)
        check_tasks(document, lines)
        check_edits(document, lines)
        check_names(document, lines)
        check_links(document, lines)
        check_size(document, lines)
        faults.extend(page_blocks.faults_of(document, lines))
        if document == ROOT / "docs/reference/differences.md":
            check_differences(document, lines)
        if document == ROOT / "docs/reference/commands.md":
            tables += lines
        if document == ROOT / "docs/reference/forms.md":
            tables += lines
        if document == ROOT / "examples/README.md":
            check_examples(document, lines)
    check_tables(ROOT / "docs/reference/commands.md", tables, examples)
    check_pictures()
    check_reference()
    check_words()
    for fault in faults:
        print(fault)
    return 1 if faults else 0


if __name__ == "__main__":
    sys.exit(main())
