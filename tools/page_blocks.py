"""Says how each block of code of a page is checked, and which blocks aren't checked. `tools/check_documents.py` refuses the latter.

A block stands between fences, or is indented by four blanks behind an empty line. These are checked:

- Rust, definitions, C, `rs` and Python between fences, which `tools/check_documents.py` compares with files that are tested;
- changes (`diff`), which it looks for in their files;
- a file of a page to learn from, behind a line that ends with its name and a colon: `tools/run_pages.py` writes it and runs the page;
- commands of a page to learn from, which `tools/run_pages.py` runs;
- commands that run an example, `rt try < ../../examples/NAME`, or that pipe an input into the program, `pybuf`;
- commands that run the first programs of the bindings, whose output stands in `bindings/`;
- the blocks of `docs/tasks/install.md`, which `tools/check_release.py` runs, and those of `docs/tasks/cookbook.md`, which
  `tools/python_tasks.py` does;
- must-fail edits, which begin with `file: `.

Any other block has to have the line `<!-- not run: REASON -->` before it. Words may stand between them, but no other block.
"""
import pathlib
import re

ROOT = pathlib.Path(__file__).resolve().parent.parent
CHECKED = ("rust", "antt", "c", "rs", "python", "diff")
MARK = re.compile(r"<!-- not run: (.+) -->")
COMMAND = re.compile(r" {4}\$ ((?:cd crates/pybuf_program && )?rt try < \.\./\.\./examples/\S+|printf .* \| pybuf(?: (?:array|table|share).*)?|pybuf make \d+)")
# Commands whose output is that of a tested file. The file is found by what the command contains.
EXPECTED = [
    (re.compile(r" {4}\$ gcc .* && \./(\w+)"), "bindings/c/{}.expected"),
    (re.compile(r" {4}\$ cargo (run)"), "bindings/rust/first.expected"),
    (re.compile(r" {4}\$ .*python3 (first)\.py"), "bindings/python/{}.expected"),
]
# Pages whose programs and commands a script of their own runs.
FOLLOWED = {"docs/tasks/install.md": "tools/check_release.py", "docs/tasks/cookbook.md": "tools/python_tasks.py"}
# What stands behind a command that is checked, in the same block.
STATUS = re.compile(r" {4}\$ echo \$\?")


def blocks(lines):
    """The blocks of a page: the number of the first line, the language (`None` if it is indented), and the lines."""
    found, at = [], 0
    while at < len(lines):
        if lines[at].startswith("```"):
            end = next(k for k in range(at + 1, len(lines)) if lines[k].startswith("```"))
            found.append((at + 1, lines[at][3:].strip(), lines[at + 1 : end]))
            at = end + 1
        elif lines[at].startswith("    ") and not lines[at - 1].strip():
            end = at
            while end < len(lines) and (lines[end].startswith("    ") or not lines[end].strip()):
                end += 1
            block = lines[at:end]
            while not block[-1].strip():
                block.pop()
            found.append((at + 1, None, block))
            at = end
        else:
            at += 1
    return found


# The line before a block that is written to a file.
INTO = re.compile(r".*\binto `([^`]+)`.*:")


def written(lines):
    """The files that a page to learn from writes, by the number of the line at which the block begins."""
    found = {}
    for number, language, _ in blocks(lines):
        before = next((line for line in reversed(lines[: number - 1]) if line.strip()), "")
        named = INTO.fullmatch(before)
        if language is not None and named:
            found[number] = named[1]
    return found


def is_checked(document, language, block):
    learn = document.parent.name == "learn"
    if language is not None:
        return language in CHECKED
    if learn and block[0].startswith("    $ "):
        return True
    if block[0].startswith("    file: "):
        return True
    for pattern, name in EXPECTED:
        ran = pattern.fullmatch(block[0])
        if ran:
            return (ROOT / name.format(ran[1])).read_text() == "".join(line[4:] + "\n" for line in block[1:])
    commands = [line for line in block if line.startswith("    $ ")]
    return bool(commands) and all(COMMAND.match(line) or STATUS.match(line) for line in commands)


def faults_of(document, lines):
    """What is wrong with the blocks of a page, with a line for each fault."""
    faults, last = [], 0
    script = FOLLOWED.get(str(document.relative_to(ROOT)))
    if script is not None and (ROOT / script).exists():
        return faults
    for number, language, block in blocks(lines):
        marked = [MARK.fullmatch(line.strip()) for line in lines[last : number - 1]]
        if not is_checked(document, language, block) and not any(marked):
            faults.append(f"{document.relative_to(ROOT)}:{number}: nothing checks this block; a line <!-- not run: REASON --> before it says why")
        last = number - 1 + len(block) + (2 if language is not None else 0)
    return faults
