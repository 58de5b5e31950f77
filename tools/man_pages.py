#!/usr/bin/env python3
"""Writes the man pages: pybuf(1) and pybuf-lines(5) from two pages of reference, and pybuf(3) from the header's comments.

    tools/man_pages.py FOLDER

The pages are docs/reference/commands.md, which has the lines and replies, and docs/reference/forms.md, which has the words behind the
program's name and the statuses. The words, the statuses and the forms that read no lines go to pybuf(1), and everything else goes to
pybuf-lines(5). So what a man page says stands in one place.
"""
import pathlib
import re
import sys

sys.dont_write_bytecode = True

from version import version

ROOT = pathlib.Path(__file__).resolve().parent.parent
HEADER = ROOT / "include/pybuf.h"
LINES, FORMS = ROOT / "docs/reference/commands.md", ROOT / "docs/reference/forms.md"
# The headings of pybuf(1). The first and the last have to be there.
OF_PROGRAM = ("Words", "Scripts", "Tables", "Shapes", "Statuses")
# It stands for a star until a page is whole.
STAR = "\0"
EPILOGUES = {
    "pybuf.1": ".SH SEE ALSO\n.BR pybuf\\-lines (5),\n.BR pybuf (3)\n",
    "pybuf-lines.5": ".SH SEE ALSO\n.BR pybuf (1),\n.BR pybuf (3)\n",
    "pybuf.3": ".SH SEE ALSO\n.BR pybuf (1),\n.BR pybuf\\-lines (5)\n",
}


def escaped(text):
    """Text as roff writes it."""
    text = text.replace("\\", "\\e").replace("-", "\\-").replace("'", "\\(aq").replace("`", "\\(ga").replace("^", "\\(ha").replace("~", "\\(ti")
    return "\\&" + text if text.startswith(".") else text


def inline(text):
    """A paragraph with code, emphasis and links."""
    made = ""
    for part in re.split(r"(`[^`]+`|\*\*[^*]+\*\*|(?<!\w)\*[^* ][^*]*\*|\[[^\]]*\]\([^)]*\))", text):
        if len(part) > 1 and part.startswith("`"):
            made += f"\\fB{escaped(part[1:-1])}\\fR"
        elif part.startswith("**"):
            made += f"\\fB{escaped(part[2:-2])}\\fR"
        elif len(part) > 2 and part.startswith("*") and part.endswith("*"):
            made += f"\\fI{escaped(part[1:-1])}\\fR"
        elif re.match(r"\[[^\]]*\]\(", part):
            made += inline(re.match(r"\[([^\]]*)\]", part)[1])
        else:
            made += escaped(part)
    # (a line that begins with a dot or a quote would be a request)
    return "\\&" + made if made[:1] in (".", "'") else made


def cells_of(line):
    """The cells of a line of a table. A bar between backquotes or behind a backslash doesn't part cells."""
    return [cell.replace("\\|", "|").strip() for cell in re.split(r"(?<!\\)\|(?=(?:[^`]*`[^`]*`)*[^`]*$)", line.strip().strip("|"))]


def table(lines):
    """A table: each line as its first cell, and below it the others with their heads."""
    heads = cells_of(lines[0])
    for line in lines[2:]:
        first, *rest = cells_of(line)
        yield f".TP\n{inline(first)}"
        rest = [re.sub(r"(`[^`]+`) (`[^`]+`)", r"\1 gives \2", cell) for cell in rest]
        told = [cell if at == 0 else f"{head}: {cell}" for at, (head, cell) in enumerate(zip(heads[1:], rest)) if cell]
        yield "\n.br\n".join(map(inline, told)) if told else "\\&"


def roff(lines, shift=0):
    """Lines of Markdown as roff."""
    at = 0
    while at < len(lines):
        line = lines[at]
        end = at + 1
        if line.startswith("#"):
            level, title = re.match(r"(#+) (.*)", line).groups()
            yield f".{'SH' if len(level) + shift < 3 else 'SS'} {inline(title.upper() if len(level) + shift < 3 else title)}"
        elif line.startswith("|"):
            while end < len(lines) and lines[end].startswith("|"):
                end += 1
            yield from table(lines[at:end])
        elif line.startswith("    ") or line.startswith("```"):
            fenced = line.startswith("```")
            while end < len(lines) and (not lines[end].startswith("```") if fenced else lines[end].startswith("    ")):
                end += 1
            block = lines[at + 1 : end] if fenced else [it[4:] for it in lines[at:end]]
            yield ".PP\n.nf\n.RS 4\n" + "\n".join(escaped(it) if it[:1] != "'" else "\\&" + escaped(it) for it in block) + "\n.RE\n.fi"
            end += fenced
        elif re.match(r"(- |\d+\. )", line):
            mark, text = re.match(r"(- |\d+\. )(.*)", line).groups()
            bullet = "\\(bu" if mark == "- " else mark.strip()
            yield f".IP {bullet} 4\n{inline(text)}"
        elif re.match(r" +- ", line):
            yield f".RS 4\n.IP \\(bu 4\n{inline(line.strip()[2:])}\n.RE"
        elif line.strip() and not line.startswith("<!--"):
            yield f".PP\n{inline(line)}"
        at = end


def sections(path):
    """The introduction of a page, and its sections by their titles. An introduction says for whom the page is, and names others: that is
    left out."""
    parts, title = {"": []}, ""
    for line in path.read_text().split("\n")[1:]:
        if line.startswith("## "):
            title = line[3:]
            parts[title] = []
        if not title:
            line = re.sub(r"^For [^.]*\. ?| ?\[[^\]]*\]\([^)]*\.md[^)]*\)[^.]*\.", "", line)
        parts[title].append(line)
    return parts


def head(name, number, about):
    """How a page begins."""
    return f'.TH {name.upper()} {number} "" "pybuf {version()}" "pybuf"\n.SH NAME\n{escaped(name)} \\- {escaped(about)}\n'


def page(name, about, before, parts):
    text = head(*name.rsplit(".", 1), about) + before
    for part in parts:
        text += "".join(it + "\n" for it in roff(part))
    return text.replace(STAR, "*") + EPILOGUES[name]


def of_commands():
    parts = {**sections(FORMS), **sections(LINES)}
    for title in ("Words", "Statuses", "Commands", "Replies"):
        if title not in parts:
            sys.exit(f"man_pages: neither {LINES.relative_to(ROOT)} nor {FORMS.relative_to(ROOT)} has the heading {title}")
    forms = [cells_of(line)[0] for line in parts["Words"] if line.startswith("| ")][1:]
    forms = [form for cell in forms for form in re.findall(r"`([^`]+)`", cell)]
    synopsis = ".SH SYNOPSIS\n.nf\n.B pybuf\n" + "".join(f".B pybuf {escaped(form)}\n" for form in forms) + ".fi\n"
    program = [["# DESCRIPTION", *parts[""]], *(parts[title] for title in OF_PROGRAM if title in parts)]
    lines = [part for name in (LINES, FORMS) for title, part in sections(name).items() if title and title not in OF_PROGRAM]
    yield "pybuf.1", page("pybuf.1", "runs lines about bytes, bytearrays and memoryviews", synopsis, program)
    yield "pybuf-lines.5", page("pybuf-lines.5", "the lines that pybuf reads, and its replies", "", lines)


def comment_text(comment):
    """A comment as Markdown, with each paragraph in one line. A star in it belongs to a pointer, and isn't emphasis."""
    comment = comment.replace("*", STAR)
    lines = [re.sub(rf"^ ?{STAR}? ?", "", line).rstrip() for line in comment.strip().split("\n")]
    made = [""]
    for line in lines:
        if not line:
            made += ["", ""]
        elif line.strip().startswith("- "):
            made += [line.strip()]
        else:
            made[-1] = f"{made[-1]} {line.strip()}".strip()
    return made


def of_header():
    text = HEADER.read_text()
    text = text[: text.rindex("#ifdef __cplusplus")]
    parts = re.split(r"/\*(.*?)\*/", text, flags=re.DOTALL)
    # (what ends a line of a declaration belongs to it)
    made, block = [], ""

    def flush():
        nonlocal block
        shown = re.sub(r"^static inline ([^\n]*\))\n\{.*?\n\}", r"\1;", block, flags=re.DOTALL | re.MULTILINE)
        shown = re.sub(r"^(#(?!define PYBUF_V)|extern).*$", "", shown, flags=re.MULTILINE).strip("\n")
        if shown.strip():
            made.append(["", *(f"    {line}" for line in shown.split("\n") if line.strip())])
        block = ""

    for at in range(0, len(parts) - 1, 2):
        code, comment = parts[at], parts[at + 1]
        block += code
        if code.rstrip(" ") and not code.rstrip(" ").endswith("\n"):
            block += f"/*{comment}*/"
            continue
        flush()
        title = re.fullmatch(r" ---- (.*) ---- ", comment)
        made.append([f"# {title[1]}"] if title else ["", *comment_text(comment)])
    block += parts[-1]
    flush()
    before = ".SH SYNOPSIS\n.nf\n.B #include <pybuf.h>\n.fi\n"
    yield "pybuf.3", page("pybuf.3", "bytes, bytearrays, memoryviews and formats for C", before, [["# DESCRIPTION"], *made])


def pages():
    """Each man page, by the name of its file."""
    return dict([*of_commands(), *of_header()])


def main(words):
    if len(words) != 1 or words[0].startswith("-"):
        print(__doc__, end="", file=sys.stderr)
        return 2
    folder = pathlib.Path(words[0])
    folder.mkdir(parents=True, exist_ok=True)
    for name, text in pages().items():
        (folder / name).write_text(text)
    return 0


if __name__ == "__main__":
    sys.exit(main(sys.argv[1:]))
