#!/usr/bin/env python3
"""Draws the pictures of `docs/pictures`, and writes them. Two are drawn from the replies of the program, the picture of the floors from
`crates.txt`, and the picture of the kernels from `bench/figures/kernels.txt`.

    python3 tools/draw_pictures.py [PROGRAM]
    python3 tools/draw_pictures.py --stored      uses the replies that are stored beside the examples, so it needs no program

PROGRAM is what the gate built, `crates/pybuf_program/out/pybuf_program`, where none is named. It is run on two examples, whose replies
`tools/run_cases.py` compares with those that are stored beside them. From the stored ones `tools/check_documents.py`
draws the pictures again, and compares them with the files.

In the first example the byte at each place is the number of the place, so that `bytes` of a view replies the places of
its items.
"""
import ast
import html
import pathlib
import subprocess
import sys

ROOT = pathlib.Path(__file__).resolve().parent.parent
PROGRAM = ROOT / "crates/pybuf_program/out/pybuf_program"
FOLDER = ROOT / "docs/pictures"
FIGURES = ROOT / "bench/figures/kernels.txt"
SLICES, BAD_LINE = "slices-of-a-cast", "bad-line"
CODE = "ui-monospace, SFMono-Regular, Menlo, Consolas, 'DejaVu Sans Mono', monospace"
PLAIN = "system-ui, 'Segoe UI', Roboto, 'DejaVu Sans', Arial, sans-serif"
INK, SOFT, PAPER, EDGE = "#1c2128", "#4d5662", "#fcfcfa", "#8a929e"
GREY, BLUE, GREEN, ORANGE, PINK, RED = "#e6e9ee", "#d5e5f8", "#cfe9d6", "#fde2b3", "#f5d0e3", "#f9bfae"


class Picture:
    """A picture on a paper of its own, so that it reads the same on a light page and on a dark one."""

    def __init__(self, width, height, title, told):
        self.size, self.title, self.told, self.parts = (width, height), title, told, []

    def text(self, x, y, text, *, size=14, code=False, anchor="start", ink=INK, bold=False):
        font = CODE if code else PLAIN
        weight = ' font-weight="bold"' if bold else ""
        self.parts.append(
            f'<text x="{x:g}" y="{y:g}" font-family="{font}" font-size="{size}" text-anchor="{anchor}" fill="{ink}"{weight}'
            f' xml:space="preserve">{html.escape(text, quote=False)}</text>'
        )

    def box(self, x, y, width, height, fill, edge=EDGE, round=4):
        self.parts.append(f'<rect x="{x:g}" y="{y:g}" width="{width:g}" height="{height:g}" rx="{round}" fill="{fill}" stroke="{edge}"/>')

    def arrow(self, x, y, to):
        """An arrow that points down."""
        self.parts.append(f'<path d="M{x:g} {y:g}V{to - 6:g}M{x - 4:g} {to - 7:g}L{x:g} {to:g}L{x + 4:g} {to - 7:g}Z" stroke="{SOFT}" fill="{SOFT}"/>')

    def svg(self):
        width, height = self.size
        lines = [
            f'<svg xmlns="http://www.w3.org/2000/svg" width="{width}" height="{height}" viewBox="0 0 {width} {height}" role="img">',
            f"<title>{html.escape(self.title, quote=False)}</title>",
            f"<desc>{html.escape(self.told, quote=False)}</desc>",
            f'<rect x="0.5" y="0.5" width="{width - 1}" height="{height - 1}" rx="8" fill="{PAPER}" stroke="{EDGE}"/>',
            *self.parts,
            "</svg>",
        ]
        return "\n".join(lines) + "\n"


def starts_of(places, size):
    """The first place of each item, from the places of all bytes. The bytes of an item lie one after the other."""
    starts = list(places[::size])
    assert list(places) == [start + i for start in starts for i in range(size)]
    return starts


def picture_of_places(reply):
    """How views pick byte places in one exporter: a row for each line that makes one."""
    cell, left, row, top = 38, 250, 62, 64
    # the bytes before the write, of which each is the number of its place, and those after it
    before, after = (ast.literal_eval(reply[line]) for line in ("bytes h1", "bytes h0"))
    count = len(before)
    assert list(before) == list(range(count))
    right = left + count * cell + 22
    picture = Picture(
        right + 150,
        top + 5 * row + 54,
        "How a slice of a slice of a cast picks its byte places in one exporter",
        "A row for the bytearray and one for each view, each item over the bytes that it picks, and the bytearray after a write.",
    )

    def middle(place, size=1):
        return left + (place + size / 2) * cell

    picture.text(22, 30, "Four views of one bytearray, each a list of places in it", bold=True, size=15)
    picture.text(left - 12, top - 8, "place", anchor="end", ink=SOFT, size=13)
    for place in range(count):
        picture.text(middle(place), top - 8, str(place), anchor="middle", ink=SOFT, size=13, code=True)
    picture.text(right, top - 8, "item k starts at", ink=SOFT, size=13)

    def label(y, line, handle):
        picture.text(22, y + 18, line, code=True)
        picture.text(22, y + 36, handle, code=True, ink=SOFT, size=13)

    y = top
    digits = before.hex()
    label(y, f"new bytearray x{digits[:4]}..{digits[-2:]}", reply[f"new bytearray x{digits}"] + ", the bytes")
    for place, byte in enumerate(before):
        picture.box(left + place * cell, y, cell, 34, GREY, round=0)
        picture.text(middle(place), y + 22, f"{byte:02x}", anchor="middle", code=True)
    for line, fill in [("view h0", BLUE), ("cast h1 'H'", GREEN), ("get h2 1:None:2", ORANGE), ("get h3 None:None:-1", PINK)]:
        y += row
        handle = reply[line]
        size = int(reply[f"prop {handle} itemsize"])
        starts = starts_of(ast.literal_eval(reply[f"bytes {handle}"]), size)
        values = ast.literal_eval(reply[f"tolist {handle}"])
        assert len(values) == len(starts)
        label(y, line, f"{handle}, {len(starts)} items")
        for k, (start, value) in enumerate(zip(starts, values)):
            picture.box(left + start * cell + 2, y, size * cell - 4, 34, fill)
            picture.text(middle(start, size), y + 22, str(value), anchor="middle", code=True)
            picture.text(middle(start, size), y + 48, f"k={k}", anchor="middle", ink=SOFT, size=11)
        shown = " ".join(map(str, starts))
        picture.text(right, y + 22, shown if len(starts) < 7 else f"{starts[0]} {starts[1]} .. {starts[-1]}", code=True)
    y += row
    assert reply["set h4 0 65535"] == "ok"
    label(y, "set h4 0 65535", "h0 afterwards")
    for place, byte in enumerate(after):
        picture.box(left + place * cell, y, cell, 34, GREY if byte == before[place] else RED, round=0)
        picture.text(middle(place), y + 22, f"{byte:02x}", anchor="middle", code=True)
    changed = [place for place in range(count) if before[place] != after[place]]
    picture.text(right, y + 22, f"writes {changed[0]} and {changed[1]}", size=13)
    return picture.svg()


def picture_of_reply(reply, bad):
    """How a line becomes a reply. Each step has a row, and each of three lines has a column."""
    left, wide, gap, high, row, top = 172, 236, 16, 50, 74, 62
    view = "h4"
    places = ast.literal_eval(reply[f"bytes {view}"])
    size = int(reply[f"prop {view} itemsize"])
    starts = starts_of(places, size)
    form = reply[f"prop {view} format"]
    number = reply[f"repr {view}"].removeprefix("<memory ").removesuffix(">")
    done, refused = f"get {view} 0", f"get {view} 3"
    first = " ".join(f"{byte:02x}" for byte in places[:size])
    assert reply[refused].startswith("! ") and len(starts) == 3
    line, told, status = bad
    columns = [
        [
            (done, None),
            (f"get, of {view}, by the key 0", "is a command"),
            (f"view {number} of the bytearray h0", "the handle names it"),
            (f"item 0 of {len(starts)}, at place {starts[0]}", "unreleased, and the key names an item"),
            (f"bytes {first} by the format {form}", "nothing is changed by reading"),
            (reply[done], None),
        ],
        [
            (refused, None),
            (f"get, of {view}, by the key 3", "is a command"),
            (f"view {number} of the bytearray h0", "the handle names it"),
            (f"no item 3 among {len(starts)}", "this check refuses"),
            ("all stays as it was", "and no handle is used up"),
            (reply[refused], None),
        ],
        [
            (line, None),
            ("no KEY: no command", "found before any line is run"),
            None,
            None,
            ("no line is run", f"the program ends with status {status}"),
            (told, None),
        ],
    ]
    steps = [
        ("the line", ""),
        ("the grammar", "pybuf_line"),
        ("the world", "pybuf_world"),
        ("checks, in order", "pybuf_verbs_reads"),
        ("what is done", "pybuf_verbs_reads"),
        ("the reply", "pybuf_line"),
    ]
    picture = Picture(
        left + 3 * (wide + gap) + 6,
        top + len(steps) * row - 6,
        "How a line becomes a reply",
        "Three lines, step by step: one that is answered, one that is refused, and one that is no command.",
    )
    for k, heading in enumerate(["answered", "refused", "no command"]):
        picture.text(left + k * (wide + gap) + wide / 2, 34, heading, anchor="middle", bold=True, size=15)
    for k, (what, where) in enumerate(steps):
        y = top + k * row
        picture.text(22, y + 22, what, bold=True)
        picture.text(22, y + 40, where, code=True, ink=SOFT, size=11)
    for k, boxes in enumerate(columns):
        x = left + k * (wide + gap)
        from_y = None
        for number, box in enumerate(boxes):
            if box is None:
                continue
            y = top + number * row
            if from_y is not None:
                picture.arrow(x + wide / 2, from_y, y - 2)
            main, beside = box
            fill = [GREEN, ORANGE, RED][k] if number in (0, len(boxes) - 1) else GREY
            picture.box(x, y, wide, high, fill)
            if beside is None:
                picture.text(x + wide / 2, y + 30, main, anchor="middle", code=True)
            else:
                picture.text(x + wide / 2, y + 21, main, anchor="middle", size=13)
                picture.text(x + wide / 2, y + 39, beside, anchor="middle", size=11, ink=SOFT)
            from_y = y + high
    return picture.svg()


def floors():
    """The floors of `crates.txt`, the lowest first: the name of each, and its crates."""
    found = []
    for line in (ROOT / "crates.txt").read_text().splitlines():
        crate, colon, _ = line.partition(":")
        if line.startswith("# ") and colon:
            found.append((crate.removeprefix("# ").partition(",")[0], []))
        elif colon:
            found[-1][1].append(crate.split()[0])
    return [(name, crates) for name, crates in found if crates]


def picture_of_floors():
    """The crates as a house, where each floor stands on those below it. What isn't part of the library is grey and on top."""
    left, wide, high, step, gap = 150, 980, 28, 40, 8
    rows = []
    for name, crates in reversed(floors()):
        beside = not crates[0].startswith("pybuf")
        row, at = [], left
        for crate in crates:
            width = 20 + 7.9 * len(crate)
            if at + width > wide - 12 and row:
                rows.append((name, row, beside))
                name, row, at = "", [], left
            row.append((crate, at, width))
            at += width + gap
        rows.append((name, row, beside))
    picture = Picture(
        wide,
        56 + step * len(rows),
        "The floors of the house",
        "A row for each floor, the lowest at the bottom, with its crates. A crate stands on crates of lower floors and on those to its left.",
    )
    picture.text(22, 30, "Each floor stands on those below it", bold=True, size=15)
    for number, (name, row, beside) in enumerate(rows):
        y = 48 + step * number
        picture.text(left - 12, y + 19, name, anchor="end", size=13)
        for crate, at, width in row:
            picture.box(at, y, width, high, GREY if beside else BLUE)
            picture.text(at + width / 2, y + 19, crate, anchor="middle", code=True, size=13)
    return picture.svg()


def kernels():
    """The kernels of `bench/figures/kernels.txt`: the name of each, and our time divided by CPython's."""
    found = {}
    for line in FIGURES.read_text().splitlines():
        words = line.split()
        if not line.startswith("#") and len(words) == 5 and words[0] != "kernel":
            found[words[0]] = float(words[1]) / float(words[2])
    return sorted(found.items(), key=lambda it: (it[1], it[0]))


def picture_of_kernels():
    """A bar for each kernel, from the quickest beside CPython to the slowest, with a line at 1.0."""
    rows = kernels()
    half = (len(rows) + 1) // 2
    left, scale, step, top, wide = 178, 150, 14, 66, 500
    picture = Picture(
        2 * wide,
        top + step * half + 14,
        "Our time for each kernel, divided by CPython's",
        "A bar for each kernel, sorted. A bar that ends left of the line at 1.0 is of a kernel in which we are quicker than CPython.",
    )
    quicker = sum(ratio <= 1 for _, ratio in rows)
    picture.text(22, 30, f"Our time divided by CPython's: {quicker} of {len(rows)} kernels are as quick or quicker", bold=True, size=15)
    for column in (0, 1):
        x = column * wide + left
        picture.text(x + scale, top - 12, "1.0", anchor="middle", size=11, ink=SOFT)
        for number, (name, ratio) in enumerate(rows[column * half : (column + 1) * half]):
            y = top + step * number
            picture.text(x - 8, y + 10, name, anchor="end", code=True, size=11)
            picture.box(x, y + 1, max(1, ratio * scale), step - 3, GREEN if ratio <= 1 else ORANGE, round=1)
            picture.text(x + max(1, ratio * scale) + 5, y + 10, f"{ratio:.2f}", size=10, ink=SOFT)
        bottom = top + step * len(rows[column * half : (column + 1) * half])
        picture.parts.append(f'<path d="M{x + scale:g} {top - 6:g}V{bottom:g}" stroke="{INK}" stroke-dasharray="3 3"/>')
    return picture.svg()


def pictures(output_of):
    """The pictures by the names of their files, from what is written for an example and the status that comes."""
    lines = (ROOT / "examples" / SLICES).read_text().splitlines()
    text, status = output_of(SLICES)
    written = text.splitlines()
    assert len(lines) == len(written) and status == 0
    text, status = output_of(BAD_LINE)
    told = text.strip()
    number = int(told.split(" ")[1])
    bad = (ROOT / "examples" / BAD_LINE).read_text().splitlines()[number - 1]
    reply = dict(zip(lines, written))
    return {
        "places-of-views.svg": picture_of_places(reply),
        "line-to-reply.svg": picture_of_reply(reply, (bad, told, status)),
        "floors.svg": picture_of_floors(),
        "kernels.svg": picture_of_kernels(),
    }


def stored(name):
    """What is stored beside an example, and its status."""
    path = ROOT / "examples" / name
    status = path.with_suffix(".status")
    return path.with_suffix(".stdout").read_text(), int(status.read_text()) if status.exists() else 0


def main(words):
    program = pathlib.Path(words[0] if words and words[0] != "--stored" else PROGRAM).resolve()

    def replied(name):
        with (ROOT / "examples" / name).open("rb") as given:
            run = subprocess.run([program], stdin=given, stdout=subprocess.PIPE, check=False)
        return run.stdout.decode(), run.returncode

    for name, text in pictures(stored if words == ["--stored"] else replied).items():
        (FOLDER / name).write_text(text)
        print(f"docs/pictures/{name}")


if __name__ == "__main__":
    main(sys.argv[1:])
