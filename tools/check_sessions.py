#!/usr/bin/env python3
"""Checks whether `share` writes what a single thread gets that carries out the same commands in the same order.

    python3 tools/check_sessions.py [--program PROGRAM] [--count N] [--seed N] [--runs N] [FILE..]

PROGRAM is what the gate built, `crates/pybuf_program/out/pybuf_program`, where none is named. The FILEs are inputs of `share`; where none is
named, so many are drawn, 300 of them, of up to 16 sessions and 400 lines, and each is run twice.

It knows nothing but commands and their names. It checks that, in what `share` writes,
- each line of a session stands there once, in that session's order, with `mK` and `iK` put as the K-th view and iterator that
  the session was given before, or `none`;
- `run` gives the same reply to each command, where its exporter is `h0`, its views and iterators are the handles that they get
  there, and what wasn't given is a handle that nothing has; of what a copy was made of it asks the bytes;
- there are as many commands as `calls` says, and the bytes at the end are those that `run` has.
The order between sessions is open, so the order that was written is taken.
"""

import argparse
import os
import pathlib
import random
import re
import subprocess
import sys
from concurrent.futures import ThreadPoolExecutor

ROOT = pathlib.Path(__file__).resolve().parent.parent
PROGRAM = ROOT / "crates/pybuf_program/out/pybuf_program"
SECONDS = 60
SESSIONS, LINES = 16, 400
# a text between quotes, a word, or what stands between words
TOKENS = re.compile(rb"'[^']*'|[^ ()\[\],:']+|.")
# a handle that nothing has
NOTHING = b"h9223372036854775807"


def tokens(command):
    return TOKENS.findall(command)


def spelled(token):
    """A word as it is written: numbers without leading zeros, digits of bytes in lower case."""
    if re.fullmatch(rb"-?[0-9]+", token):
        return b"%d" % int(token)
    return token.lower() if re.fullmatch(rb"x[0-9A-Fa-f]*", token) else token


def given(numbers, count, letter):
    """The name of the one of these numbers that has this place, if there is one."""
    return letter + b"%d" % numbers[int(count)] if int(count) < len(numbers) else b"none"


class Session:
    """A session: what it still has to ask, and the numbers of the views and iterators that it was given."""

    def __init__(self):
        self.script, self.asked, self.views, self.iterators = [], 0, [], []

    def named(self, token):
        if re.fullmatch(rb"m[0-9]+", token):
            return given(self.views, token[1:], b"v")
        if re.fullmatch(rb"i[0-9]+", token):
            return given(self.iterators, token[1:], b"j")
        return spelled(token)

    def next_command(self):
        """The next command as its entry has to spell it, or None."""
        if self.asked == len(self.script):
            return None
        self.asked += 1
        return b"".join(map(self.named, tokens(self.script[self.asked - 1])))


class Replay:
    """The lines for `run` that do what entries did, and what has to be replied to each."""

    def __init__(self, first):
        self.lines, self.replies = [first], [b"h0"]
        self.views, self.iterators, self.handles = [], [], 1

    def handle(self, token):
        if token == b"own":
            return b"h0"
        if token == b"none":
            return NOTHING
        found = re.fullmatch(rb"([vj])([0-9]+)", token)
        if not found:
            return token
        kept = self.views if found[1] == b"v" else self.iterators
        return b"h%d" % kept[int(found[2])] if int(found[2]) < len(kept) else b"a name that was never given"

    def add(self, line, reply):
        self.lines.append(line)
        self.replies.append(reply)

    def made(self):
        """The handle of what is made next."""
        self.handles += 1
        return b"h%d" % (self.handles - 1)

    def entry(self, command, reply, session):
        """Adds an entry, and gives the session what it was given by it."""
        line = b"".join(map(self.handle, tokens(command)))
        fresh = re.fullmatch(rb"fresh (b['\"].*)", reply)
        if fresh:
            handle = self.made()
            self.add(line, handle if line.startswith(b"copy ") else handle + b" " + self.made())
            self.add(b"bytes " + handle, fresh[1])
        elif reply == b"v%d" % len(self.views):
            session.views.append(len(self.views))
            self.views.append(self.handles)
            self.add(line, self.made())
        elif reply == b"j%d" % len(self.iterators):
            session.iterators.append(len(self.iterators))
            self.iterators.append(self.handles)
            self.add(line, self.made())
        elif re.fullmatch(rb"own|[vj][0-9]+", reply):
            self.add(line, self.handle(reply))
        else:
            self.add(line, reply)


def run(program, word, lines):
    ended = subprocess.run(
        [program, word], input=b"".join(line + b"\n" for line in lines), stdout=subprocess.PIPE, stderr=subprocess.PIPE, timeout=SECONDS
    )
    if ended.returncode or ended.stderr:
        return None, f"{word} ended with status {ended.returncode} and {ended.stderr!r}: {ended.stdout[:200]!r}"
    if ended.stdout and not ended.stdout.endswith(b"\n"):
        return None, f"the last line of {word} lacks its line feed"
    return ended.stdout.split(b"\n")[:-1], None


def sessions_of(lines):
    """The sessions of the lines behind the first."""
    asked = [line.split(b" ", 1) for line in lines]
    sessions = [Session() for _ in range(1 + max([int(number) for number, _ in asked], default=0))]
    for number, command in asked:
        sessions[int(number)].script.append(command)
    return sessions


def fault_of(program, lines, written, whole=True):
    """What is wrong with what was written for the lines, or None. If it needn't be whole, its last lines may be missing."""
    sessions, replay = sessions_of(lines[1:]), Replay(lines[0])
    ended = any(line.startswith(b"calls ") for line in written[-2:])
    if whole and (len(written) < 2 or not ended):
        return f"{len(written)} lines were written, and none says how many commands there were"
    cut = len(written) - 2 if whole else sum(1 for line in written if not line.startswith((b"calls ", b"bytes ")))
    entries, behind = written[:cut], written[cut:]
    for entry in entries:
        found = re.fullmatch(rb"(0|[1-9][0-9]?): (.*?) -> (.*)", entry)
        if not found or int(found[1]) >= len(sessions):
            return f"{entry!r} is no entry of a session"
        session = sessions[int(found[1])]
        wanted = session.next_command()
        if wanted != found[2]:
            return f"{entry!r}: the session asks {wanted!r} here"
        replay.entry(found[2], found[3], session)
    left = sum(len(it.script) - it.asked for it in sessions)
    if behind and (left or behind[0] != b"calls %d" % len(entries)):
        return f"{behind[0]!r} stands behind {len(entries)} entries, and {left} lines are left"
    if len(behind) > 1:
        if not behind[1].startswith(b"bytes "):
            return f"{behind[1]!r} is the last line"
        replay.add(b"bytes h0", behind[1].removeprefix(b"bytes "))
    replies, fault = run(program, "run", replay.lines)
    if fault:
        return fault
    for line, wanted, reply in zip(replay.lines, replay.replies, replies):
        if wanted != reply:
            return f"one thread gets {reply!r} to {line!r}, and `share` wrote {wanted!r}"
    if len(replies) != len(replay.lines):
        return f"one thread wrote {len(replies)} replies to {len(replay.lines)} lines"
    return None


def check(program, lines):
    """Runs the lines by `share`, and says what is wrong, or None."""
    try:
        written, fault = run(program, "share", lines)
        return fault or fault_of(program, lines, written)
    except subprocess.TimeoutExpired:
        return f"it had not ended after {SECONDS} seconds"


class Drawn:
    """Draws lines of sessions."""

    KINDS = [b"bytearray"] * 6 + [b"bytes", b"vector", b"rovector"]
    # all methods, by how many arguments they take
    METHODS = {
        b"": b"isalnum isalpha isascii isdigit islower isspace istitle isupper lower upper swapcase capitalize title hex strip lstrip rstrip split "
        b"rsplit expandtabs splitlines decode".split(),
        b" VALUE": b"add concat mul hex fromhex center ljust rjust find rfind index rindex count startswith endswith join translate strip lstrip "
        b"rstrip removeprefix removesuffix split rsplit partition rpartition expandtabs splitlines zfill decode".split(),
        b" VALUE VALUE": b"hex center ljust rjust find rfind index rindex count startswith endswith maketrans translate split rsplit replace "
        b"decode".split(),
        b" VALUE VALUE VALUE": b"find rfind index rindex count startswith endswith replace".split(),
    }
    # How often each is drawn, by the name that it has: what makes views and takes them away, what asks for another length, and
    # what only reads.
    COMMANDS = [
        (8, b"view NAME"),
        (6, b"release VIEW"),
        (2, b"exit VIEW"),
        (2, b"range own 0 2"),
        (1, b"range NAME NUMBER NUMBER"),
        (6, b"get VIEW KEY"),
        (3, b"get own KEY"),
        (1, b"get ANY VALUE"),
        (2, b"cast VIEW FORMAT"),
        (2, b"cast VIEW 'B' [2,2]"),
        (2, b"castf VIEW 'B' [2,2]"),
        (1, b"cast VIEW VALUE"),
        (1, b"cast VIEW FORMAT VALUE"),
        (1, b"toreadonly VIEW"),
        (1, b"contig VIEW"),
        (1, b"enter VIEW"),
        (3, b"set VIEW KEY VALUE"),
        (3, b"set own KEY VALUE"),
        (1, b"set ANY VALUE VALUE"),
        (2, b"del own KEY"),
        (1, b"del ANY VALUE"),
        (6, b"append own VALUE"),
        (2, b"extend own VALUE"),
        (1, b"iadd own VALUE"),
        (2, b"insert own NUMBER NUMBER"),
        (1, b"insert own VALUE VALUE"),
        (3, b"pop own"),
        (1, b"pop own VALUE"),
        (1, b"remove own VALUE"),
        (1, b"clear own"),
        (1, b"reverse own"),
        (1, b"imul own SMALL"),
        (2, b"init own BYTES"),
        (1, b"init own VALUE"),
        (1, b"init own VALUE VALUE"),
        (1, b"copy own"),
        (1, b"take own"),
        (2, b"len NAME"),
        (2, b"bytes NAME"),
        (1, b"bytes VIEW ORDER"),
        (2, b"tolist VIEW"),
        (3, b"prop VIEW PROPERTY"),
        (1, b"prop own exports"),
        (2, b"compare NAME OPERATOR VALUE"),
        (1, b"hash NAME"),
        (1, b"repr NAME"),
        (1, b"contains own VALUE"),
        (1, b"hex VIEW"),
        (1, b"hex NAME VALUE"),
        (1, b"hex VIEW VALUE VALUE"),
        (2, b"iter NAME"),
        (4, b"next ITERATOR"),
        (1, b"hint ITERATOR"),
        (1, b"setstate ITERATOR VALUE"),
        (1, b"len ANY"),
        (6, b"call own METHOD"),
        (1, b"call VIEW METHOD"),
    ]

    # what makes a view, mostly
    VIEWS = (b"view ", b"range ", b"get VIEW ", b"get ANY ", b"cast ", b"castf ", b"toreadonly ")

    def __init__(self, draw):
        self.draw = draw
        # how many views and iterators a session speaks of
        self.names = draw.choice([1, 2, 4, 12])
        # an input with many views refuses most of what asks for another length, and one without refuses nothing
        self.weights = [weight * (draw.choice([1, 1, 4]) if command.startswith(b"release") else 1) for weight, command in self.COMMANDS]

    def number(self):
        return b"%d" % self.draw.choice([0, 1, 2, 3, 65, 97, 255, 256, -1, -2, 2**63, -(2**63) - 1, self.draw.randrange(256)])

    def key(self):
        if self.draw.random() < 0.5:
            return self.number()
        part = lambda: self.draw.choice([b"None", b"0", b"1", b"2", b"-1", b"5", self.number()])
        return b":".join([part(), part(), self.draw.choice([b"None", b"None", b"1", b"2", b"-1", b"0"])])

    def digits(self):
        return b"x" + bytes(self.draw.choices(range(97, 103), k=self.draw.randrange(6))).hex().encode()

    def value(self):
        kind = self.draw.randrange(12)
        if kind < 4:
            return self.number()
        if kind < 6:
            return self.digits()
        if kind < 10:
            return self.put(b"NAME" if kind < 9 else b"ANY")
        return self.draw.choice([b"None", b"True", b"...", b"'utf-8'", b"'a,own'", b"[1,2]", b"(own,m0)", b"[x61,own]", b"(1:2:None,own:m0:i0)", self.key()])

    def word(self, name):
        draw = self.draw
        made = {
            b"NAME": lambda: draw.choice([b"own", b"m%d" % draw.randrange(self.names)]),
            b"ANY": lambda: draw.choice([b"own", b"m%d", b"i%d"]).replace(b"%d", b"%d" % draw.randrange(self.names)),
            b"VIEW": lambda: b"m%d" % draw.randrange(self.names),
            b"ITERATOR": lambda: b"i%d" % draw.randrange(self.names),
            b"KEY": self.key,
            b"VALUE": self.value,
            b"NUMBER": self.number,
            b"SMALL": lambda: draw.choice([b"-1", b"0", b"1", b"1", b"2"]),
            b"BYTES": self.digits,
            b"FORMAT": lambda: draw.choice([b"'B'", b"'b'", b"'H'", b"'c'", b"'I'", b"'@q'", b"'?'", b"'xyz'"]),
            b"ORDER": lambda: draw.choice([b"None", b"'C'", b"'F'", b"'A'", b"'X'", self.value()]),
            b"OPERATOR": lambda: draw.choice([b"==", b"!=", b"<", b"<=", b">", b">="]),
            b"PROPERTY": lambda: draw.choice(b"obj nbytes itemsize readonly format ndim shape strides suboffsets contiguous c_contiguous f_contiguous".split()),
            b"METHOD": lambda: (lambda values: self.put(draw.choice(self.METHODS[values]) + values))(draw.choice(list(self.METHODS))),
        }
        return made[name]() if name in made else name

    def put(self, pattern):
        return b"".join(map(self.word, tokens(pattern)))

    def command(self, pattern):
        """A command. One in twenty is asked of any subject, whether the subject has this command or not."""
        words = pattern.split(b" ")
        if self.draw.random() < 0.05:
            words[1] = b"ANY"
        return self.put(b" ".join(words))

    def lines(self, most_sessions, most_lines):
        draw = self.draw
        sessions = draw.randint(1, most_sessions)
        commands = [command for _, command in self.COMMANDS]
        first = b"new %s x%s" % (draw.choice(self.KINDS), draw.randbytes(draw.choice([0, 1, 4, 8, 24])).hex().encode())
        patterns = draw.choices(commands, self.weights, k=draw.randint(0, most_lines))
        return [first] + [b"%d %s" % (draw.randrange(sessions), self.command(pattern)) for pattern in patterns]

    def script(self):
        """The 200 lines of one session. Some make no view, then come lines of all kinds, and behind the release of its views come
        lines that make none again. So most sessions add bytes and take some out while nobody has a view."""
        commands = [(command, weight) for (_, command), weight in zip(self.COMMANDS, self.weights)]
        others = [(command, weight) for command, weight in commands if not command.startswith(self.VIEWS)]
        drawn = lambda some, count: self.draw.choices(*zip(*some), k=count)
        releases = [b"release m%d" % number for number in range(20)]
        return list(map(self.command, drawn(others, 70) + drawn(commands, 80) + releases + drawn(others, 30)))


def drawn(count, seed, most_sessions=SESSIONS, most_lines=LINES):
    """So many drawn inputs."""
    draw = random.Random(seed)
    return [Drawn(draw).lines(most_sessions, most_lines) for _ in range(count)]


def scripts(count, seed, sessions=8):
    """So many inputs, of sessions that each ask 200 commands of a bytearray."""
    draw = random.Random(seed)
    asked = lambda number: [b"%d %s" % (number, line) for line in Drawn(draw).script()]
    return [[b"new bytearray x6162636465666768"] + [line for number in range(sessions) for line in asked(number)] for _ in range(count)]


def main():
    parser = argparse.ArgumentParser(description=__doc__, formatter_class=argparse.RawDescriptionHelpFormatter)
    parser.add_argument("--program", default=str(PROGRAM))
    parser.add_argument("--count", type=int, default=300)
    parser.add_argument("--seed", type=int, default=1)
    parser.add_argument("--runs", type=int, default=2)
    parser.add_argument("files", nargs="*")
    words = parser.parse_args()
    if words.files:
        inputs = [(name, pathlib.Path(name).read_bytes().removesuffix(b"\n").split(b"\n")) for name in words.files]
    else:
        inputs = [(f"drawn input {number}", lines) for number, lines in enumerate(drawn(words.count, words.seed), 1)]
    with ThreadPoolExecutor(os.cpu_count() or 1) as pool:
        runs = [(name, lines) for name, lines in inputs for _ in range(words.runs)]
        faults = [(name, fault) for (name, _), fault in zip(runs, pool.map(lambda it: check(words.program, it[1]), runs)) if fault]
    for name, fault in faults[:20]:
        print(f"    {name}: {fault}")
    asked = sum(len(lines) - 1 for _, lines in inputs)
    print(f"{len(inputs)} inputs of {asked} commands, each run {words.runs} times: {len(faults)} runs differ from one thread")
    return 1 if faults else 0


if __name__ == "__main__":
    sys.exit(main())
