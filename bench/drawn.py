"""Lines with all kinds of words, drawn at random, to which the program and the plain loop reply the same.

`tools/compare.py` draws them and knows the replies of the program. If the loop's reply is another one, as at each
difference from Python, the line is left out, and both go on as if it had never been there.
"""
import pathlib
import re
import sys

HERE = pathlib.Path(__file__).resolve().parent
sys.dont_write_bytecode = True
sys.path[:0] = [str(HERE), str(HERE.parent / "tools")]

import compare
import loop

# How many lines one drawing has. They are few, since it mostly begins anew at each line that is left out.
LINES = 60


def beside(kept):
    """A call that gives the loop's reply to one more line, behind these lines."""
    fed = []
    replies = loop.replies(iter(fed.pop, None))

    def reply(line):
        fed.append(line)
        return next(replies)

    for line in kept:
        reply(line)
    return reply


def drawing(seed):
    """So many drawn lines, and how many handles they make."""
    drawn, kept, reply = compare.Drawn(seed), [], beside([])
    while len(kept) < LINES:
        line = drawn.line()
        ours, theirs = drawn.world.reply(line), reply(line)
        if ours == theirs:
            kept.append(line)
        elif not (ours[0] == theirs[0] == "!"):
            drawn.world, reply = compare.Ours(), beside(kept)
            drawn.world.run(kept)
    return kept, len(drawn.world.objects)


def lines(limit):
    """The lines of one drawing after another. They have at most so many bytes, and their handles go on from drawing to drawing."""
    given, size, seed = 0, 0, 1
    while True:
        kept, handles = drawing(seed)
        seed += 1
        # a line that was left out may have changed the loop's objects even if it was refused
        if compare.Ours().run(kept) != [*loop.replies(kept)]:
            continue
        for line in kept:
            # no handle stands between quotes
            line = re.sub("('[^']*')|\\bh([0-9]+)", lambda it: it[1] or f"h{int(it[2]) + given}", line)
            size += len(line) + 1
            if size > limit:
                return
            yield line
        given += handles
