"""Makes views of long-lived views again and again, so that the package moves them to new worlds, and looks at each of the living ones after it.
What Python's own views answer is what ours have to answer.

    renewed.py [SEED]     the last line counts the views
"""
import pathlib
import random
import sys

sys.path.insert(0, str(pathlib.Path(__file__).resolve().parent.parent))
from pybuf import ByteArray, MemoryView  # noqa: E402

CONTENT = bytes(range(240))
# a package that moves nothing keeps as many objects as are made here
TURNS, MADE = 12, 1500


def kinds(draw):
    """Ways to make a view of a view, with their words."""
    parts = [draw.choice([None, 0, 1, 3, -4, 200, -200]) for _ in range(2)]
    step = draw.choice([None, 1, 2, 3, -1, -2, 7, 1 << 20, -1 << 20])
    return draw.choice([
        (f'[{parts[0]}:{parts[1]}:{step}]', lambda m: m[parts[0]:parts[1]:step]),
        ('cast H', lambda m: m.cast('H')), ('cast B', lambda m: m.cast('B')), ('cast f', lambda m: m.cast('f')),
        ('cast rows', lambda m: m.cast('B', [4, m.nbytes // 4])), ('toreadonly', lambda m: m.toreadonly()),
        ('view', lambda m: type(m)(m)), ('cast c', lambda m: m.cast('c')), ('cast ?', lambda m: m.cast('?')),
    ])


def told(view):
    return view.tobytes(), view.format, view.shape, view.strides, view.readonly, view.tolist() if view.format != 'f' else None


def grown(draw, theirs, ours):
    """Pairs of views of each other."""
    pairs, words = [(theirs, ours, 'whole')], 0
    while len(pairs) < 40 and words < 400:
        words += 1
        one, other, said = draw.choice(pairs)
        how, made = kinds(draw)
        try:
            pair = made(one)
        except (TypeError, ValueError, IndexError, ZeroDivisionError):
            continue
        if not pair.nbytes:
            continue
        pairs.append((pair, made(other), f'{said} {how}'))
    return pairs


def main():
    draw = random.Random(int(sys.argv[1]) if len(sys.argv) > 1 else 1)
    looked = 0
    for source in bytearray(CONTENT), CONTENT:
        kept = ByteArray(source) if isinstance(source, bytearray) else source
        pairs = grown(draw, memoryview(source), MemoryView(kept))
        released = MemoryView(kept)
        released.release()
        for turn in range(TURNS):
            whole = pairs[draw.randrange(len(pairs))][1]
            for _ in range(MADE):
                MemoryView(whole)
                if whole.ndim == 1:
                    whole[1:]
            if isinstance(source, bytearray):
                at, byte = draw.randrange(240), draw.randrange(256)
                source[at] = byte
                kept[at] = byte
            for theirs, ours, said in pairs:
                looked += 1
                if told(theirs) != told(ours) or ours.obj is not kept:
                    print(f'turn {turn}: {said}: Python {told(theirs)}, ours {told(ours)}')
                    return 1
            if len(pairs) > 8 and turn % 3 == 2:
                pairs.pop(draw.randrange(1, len(pairs)))
            try:
                released[0]
            except ValueError:
                continue
            print('a released view answers')
            return 1
        if isinstance(source, bytearray):
            try:
                kept.append(1)
            except BufferError:
                pass
            else:
                print('the views that moved are no exports')
                return 1
            for _, ours, _ in pairs:
                ours.release()
            kept.append(1)
    print(f'{looked} looks at views that moved with their world find what Python\'s own find')
    return 0


sys.exit(main())
