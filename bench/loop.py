"""A plain loop that carries out lines of commands on Python's own objects. The program is measured beside it.

It carries out one line after the other. It keeps neither lines nor replies, since the program keeps no list of them either.
"""
import operator
import re
import sys

NAMED = {"None": None, "True": True, "False": False, "...": ...}
# A vector has no kind of its own in Python.
KINDS = {"bytes": bytes, "bytearray": bytearray, "vector": bytearray, "rovector": bytes}
OPERATORS = {"==": operator.eq, "!=": operator.ne, "<": operator.lt, "<=": operator.le, ">": operator.gt, ">=": operator.ge}
SUMS = {"add": operator.add, "concat": operator.concat, "mul": operator.mul}
PARTS = re.compile("(?:'[^']*'|[^,'])+")


def value(word, objects):
    """The value that a word spells."""
    if word[0] == "x":
        return bytes.fromhex(word[1:])
    if word[0] == "'":
        return word[1:-1]
    if word[0] == "h":
        return objects[int(word[1:])]
    try:
        if word[0] in "([":
            parts = [int(part) for part in word[1:-1].split(",")]
            return tuple(parts) if word[0] == "(" else parts
        if ":" in word:
            return slice(*[None if part == "None" else int(part) for part in word.split(":")])
        return int(word)
    except ValueError:
        return other_value(word, objects)


def other_value(word, objects):
    """The value of a word that isn't made of numbers alone."""
    if word[0] in "([":
        parts = word[1:-1].split(",") if "'" not in word else PARTS.findall(word[1:-1])
        parts = [value(part, objects) for part in parts if part]
        return tuple(parts) if word[0] == "(" else parts
    if ":" in word:
        return slice(*[value(part, objects) for part in word.split(":")])
    return NAMED[word]


def as_bytes(found):
    """The result of a method, with bytes in place of a bytearray."""
    if type(found) is bytearray:
        return bytes(found)
    return [bytes(part) for part in found] if type(found) in (list, tuple) else found


class Others:
    """The commands that have no line of their own in the loop. Each is found by its word, and gets the values behind its subject."""

    def __init__(self, objects):
        self.objects = objects
        # the handle of each object that views are made of, by the object's identity
        self.owners = {}

    def named(self, *made):
        self.objects.extend(made)
        return " ".join([f"h{len(self.objects) - len(made) + at}" for at in range(len(made))])

    def range(self, subject, start, stop):
        if not 0 <= operator.index(start) <= operator.index(stop) <= len(subject):
            raise IndexError
        return self.named(memoryview(subject)[start:stop])

    def toreadonly(self, subject):
        return self.named(subject.toreadonly())

    def contig(self, subject):
        content = subject.tobytes() if subject.readonly else bytearray(subject.tobytes())
        made = memoryview(content)
        self.owners[id(content)] = len(self.objects)
        return self.named(content, made.cast(subject.format) if subject.ndim == 1 else made.cast(subject.format, subject.shape))

    def exit(self, subject):
        subject.__exit__(None, None, None)
        return "ok"

    def hash(self, subject):
        hash(subject)
        return repr(bytes(subject))

    def contains(self, subject, needle):
        return repr(needle in subject)

    def hex(self, subject, *groups):
        return repr(subject.hex(*groups))

    def hint(self, subject):
        return repr(subject.__length_hint__())

    def setstate(self, subject, place):
        subject.__setstate__(place)
        return "ok"

    def iadd(self, subject, other):
        subject += other
        return "ok"

    def remove(self, subject, byte):
        subject.remove(byte)
        return "ok"

    def reverse(self, subject):
        subject.reverse()
        return "ok"

    def init(self, subject, *options):
        subject.__init__(*options)
        return "ok"

    def take(self, subject):
        found = repr(bytes(subject))
        subject.clear()
        return found


def replies(lines):
    """The replies to the lines."""
    objects = []
    others = Others(objects)
    owners = others.owners
    for line in lines:
        words = line.split(" ")
        word = words[0]
        try:
            if word == "new":
                objects.append(KINDS[words[1]](*[value(word, objects) for word in words[2:]]))
                owners[id(objects[-1])] = len(objects) - 1
                yield f"h{len(objects) - 1}"
                continue
            subject = objects[int(words[1][1:])]
            if word == "get":
                found = subject[value(words[2], objects)]
                if type(found) is memoryview:
                    objects.append(found)
                    yield f"h{len(objects) - 1}"
                else:
                    yield repr(bytes(found) if type(found) is bytearray else found)
            elif word == "set":
                subject[value(words[2], objects)] = value(words[3], objects)
                yield "ok"
            elif word == "view":
                objects.append(memoryview(subject))
                yield f"h{len(objects) - 1}"
            elif word == "bytes":
                yield repr(bytes(subject))
            elif word == "tolist":
                yield repr(subject.tolist())
            elif word == "next":
                yield repr(next(subject))
            elif word == "iter":
                # if it is called in this way, CPython 3.11 notices the refusal of a released view
                found = operator.call(iter, subject)
                if found is not subject:
                    objects.append(found)
                yield words[1] if found is subject else f"h{len(objects) - 1}"
            elif word == "release":
                subject.release()
                yield "ok"
            elif word == "compare":
                yield repr(OPERATORS[words[2]](subject, value(words[3], objects)))
            elif word == "repr":
                yield repr(subject)
            elif word == "append":
                subject.append(value(words[2], objects))
                yield "ok"
            elif word == "pop":
                yield repr(subject.pop(*[value(word, objects) for word in words[2:]]))
            elif word == "extend":
                subject.extend(value(words[2], objects))
                yield "ok"
            elif word == "del":
                del subject[value(words[2], objects)]
                yield "ok"
            elif word == "insert":
                subject.insert(value(words[2], objects), value(words[3], objects))
                yield "ok"
            elif word == "imul":
                subject *= value(words[2], objects)
                yield "ok"
            elif word == "clear":
                subject.clear()
                yield "ok"
            elif word == "copy":
                objects.append(subject.copy())
                owners[id(objects[-1])] = len(objects) - 1
                yield f"h{len(objects) - 1}"
            elif word == "len":
                yield repr(len(subject))
            elif word == "cast":
                objects.append(subject.cast(*[value(word, objects) for word in words[2:]]))
                yield f"h{len(objects) - 1}"
            elif word == "call":
                values = [value(word, objects) for word in words[3:]]
                found = SUMS[words[2]](subject, *values) if words[2] in SUMS else getattr(subject, words[2])(*values)
                yield repr(as_bytes(found))
            elif word == "prop" and words[2] == "obj":
                yield f"h{owners[id(subject.obj)]}"
            elif word == "prop":
                yield repr(getattr(subject, words[2]))
            elif word == "enter":
                subject.__enter__()
                yield words[1]
            else:
                yield getattr(others, word)(subject, *[value(word, objects) for word in words[2:]])
        except StopIteration:
            yield "stop"
        except Exception as fault:
            yield f"! {type(fault).__name__}"


def main():
    write = sys.stdout.write
    for reply in replies(line.rstrip("\n") for line in sys.stdin):
        write(reply + "\n")


if __name__ == "__main__":
    main()
