"""Our objects beside Python's files, sockets, mapped files, pickles and formats. Where the library lends its bytes, C code of Python's reads and
writes them where they lie. Else our types have no buffer: bytes go over as copies, by `bytes(..)` in one direction and by the types' own reading in
the other, and what wants a buffer refuses our objects, so that no copy is taken for shared bytes.

    others.py     the last line counts what was compared
"""
import copy
import hashlib
import io
import mmap
import pathlib
import pickle
import socket
import struct
import sys
import tempfile
from array import array

sys.path.insert(0, str(pathlib.Path(__file__).resolve().parent.parent))
from pybuf import ByteArray, MemoryView, Struct  # noqa: E402

CONTENT = bytes(range(256)) * 40


def a_file():
    """Written and read back, with a header by a format."""
    head = Struct('<4sHI')
    with tempfile.NamedTemporaryFile() as file:
        ours = ByteArray(head.pack(b'PYBF', 1, len(CONTENT))) + CONTENT
        file.write(bytes(ours))
        file.flush()
        read = ByteArray(pathlib.Path(file.name).read_bytes())
        yield head.unpack_from(read) == struct.unpack_from('<4sHI', bytes(ours)) == (b'PYBF', 1, len(CONTENT))
        with MemoryView(read)[head.size:] as body:
            yield body == CONTENT
        with mmap.mmap(file.fileno(), 0, access=mmap.ACCESS_READ) as mapped:
            yield ByteArray(mapped) == read
            with MemoryView(mapped) as view:
                yield view == read and view.readonly and head.unpack_from(view) == head.unpack_from(mapped)
            yield head.unpack_from(mapped) == head.unpack_from(read)


def streams():
    stream = io.BytesIO()
    stream.write(bytes(ByteArray(b'one\ntwo\n')))
    yield stream.getvalue() == b'one\ntwo\n'
    yield ByteArray(stream.getbuffer()).splitlines() == [b'one', b'two']
    yield MemoryView(stream.getbuffer()).tobytes() == b'one\ntwo\n'
    stream.write(b'three')  # a view of a copy keeps no buffer exported
    yield ByteArray(b', ').join([ByteArray(b'a'), memoryview(b'b'), array('B', b'c')]) == b'a, b, c'


def sockets():
    """Sent over the loopback and put together again."""
    with socket.create_server(('127.0.0.1', 0)) as server, socket.create_connection(server.getsockname()) as sender:
        receiver, _ = server.accept()
        with receiver:
            message, length = ByteArray(CONTENT), Struct('>I')
            sender.sendall(length.pack(len(message)) + bytes(message))
            sender.shutdown(socket.SHUT_WR)
            got, room = ByteArray(), bytearray(1000)
            while count := receiver.recv_into(room):
                got += memoryview(room)[:count]
            yield length.unpack_from(got) == (len(CONTENT),)
            del got[:length.size]
            yield got == CONTENT and got == message


def copies():
    ours = ByteArray(b'abc')
    for protocol in range(pickle.HIGHEST_PROTOCOL + 1):
        made = pickle.loads(pickle.dumps(ours, protocol))
        made.append(100)
        yield type(made) is ByteArray and made == b'abcd' and ours == b'abc'
    yield copy.deepcopy([ours, ours])[0] == ours
    rest = iter(ours)
    next(rest)
    yield bytes(pickle.loads(pickle.dumps(rest))) == b'bc'


def formats():
    ours = ByteArray(16)
    Struct('<2Hd').pack_into(ours, 2, 1, 2, 2.5)
    yield struct.unpack_from('<2Hd', bytes(ours), 2) == (1, 2, 2.5) == Struct('<2Hd').unpack_from(ours, 2)
    theirs = bytearray(16)
    Struct('<2Hd').pack_into(theirs, 2, 1, 2, 2.5)  # a buffer of Python's is written where it lies
    yield theirs == bytes(ours)
    yield MemoryView(array('d', [1.0, 2.5])).tolist() == [1.0, 2.5]
    yield hashlib.sha256(bytes(ours)).digest() == hashlib.sha256(bytes(theirs)).digest()


def lends():
    try:
        memoryview(ByteArray()).release()
    except TypeError:
        return False
    return True


def bytes_are_shared():
    """What is written on one side is seen on the other, and the array keeps its length until the last buffer is given back."""
    ours = ByteArray(CONTENT)
    view = memoryview(ours)
    view[0], ours[1] = 65, 66
    yield ours[0] == 65 and view[1] == 66 and view.obj is ours
    try:
        ours.append(1)
        yield False
    except BufferError:
        yield True
    view.release()
    ours.append(1)
    yield io.BytesIO(b'12345').readinto(ours) == 5 and ours[:5] == b'12345'
    yield hashlib.sha256(ours).digest() == hashlib.sha256(bytes(ours)).digest()
    sender, receiver = socket.socketpair()
    with sender, receiver:
        sender.sendall(MemoryView(ours)[:100])
        yield receiver.recv_into(MemoryView(ours)[200:300]) == 100 and ours[200:300] == ours[:100]
    with tempfile.TemporaryFile() as file:
        yield file.write(ours) == len(ours) and file.seek(0) == 0 and file.read() == bytes(ours)
    numbers = memoryview(MemoryView(ours)[:16].cast('H', [2, 4]))
    yield numbers.tolist() == MemoryView(ours)[:16].cast('H', [2, 4]).tolist() and numbers.format == 'H' and numbers.shape == (2, 4)
    numbers[1, 3] = 5
    yield ours[14] == 5
    yield memoryview(MemoryView(ours).toreadonly()).readonly
    for _ in range(5000):  # the world isn't moved while a buffer is out
        MemoryView(ours)[1:]
    numbers[0, 0] = 513
    yield ours[:2] == b'\x01\x02'
    del numbers
    ours.append(1)
    try:
        memoryview(MemoryView(ours)[::2])
        yield False
    except BufferError:
        yield True


def no_buffer_is_pretended():
    """A copy isn't passed off as shared bytes."""
    ours, view = ByteArray(b'abc'), MemoryView(ByteArray(b'abc'))
    with socket.socket() as unconnected, tempfile.TemporaryFile() as file:
        for call in (memoryview, hashlib.sha256, unconnected.send, file.write, file.readinto, lambda it: b''.join([it]), lambda it: io.BytesIO(it),
                     lambda it: struct.pack_into('B', it, 0, 1)):
            for it in ours, view:
                try:
                    call(it)
                except TypeError:
                    yield True
                    continue
                yield call is io.BytesIO
    theirs = bytearray(b'abc')
    copied = MemoryView(theirs)
    copied[0] = 65
    theirs.append(100)  # nothing is exported
    yield theirs == b'abcd' and copied == b'Abc'


def main():
    compared = 0
    for test in a_file, streams, sockets, copies, formats, bytes_are_shared if lends() else no_buffer_is_pretended:
        for place, same in enumerate(test()):
            compared += 1
            if not same:
                print(f'{test.__name__}: {place}')
                return 1
    print(f'{compared} comparisons with files, sockets, mapped files, pickles and formats')
    return 0


sys.exit(main())
