"""Six lines through a world and by objects, then the session of the README's head by objects, and its bytes by a format.
It prints what each of them answers."""
import struct

from pybuf import ByteArray, MemoryView, Struct, World

with World() as world:
    for reply in world.run('new bytearray x616263\nview h0\nset h1 0 65\nget h1 0\nbytes h1\nrelease h1\n'):
        print(reply)

array = ByteArray(b'abc')
view = MemoryView(array)
view[0] = 65
print(view[0], bytes(view))
view.release()

b = ByteArray(b'\x01\x00\x02\x00')
m = MemoryView(b)
n = m.cast('H')
print(n[0])
n[1] = 258
print(bytes(b))
print(n.shape)
try:
    b.append(0)
except BufferError:
    print('BufferError')
n.release()
try:
    n[0]
except ValueError:
    print('ValueError')

format = Struct('<2H')
print(format.unpack(b))
try:
    format.pack(1, 65536)
except struct.error:
    print('struct.error')
