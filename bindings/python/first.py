from pybuf import ByteArray, MemoryView

array = ByteArray(b'abc')
with MemoryView(array) as view:
    view[0] = 65
    try:
        array.append(100)
    except BufferError:
        print('a view is out')
array.append(100)
print(bytes(array), array.find(b'c'), array == b'Abcd')
