//! Views with lifetimes, typed items, slices, streams, and records as tuples. The expected values are those of Python 3.11.
use pybuf::{pack, slice, unpack, Be, ByteArray, Bytes, Error, Format, Item, Le, Slice, ViewMut};
use std::fmt::Debug;
use std::io::{BufRead, Read, Write};
use std::ops::Bound;

#[test]
fn ranges_count_from_the_end_where_they_are_negative() {
    // b"abcdef"[1:], [1:-1], [-3:], [:3], [2:4], and so on
    let array = ByteArray::from(b"abcdef");
    let of = |slice: Slice| String::from_utf8(array.slice(slice).unwrap()).unwrap();
    assert_eq!(of((1..=-1).into()), "bcdef");
    assert_eq!(of((..=-1).into()), "abcdef");
    assert_eq!(of((1..=-2).into()), "bcde");
    assert_eq!(of((-3..=-2).into()), "de");
    assert_eq!(of((1..=3).into()), "bcd");
    assert_eq!(of((1..=i64::MAX).into()), "bcdef");
    assert_eq!(of((1..-1).into()), "bcde");
    assert_eq!(of((-1..1).into()), "");
    assert_eq!(of((3..=-5).into()), "");
    assert_eq!(of((Bound::Excluded(-2), Bound::Unbounded).into()), "f");
    assert_eq!(of((Bound::Excluded(-1), Bound::Unbounded).into()), "");
    assert_eq!(of((Bound::Excluded(i64::MAX), Bound::Unbounded).into()), "");
    assert_eq!(of(slice!(4..=1; -1)), "edcb");
    assert_eq!(of(slice!(-1..=0; -2)), "fdb");
    assert_eq!(of(slice!(..=0; -1)), "fedcba");
    assert_eq!(of(slice!(..=-6; -1)), "fedcba");
    assert_eq!(of(slice!(4..1; -1)), "edc");
    assert_eq!(of(slice!((Bound::Excluded(0), Bound::Unbounded); -1)), "");
    assert_eq!(of(slice!((Bound::Excluded(2), Bound::Unbounded); -1)), "ba");
    assert_eq!(of(slice!(0..=-1; 3)), "ad");
    assert_eq!(array.slice(slice!(..; 0)), Err(Error::Value));
}

/// Writes an item through each kind of view, and reads it back, and the bytes.
fn crossed<T: Item>(item: T, bytes: &[u8]) {
    let mut array = ByteArray::new(&vec![0; 2 * bytes.len()]).unwrap();
    array.as_view_mut().unwrap().cast::<T>().unwrap().set(1, item).unwrap();
    assert_eq!(array.slice(bytes.len() as i64..).unwrap(), bytes, "{item:?}");
    array.as_cells().unwrap().cast::<T>().unwrap().set(0, item).unwrap();
    let view = array.as_view().unwrap().cast::<T>().unwrap();
    assert_eq!(view, [item; 2]);
    assert_eq!(view.to_bytes().unwrap(), [bytes, bytes].concat());
    assert_eq!(view.iter().collect::<Vec<T>>(), view.to_vec().unwrap());
    assert_eq!(format!("{view:?}"), format!("View([{item:?}, {item:?}])"));
}

#[test]
fn items_have_the_bytes_that_their_type_tells() {
    crossed(200u8, b"\xc8");
    crossed(-2i8, b"\xfe");
    crossed(true, b"\x01");
    crossed(false, b"\x00");
    crossed(0x0102u16, &0x0102u16.to_ne_bytes());
    crossed(-2i16, &(-2i16).to_ne_bytes());
    crossed(u32::MAX - 1, &(u32::MAX - 1).to_ne_bytes());
    crossed(i32::MIN, &i32::MIN.to_ne_bytes());
    crossed(u64::MAX, &u64::MAX.to_ne_bytes());
    crossed(i64::MIN, &i64::MIN.to_ne_bytes());
    // struct.pack("<H", 258) and the like
    crossed(Le(258u16), b"\x02\x01");
    crossed(Be(258u16), b"\x01\x02");
    crossed(Le(-2i16), b"\xfe\xff");
    crossed(Be(-2i16), b"\xff\xfe");
    crossed(Le(1u32), b"\x01\0\0\0");
    crossed(Be(1u32), b"\0\0\0\x01");
    crossed(Le(-2i32), b"\xfe\xff\xff\xff");
    crossed(Be(-2i32), b"\xff\xff\xff\xfe");
    crossed(Le(1u64), b"\x01\0\0\0\0\0\0\0");
    crossed(Be(1u64), b"\0\0\0\0\0\0\0\x01");
    crossed(Le(i64::MIN), b"\0\0\0\0\0\0\0\x80");
    crossed(Be(i64::MIN), b"\x80\0\0\0\0\0\0\0");
}

#[test]
fn casts_are_refused_as_in_python() {
    let mut array = ByteArray::from(b"abcdef");
    let view = array.as_view().unwrap();
    assert_eq!(view.cast::<u32>().err(), Some(Error::Kind));
    assert_eq!(view.slice(slice!(..; 2)).unwrap().cast::<u8>().err(), Some(Error::Kind));
    assert_eq!(view.cast_to::<u16>(&[2, 2]).err(), Some(Error::Kind));
    assert_eq!(view.cast::<u16>().unwrap().cast::<u8>().unwrap(), view);
    // an odd address is no hindrance
    assert_eq!(view.slice(1..5).unwrap().cast::<Be<u32>>().unwrap().get(0), Ok(Be(0x62636465)));
    drop(view);
    assert_eq!(array.as_view_mut().unwrap().copy_from(b"abc"), Err(Error::Value));
    assert_eq!(array.exports(), Ok(0));
    assert_eq!(array, b"abcdef"[..]);
}

#[test]
fn several_dimensions_have_an_index_each() {
    // numpy.arange(6, dtype=uint16).reshape(2, 3)
    let mut array: ByteArray = (0..12).collect();
    let rows = array.as_view_mut().unwrap().cast_to::<Le<u16>>(&[2, 3]).unwrap();
    assert_eq!((rows.shape().unwrap(), rows.strides().unwrap()), (vec![2, 3], vec![6, 2]));
    assert_eq!(rows.get_at(&[1, -1]), Ok(Le(0x0b0a)));
    assert_eq!(rows.get_at(&[2, 0]), Err(Error::Index));
    assert_eq!(rows.get(0), Err(Error::NotImplemented));
    let cells = rows.into_cells().unwrap();
    cells.clone().set_at(&[0, 0], Le(9)).unwrap();
    assert_eq!(cells.slice(slice!(..; -1)).unwrap().get_at(&[1, 0]), Ok(Le(9)));
    assert_ne!(cells, cells.slice(1..).unwrap());
}

#[test]
fn a_view_keeps_bytes_as_they_are() {
    let array = ByteArray::from(b"abcd");
    let (cells, old) = (array.as_cells().unwrap(), array.view().unwrap());
    let view = array.as_view().unwrap();
    let part = view.slice(1..).unwrap().clone();
    drop(view);
    let refused = [
        array.set(0, 1),
        array.set_slice(..1, b"x"),
        array.reverse(),
        array.append(1),
        cells.set(0, 1),
        cells.set_at(&[0], 1),
        cells.copy_from(b"ABCD"),
        old.set(0, 1),
        old.set_at(&[0], 1),
        old.set_slice(..1, b"x"),
        old.set_slice_of(..1, &old.slice(1..2).unwrap()),
    ];
    assert_eq!(refused, [Err(Error::Buffer); 11]);
    assert_eq!(part, *b"bcd");
    drop(part);
    cells.set(0, 65).unwrap();
    old.set(1, 66).unwrap();
    assert_eq!(array, *b"ABcd");
}

#[test]
fn the_view_that_writes_is_alone() {
    let mut array = ByteArray::from(b"abcd");
    let old = array.view().unwrap();
    assert_eq!(array.as_view_mut().err(), Some(Error::Buffer));
    old.release().unwrap();
    assert_eq!(array.as_view_mut().unwrap(), *b"abcd");
    let mut writer: ViewMut<'_> = array.as_view_mut().unwrap();
    writer.write_all(b"AB").unwrap();
    assert_eq!(writer, *b"cd");
    assert_eq!(writer.write(b"CDE").unwrap(), 2);
    assert_eq!((writer.write(b"F").unwrap(), writer.len()), (0, 0));
    writer.flush().unwrap();
    drop(writer);
    assert_eq!(array, *b"ABCD");
}

#[test]
fn streams_carry_all_bytes() {
    let long: Vec<u8> = (0..10_000u32).map(|n| n as u8).collect();
    let mut array = ByteArray::from(b"");
    array.write_all(&long).unwrap();
    array.flush().unwrap();
    let mut read = Vec::new();
    array.as_view().unwrap().reader().read_to_end(&mut read).unwrap();
    assert_eq!(read, long);
    let rows = array.as_view().unwrap().cast_to::<u8>(&[100, 100]).unwrap();
    let mut reader = rows.slice(slice!(..; -50)).unwrap().reader();
    let mut row = [0; 100];
    reader.read_exact(&mut row).unwrap();
    assert_eq!(row[..], long[9900..]);
    assert_eq!(reader.fill_buf().unwrap(), &long[4900..5000]);
    drop((rows, reader));
    let lines: Vec<_> = Bytes::from(b"a\nb\n").as_view().unwrap().reader().lines().map(Result::unwrap).collect();
    assert_eq!(lines, ["a", "b"]);
    let view = array.view().unwrap();
    assert_eq!(array.write(b"x").unwrap_err().to_string(), "BufferError");
    drop(view);
}

#[test]
fn released_views_leave_nothing() {
    let bytes = vec![7; 100_000];
    let (mut array, still) = (ByteArray::from(&bytes[..]), Bytes::from(b"a"));
    for _ in 0..3000 {
        array.as_view_mut().unwrap().set(-1, 8).unwrap();
        assert_eq!(array.as_cells().unwrap().get(-1), Ok(8));
        assert_eq!(still.as_view().unwrap().len(), 1);
    }
    // a view is shown by its number: the world of the 3000 views is a new one after at most 1024
    let shown = format!("{:?}", array.view().unwrap());
    let digits: String = shown.chars().filter(char::is_ascii_digit).collect();
    assert!(digits.parse::<u64>().unwrap() <= 1100, "{shown}");
    assert_eq!(array.slice(..-1).unwrap(), bytes[1..]);
}

fn owner<T>(of: impl Fn(&[u8]) -> T)
where
    T: Clone + Debug + Ord + std::hash::Hash + PartialEq<[u8]> + PartialEq<Vec<u8>> + for<'a> PartialEq<&'a [u8]>,
    for<'a> &'a T: IntoIterator<Item = u8>,
{
    let (low, high) = (of(b"ab"), of(b"b"));
    assert!(low < high && low == low.clone() && low != high);
    assert!(low == b"ab"[..] && low == &b"ab"[..] && low == b"ab".to_vec() && low != b"a"[..]);
    assert_eq!((&low).into_iter().collect::<Vec<u8>>(), b"ab");
    assert!(format!("{low:?}").ends_with("([97, 98])"));
}

#[test]
fn owners_are_as_other_collections() {
    owner(|bytes| ByteArray::from(bytes));
    owner(|bytes| Bytes::from(bytes));
    owner(|bytes| bytes.iter().copied().collect::<ByteArray>());
    owner(|bytes| bytes.iter().copied().collect::<Bytes>());
    assert!(Bytes::default().is_empty() && ByteArray::default() == *b"");
    let bytes = Bytes::from(b"abcd");
    assert_eq!((bytes.len(), bytes.is_empty(), bytes.get(-1), bytes.get(4)), (4, false, Ok(100), Err(Error::Index)));
    assert_eq!((bytes.contains(b"bc"), bytes.contains(b"cb"), bytes.contains(b"")), (Ok(true), Ok(false), Ok(true)));
    assert_eq!((bytes.slice(1..).unwrap(), bytes.to_bytes().unwrap()), (b"bcd".to_vec(), b"abcd".to_vec()));
    assert_eq!(bytes.as_view().unwrap().cast::<u16>().unwrap().len(), 2);
    let mut array = ByteArray::from(b"a");
    Extend::<u8>::extend(&mut array, *b"bc");
    Extend::<&u8>::extend(&mut array, b"d");
    assert_eq!(array.as_view().unwrap(), bytes.as_view().unwrap());
    assert!(array.contains(b"abcd").unwrap());
}

#[test]
fn records_are_tuples() {
    // struct.pack(">hQ3s?", -2, 2 ** 64 - 1, b"ab", True)
    let record = (-2i16, u64::MAX, *b"ab\0", true);
    let bytes = b"\xff\xfe\xff\xff\xff\xff\xff\xff\xff\xffab\0\x01";
    assert_eq!(pack(">hQ3s?", &record).unwrap(), bytes);
    assert_eq!(unpack(">hQ3s?", bytes), Ok(record));
    assert_eq!(unpack::<(u16, [u8; 4])>("<H4s", b"\x01\x02abcd"), Ok((513, *b"abcd")));
    assert_eq!(unpack::<(u8,)>("<H", b"\xff\0"), Ok((255,)));
    assert_eq!(unpack::<(u8,)>("<H", b"\0\x01"), Err(Error::Overflow));
    assert_eq!(unpack::<(u8, u8)>("<H", b"\0\x01"), Err(Error::Struct));
    assert_eq!(unpack::<(bool,)>("B", b"\x01"), Err(Error::Kind));
    assert_eq!(unpack::<([u8; 2],)>("3s", b"abc"), Err(Error::Value));
    assert_eq!(unpack::<(u8,)>("3s", b"abc"), Err(Error::Kind));
    assert_eq!(unpack::<([u8; 1],)>("B", b"a"), Err(Error::Kind));
    assert_eq!(unpack::<(u8,)>("B", b""), Err(Error::Struct));
    assert_eq!(pack("<B", &(256u16,)), Err(Error::Struct));
    let twelve = (1u8, 2i8, 3u16, 4i16, 5u32, 6i32, 7u64, 8i64, true, [1u8; 1], 9u8, 10u8);
    let format = Format::new("<BbHhIiQq?sBB").unwrap();
    assert_eq!(format.unpack_as(&pack("<BbHhIiQq?sBB", &twelve).unwrap()), Ok(twelve));
}

#[test]
fn slices_are_the_items_where_they_lie() {
    let mut array = ByteArray::new(&[0; 16]).unwrap();
    {
        let mut view = array.as_view_mut().unwrap().cast::<u32>().unwrap();
        if let Some(items) = view.as_mut_slice() {
            items[1] = u32::from_ne_bytes(*b"abcd");
        }
        assert_eq!(view.as_slice().map(<[u32]>::len), Some(4));
    }
    assert_eq!(array.slice(4..8).unwrap(), b"abcd");
    let view = array.as_view().unwrap();
    assert_eq!(view.slice(4..8).unwrap().as_slice(), Some(&b"abcd"[..]));
    assert_eq!(view.slice(pybuf::slice!(..; -1)).unwrap().as_slice(), None);
    // numbers of four bytes from an odd place on
    assert_eq!(view.slice(1..5).unwrap().cast::<u32>().unwrap().as_slice(), None);
    assert_eq!(view.cast::<pybuf::Le<u32>>().unwrap().as_slice(), None);
    assert_eq!(array.set(0, 1), Err(Error::Buffer));
    drop(view);
    array.set(0, 1).unwrap();
}
