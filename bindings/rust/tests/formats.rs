//! Formats: what they pack and unpack, and what they refuse. The expected bytes are those of Python's `struct.pack`.
use pybuf::{Error, Format, Value};

#[test]
fn values_are_packed_and_unpacked() {
    let format = Format::new(">hQ3s?c2x").unwrap();
    let values = [Value::Number(-2), Value::Number(u64::MAX.into()), b"ab".into(), true.into(), b"z".into()];
    let bytes = format.pack(&values).unwrap();
    assert_eq!(bytes, b"\xff\xfe\xff\xff\xff\xff\xff\xff\xff\xffab\0\x01z\0\0");
    assert_eq!(format.size(), Ok(bytes.len()));
    let mut normal = values.to_vec();
    normal[2] = b"ab\0".into();
    assert_eq!(format.unpack(&bytes).unwrap(), normal);
}

#[test]
fn many_values_and_long_strings_are_copied_whole() {
    let format = Format::new("<1000H500s").unwrap();
    let mut values: Vec<Value> = (0..1000).map(Value::Number).collect();
    values.push(Value::Bytes(vec![7; 500]));
    let bytes = format.pack(&values).unwrap();
    assert_eq!(bytes[2..6], [1, 0, 2, 0]);
    assert_eq!(format.unpack(&bytes).unwrap(), values);
}

#[test]
fn refusals_change_nothing() {
    let format = Format::new("<Bb").unwrap();
    let mut room = *b"....";
    let kinds = [Value::Number(1), b"a".into()];
    assert_eq!(format.pack_into(&mut room, &[256.into(), 1.into()]), Err(Error::Struct));
    assert_eq!(format.pack_into(&mut room, &[255.into(), 128.into()]), Err(Error::Struct));
    assert_eq!(format.pack_into(&mut room, &kinds), Err(Error::Struct));
    assert_eq!(format.pack_into(&mut room, &kinds[..1]), Err(Error::Struct));
    assert_eq!(format.pack_into(&mut room[..1], &[1.into(), 2.into()]), Err(Error::TooSmall));
    assert_eq!(format.pack_into(&mut room, &[Value::Number(1 << 64), 2.into()]), Err(Error::Overflow));
    assert_eq!(&room, b"....");
    assert_eq!(format.pack_into(&mut room, &[255.into(), (-128).into()]), Ok(2));
    assert_eq!(&room, b"\xff\x80..");
    assert_eq!(format.unpack(&room), Err(Error::Struct));
    assert_eq!(Format::new("4s").unwrap().pack(&[1.into()]), Err(Error::Kind));
}

#[test]
fn texts_that_spell_no_format_are_refused() {
    for text in ["4", "H ", "d", "<n", "9223372036854775808x", "\u{e9}"] {
        assert_eq!(Format::new(text).err(), Some(Error::Struct), "{text}");
    }
    let format = Format::new("").unwrap();
    assert_eq!((format.size(), format.count()), (Ok(0), Ok(0)));
    assert_eq!(format.pack(&[]).unwrap(), b"");
    assert_eq!(format!("{format:?}"), "Format(\"\")");
}
