//! Bytearrays, views and worlds, and what each is freed by.
use pybuf::{ByteArray, Error, RunError, Slice, World};

#[test]
fn a_world_runs_lines() {
    let mut world = World::new().unwrap();
    assert_eq!(world.run("").unwrap(), Vec::<String>::new());
    assert_eq!(world.run("new bytes x61\nlen h0\nget h0 1").unwrap(), ["h0", "1", "! IndexError"]);
    assert_eq!(world.run("len h0\nno"), Err(RunError::BadLine(2)));
    assert_eq!(format!("{world:?}"), "World { .. }");
}

#[test]
fn views_lock_the_length_until_they_are_dropped() {
    let array = ByteArray::new(b"abc").unwrap();
    let view = array.view().unwrap();
    assert_eq!(array.append(100), Err(Error::Buffer));
    let slice = view.slice(1..).unwrap();
    drop(view);
    assert_eq!(array.append(100), Err(Error::Buffer));
    slice.set(-1, 90).unwrap();
    drop(slice);
    array.append(100).unwrap();
    assert_eq!(array.to_bytes().unwrap(), b"abZd");
    assert_eq!(format!("{array:?}"), "ByteArray([97, 98, 90, 100])");
}

#[test]
fn a_view_outlives_its_bytearray() {
    let array = ByteArray::new(&[1, 2, 3, 4]).unwrap();
    let view = array.view().unwrap();
    drop(array);
    assert_eq!(view.iter().collect::<Result<Vec<_>, _>>().unwrap(), [1, 2, 3, 4]);
    assert_eq!(view.get(4), Err(Error::Index));
}

#[test]
fn long_contents_are_copied_whole() {
    let bytes: Vec<u8> = (0..1000).map(|n| n as u8).collect();
    let array = ByteArray::new(&bytes).unwrap();
    assert_eq!(array.to_bytes().unwrap(), bytes);
    let every_third = Slice { step: Some(3), ..Slice::default() };
    assert_eq!(array.slice(every_third).unwrap(), bytes.iter().copied().step_by(3).collect::<Vec<u8>>());
    let numbers = array.view().unwrap().cast("<H");
    assert_eq!(numbers.err(), Some(Error::Value));
    let numbers = array.view().unwrap().cast("H").unwrap();
    assert_eq!(numbers.len(), Ok(500));
    assert_eq!(numbers.items().unwrap().len(), 500);
}

#[test]
fn views_of_two_bytearrays_are_compared_and_assigned() {
    let left = ByteArray::new(b"abcd").unwrap();
    let right = ByteArray::new(b"abcd").unwrap();
    let (a, b) = (left.view().unwrap(), right.view().unwrap());
    assert_eq!(a, b);
    b.set(0, 65).unwrap();
    assert_ne!(a, b);
    a.set_slice_of(..2, &b.slice(2..).unwrap()).unwrap();
    assert_eq!(left.to_bytes().unwrap(), b"cdcd");
    assert!(left > right);
}

#[test]
fn errors_are_shown_by_pythons_names() {
    let array = ByteArray::new(b"").unwrap();
    let error: Box<dyn std::error::Error> = Box::new(array.pop().unwrap_err());
    assert_eq!(error.to_string(), "IndexError");
    assert_eq!(array.view().unwrap().cast("B\0"), Err(Error::BadArgument));
}
