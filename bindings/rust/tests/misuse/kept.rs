//! error[E0502] a push while a slice of the bytes is there
use pybuf::ByteArray;

fn main() {
    let mut array = ByteArray::from(b"abcd");
    let view = array.as_view().unwrap();
    let bytes = view.as_slice().unwrap();
    array.push(1);
    drop(bytes.len());
}
