//! error[E0505] an array that is dropped before its view
use pybuf::ByteArray;

fn main() {
    let mut array = ByteArray::from(b"abcd");
    let view = array.as_view().unwrap();
    drop(array);
    drop(view);
    let mut array = ByteArray::from(b"");
    array.push(1);
}
