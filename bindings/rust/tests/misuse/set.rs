//! error[E0599] a write through a view that reads
use pybuf::ByteArray;

fn main() {
    let mut array = ByteArray::from(b"abcd");
    array.as_view().unwrap().set(0, 1).unwrap();
    array.push(1);
}
