//! error[E0502] a push while a view is there
use pybuf::ByteArray;

fn main() {
    let mut array = ByteArray::from(b"abcd");
    let view = array.as_view().unwrap();
    array.push(0);
    drop(view);
    array.push(1);
}
