//! error[E0502] a view that reads beside one that writes
use pybuf::ByteArray;

fn main() {
    let mut array = ByteArray::from(b"abcd");
    let one = array.as_view().unwrap();
    let other = array.as_view_mut().unwrap();
    drop((one, other));
    array.push(1);
}
