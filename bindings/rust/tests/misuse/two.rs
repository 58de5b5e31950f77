//! error[E0499] two views that write
use pybuf::ByteArray;

fn main() {
    let mut array = ByteArray::from(b"abcd");
    let one = array.as_view_mut().unwrap();
    let other = array.as_view_mut().unwrap();
    drop((one, other));
    array.push(1);
}
