//! error[E0502] a push while a view is there that is not used any more
use pybuf::ByteArray;

fn main() {
    let mut array = ByteArray::from(b"abcd");
    let _view = array.as_view().unwrap();
    array.push(1);
}
