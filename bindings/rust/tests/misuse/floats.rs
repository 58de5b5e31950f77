//! error[E0277] items that no view has
use pybuf::ByteArray;

fn main() {
    let mut array = ByteArray::from(b"abcd");
    drop(array.as_view().unwrap().cast::<f32>());
    array.push(1);
}
