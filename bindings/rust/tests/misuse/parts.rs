//! error[E0499] a view beside its own part
use pybuf::ByteArray;

fn main() {
    let mut array = ByteArray::from(b"abcd");
    let mut view = array.as_view_mut().unwrap();
    let part = view.slice_mut(1..).unwrap();
    view.set(0, 1).unwrap();
    drop(part);
    drop(view);
    array.push(1);
}
