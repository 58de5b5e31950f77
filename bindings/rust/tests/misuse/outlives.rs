//! error[E0597] a view that outlives its array
use pybuf::ByteArray;

fn main() {
    let view;
    {
        let array = ByteArray::from(b"abcd");
        view = array.as_view().unwrap();
    }
    drop(view);
}
