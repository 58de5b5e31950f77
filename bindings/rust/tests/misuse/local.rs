//! error[E0515] a view of an array that the function owns
use pybuf::{ByteArray, View};

fn made() -> View<'static> {
    ByteArray::from(b"abcd").as_view().unwrap()
}

fn main() {
    drop(made());
}
