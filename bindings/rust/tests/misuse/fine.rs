//! compiles
use pybuf::{ByteArray, Bytes, View};

fn first<'a>(view: &View<'a>) -> View<'a> {
    view.slice(..1).unwrap()
}

fn main() {
    let mut array = ByteArray::from(b"abcd");
    let front = first(&array.as_view().unwrap());
    drop(front);
    let mut view = array.as_view_mut().unwrap();
    view.slice_mut(1..).unwrap().set(0, 1).unwrap();
    drop(view);
    array.push(1);
    let bytes = Bytes::from(b"ab");
    let views = [bytes.as_view().unwrap(), bytes.as_view().unwrap()];
    let cells = (array.as_cells().unwrap(), array.as_cells().unwrap());
    drop((views, cells));
}
