//! error[E0277] a view that another thread uses
use pybuf::ByteArray;

fn main() {
    let mut array = ByteArray::from(b"abcd");
    let view = array.as_view().unwrap();
    std::thread::scope(|scope| {
        scope.spawn(|| view.get(0));
    });
    drop(view);
    array.push(1);
}
