//! error[E0502] a push while a cell is there that is not used any more
use pybuf::ByteArray;

fn main() {
    let mut array = ByteArray::from(b"abcd");
    let _cells = array.as_cells().unwrap().cast::<u16>().unwrap();
    array.push(1);
}
