use pybuf::{ByteArray, Error};

fn main() -> Result<(), Error> {
    let mut array = ByteArray::new(b"\x01\x00\x02\x00")?;
    let mut numbers = array.as_view_mut()?.cast::<u16>()?;
    numbers.set(1, 258)?;
    drop(numbers);
    array.push(0);
    println!("{array:?}");
    Ok(())
}
