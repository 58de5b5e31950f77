//! Times a million calls of append, set and get, and of pack and unpack by a format of two numbers, each in nanoseconds of the
//! processor.
use pybuf::{ByteArray, Error, Format, Value};
use std::ffi::c_long;

extern "C" {
    /// The C library's: microseconds of the processor.
    fn clock() -> c_long;
}

const CALLS: i64 = 1_000_000;

fn timed(name: &str, mut call: impl FnMut(i64) -> Result<(), Error>) -> Result<(), Error> {
    // SAFETY: the call takes nothing, and may be made at any time; the same holds below.
    let start = unsafe { clock() };
    for i in 0..CALLS {
        call(i)?;
    }
    println!("{name} {:.1}", (unsafe { clock() } - start) as f64 * 1000.0 / CALLS as f64);
    Ok(())
}

fn main() -> Result<(), Error> {
    let array = ByteArray::new(b"")?;
    let mut sum = 0;
    timed("append", |i| array.append(i as u8))?;
    timed("set", |i| array.set(i, 7))?;
    timed("get", |i| {
        sum += i64::from(array.get(i)?);
        Ok(())
    })?;
    assert_eq!(sum, 7 * CALLS);

    let format = Format::new("<HI")?;
    let values = [Value::Number(1), Value::Number(2)];
    let mut room = [0; 6];
    timed("pack", |_| format.pack_into(&mut room, &values).map(|_| ()))?;
    timed("unpack", |_| format.unpack(b"\x01\0\x02\0\0\0").map(|_| ()))?;
    Ok(())
}
