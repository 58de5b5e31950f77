//! Formats of Python's module `struct`.
use crate::calls::{self, copied, done, Number, RawFormat, RawValue};
use crate::error::{Error, Result};
use crate::items::Fields;
use std::fmt;
use std::ptr;

/// A value that a format packs, or that it unpacked.
///
/// ```
/// use pybuf::Value;
/// assert_eq!(Value::from(7), Value::Number(7));
/// assert_eq!(Value::from(b"ab"), Value::Bytes(b"ab".to_vec()));
/// ```
#[derive(Clone, Debug, PartialEq, Eq, Hash)]
pub enum Value {
    /// A whole number.
    Number(i128),
    /// Of the code `?`.
    Truth(bool),
    /// Of the codes `c`, `s` and `p`.
    Bytes(Vec<u8>),
}

impl From<i128> for Value {
    fn from(number: i128) -> Value {
        Value::Number(number)
    }
}

impl From<bool> for Value {
    fn from(truth: bool) -> Value {
        Value::Truth(truth)
    }
}

impl From<&[u8]> for Value {
    fn from(bytes: &[u8]) -> Value {
        Value::Bytes(bytes.to_vec())
    }
}

impl<const N: usize> From<&[u8; N]> for Value {
    fn from(bytes: &[u8; N]) -> Value {
        Value::Bytes(bytes.to_vec())
    }
}

impl Value {
    /// The value for a call, which reads the bytes where they are.
    fn raw(&self) -> Result<RawValue> {
        Ok(match self {
            Value::Number(number) => RawValue {
                kind: calls::NUMBER_VALUE,
                number: Number::of(*number)?,
                ..RawValue::default()
            },
            Value::Truth(truth) => RawValue {
                kind: calls::TRUTH_VALUE,
                number: Number::of(i128::from(*truth))?,
                ..RawValue::default()
            },
            Value::Bytes(bytes) => RawValue {
                kind: calls::BYTES_VALUE,
                bytes: bytes.as_ptr(),
                length: bytes.len(),
                ..RawValue::default()
            },
        })
    }
}

/// Python's `struct.Struct`.
///
/// ```
/// use pybuf::{Error, Format, Value};
///
/// let format = Format::new("<H3s?")?;
/// assert_eq!((format.size()?, format.count()?), (6, 3));
/// let bytes = format.pack(&[513.into(), b"ab".into(), true.into()])?;
/// assert_eq!(bytes, b"\x01\x02ab\0\x01");
/// assert_eq!(format.unpack(&bytes)?, [513.into(), b"ab\0".into(), true.into()]);
/// assert_eq!(format.pack(&[Value::Number(65536)]), Err(Error::Struct));
/// assert_eq!(Format::new("d").err(), Some(Error::Struct));
/// // it may go to another thread
/// assert_eq!(std::thread::spawn(move || format.size()).join().unwrap()?, 6);
/// # Ok::<(), Error>(())
/// ```
pub struct Format {
    pointer: *mut RawFormat,
    text: String,
}

// SAFETY: the pointer is the format's alone, and what it points to is proved to be `Send`. It isn't `Sync`, since each call changes it.
unsafe impl Send for Format {}

// SAFETY, of each unsafe block below: the format is alive, no other call uses it, and each pointer points to a place of this call that is as long
// as the call says.
impl Format {
    /// The format that a text spells.
    ///
    /// ```
    /// assert!(pybuf::Format::new("<HB").is_ok());
    /// # Ok::<(), pybuf::Error>(())
    /// ```
    pub fn new(text: &str) -> Result<Format> {
        let mut pointer = ptr::null_mut();
        done(unsafe { calls::pybuf_format_parse(text.as_ptr(), text.len(), &mut pointer) })?;
        let text = text.to_owned();
        Ok(Format { pointer, text })
    }

    /// The number of bytes.
    ///
    /// ```
    /// let format = pybuf::Format::new("<HB")?;
    /// assert_eq!(format.size()?, 3);
    /// # Ok::<(), pybuf::Error>(())
    /// ```
    pub fn size(&self) -> Result<usize> {
        let mut size = 0;
        done(unsafe { calls::pybuf_format_size(self.pointer, &mut size) })?;
        Ok(size)
    }

    /// The number of values.
    ///
    /// ```
    /// let format = pybuf::Format::new("<HB")?;
    /// assert_eq!(format.count()?, 2);
    /// # Ok::<(), pybuf::Error>(())
    /// ```
    pub fn count(&self) -> Result<usize> {
        let mut count = 0;
        done(unsafe { calls::pybuf_format_count(self.pointer, &mut count) })?;
        Ok(count)
    }

    /// The bytes of the values.
    ///
    /// ```
    /// let format = pybuf::Format::new("<HB")?;
    /// assert_eq!(format.pack(&[513.into(), 7.into()])?, [1, 2, 7]);
    /// # Ok::<(), pybuf::Error>(())
    /// ```
    pub fn pack(&self, values: &[Value]) -> Result<Vec<u8>> {
        let mut room = Vec::new();
        room.try_reserve_exact(self.size()?).map_err(|_| Error::NoMemory)?;
        room.resize(self.size()?, 0);
        self.pack_into(&mut room, values)?;
        Ok(room)
    }

    /// Writes the bytes of the values to the front of a room, and says how many they are. A refusal changes nothing.
    ///
    /// ```
    /// let format = pybuf::Format::new("<HB")?;
    /// let mut room = [9; 4];
    /// assert_eq!(format.pack_into(&mut room, &[513.into(), 7.into()])?, 3);
    /// assert_eq!(room, [1, 2, 7, 9]);
    /// # Ok::<(), pybuf::Error>(())
    /// ```
    pub fn pack_into(&self, room: &mut [u8], values: &[Value]) -> Result<usize> {
        let values = values.iter().map(Value::raw).collect::<Result<Vec<_>>>()?;
        let mut length = 0;
        done(unsafe {
            calls::pybuf_format_pack(self.pointer, values.as_ptr(), values.len(), room.as_mut_ptr(), room.len(), &mut length)
        })?;
        Ok(length)
    }

    /// The values of the bytes.
    ///
    /// ```
    /// let format = pybuf::Format::new("<HB")?;
    /// assert_eq!(format.unpack(&[1, 2, 7])?, [513.into(), 7.into()]);
    /// # Ok::<(), pybuf::Error>(())
    /// ```
    pub fn unpack(&self, bytes: &[u8]) -> Result<Vec<Value>> {
        let mut read = vec![RawValue::default(); self.count()?];
        let mut count = 0;
        done(unsafe {
            calls::pybuf_format_unpack(self.pointer, bytes.as_ptr(), bytes.len(), read.as_mut_ptr(), read.len(), &mut count)
        })?;
        read.iter().enumerate().map(|(index, value)| self.value(index, value)).collect()
    }

    /// The record of the bytes, as a tuple.
    ///
    /// ```
    /// let format = pybuf::Format::new("<HB")?;
    /// let (number, byte): (u16, u8) = format.unpack_as(&[1, 2, 7])?;
    /// assert_eq!((number, byte), (513, 7));
    /// # Ok::<(), pybuf::Error>(())
    /// ```
    pub fn unpack_as<T: Fields>(&self, bytes: &[u8]) -> Result<T> {
        T::of_values(self.unpack(bytes)?)
    }

    fn value(&self, index: usize, value: &RawValue) -> Result<Value> {
        Ok(match value.kind {
            calls::BYTES_VALUE => Value::Bytes(copied(|room, room_length, length| unsafe {
                calls::pybuf_format_value_bytes(self.pointer, index, room, room_length, length)
            })?),
            calls::TRUTH_VALUE => Value::Truth(value.number.magnitude != 0),
            _ => Value::Number(value.number.value()),
        })
    }
}

impl fmt::Debug for Format {
    fn fmt(&self, f: &mut fmt::Formatter<'_>) -> fmt::Result {
        f.debug_tuple("Format").field(&self.text).finish()
    }
}

impl Drop for Format {
    fn drop(&mut self) {
        // SAFETY: the format is ours, and is not used again.
        unsafe { calls::pybuf_format_free(self.pointer) };
    }
}
