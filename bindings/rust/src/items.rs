//! Types of items: what a typed view has, and what a format packs and unpacks by a tuple.
use crate::error::{Error, Result};
use crate::formats::{Format, Value};
use std::fmt::Debug;

mod sealed {
    pub trait Sealed {}
}

/// A type of the items of a view: a whole number, `bool`, or a number of a told byte order, [`Le`] or [`Be`].
///
/// ```
/// use pybuf::Item;
/// assert_eq!((u16::CODE, i64::CODE, bool::CODE), ("H", "q", "?"));
/// ```
pub trait Item: Copy + Debug + PartialEq + sealed::Sealed + 'static {
    /// The code that a view of such items is cast to.
    ///
    /// ```
    /// use pybuf::{Be, Item};
    /// assert_eq!(<Be<u16>>::CODE, u16::CODE);
    /// ```
    const CODE: &'static str;

    /// Whether any bytes, as many as it takes and as they lie, are an item.
    #[doc(hidden)]
    const LIES: bool = false;

    /// The item that the library reads as this number.
    #[doc(hidden)]
    fn of(number: i128) -> Self;

    /// The number that the library writes for the item.
    #[doc(hidden)]
    fn number(self) -> i128;
}

/// A number whose bytes lie with the lowest first, on every machine.
///
/// ```
/// use pybuf::{Bytes, Le};
/// let bytes = Bytes::new(b"\x01\x02")?;
/// assert_eq!(bytes.as_view()?.cast::<Le<u16>>()?.get(0)?, Le(0x0201));
/// # Ok::<(), pybuf::Error>(())
/// ```
#[derive(Clone, Copy, Debug, Default, PartialEq, Eq, PartialOrd, Ord, Hash)]
pub struct Le<T>(
    /// The number.
    ///
    /// ```
    /// assert_eq!(pybuf::Le(7).0, 7);
    /// ```
    pub T,
);

/// A number whose bytes lie with the highest first, on every machine.
///
/// ```
/// use pybuf::{Be, Bytes};
/// let bytes = Bytes::new(b"\x01\x02")?;
/// assert_eq!(bytes.as_view()?.cast::<Be<u16>>()?.get(0)?, Be(0x0102));
/// # Ok::<(), pybuf::Error>(())
/// ```
#[derive(Clone, Copy, Debug, Default, PartialEq, Eq, PartialOrd, Ord, Hash)]
pub struct Be<T>(
    /// The number.
    ///
    /// ```
    /// assert_eq!(pybuf::Be(7).0, 7);
    /// ```
    pub T,
);

/// A value of a record: a whole number, `bool`, or an array of bytes.
///
/// ```
/// use pybuf::{Field, Value};
/// assert_eq!(u16::of_value(Value::Number(7)), Ok(7));
/// assert_eq!(u8::of_value(Value::Number(256)), Err(pybuf::Error::Overflow));
/// assert_eq!([7, 8].to_value(), Value::Bytes(vec![7, 8]));
/// ```
pub trait Field: Sized + sealed::Sealed {
    /// The field that a value is. `Error::Overflow` refuses a number out of the type's range, `Error::Kind` another kind of value, and
    /// `Error::Value` bytes of another length.
    ///
    /// ```
    /// use pybuf::{Error, Field, Value};
    /// assert_eq!(<[u8; 2]>::of_value(Value::Bytes(vec![7])), Err(Error::Value));
    /// assert_eq!(bool::of_value(Value::Number(1)), Err(Error::Kind));
    /// ```
    fn of_value(value: Value) -> Result<Self>;

    /// The value that a format packs.
    ///
    /// ```
    /// use pybuf::{Field, Value};
    /// assert_eq!(true.to_value(), Value::Truth(true));
    /// ```
    fn to_value(&self) -> Value;
}

/// The values of a record: a tuple of up to twelve [`Field`]s.
///
/// ```
/// use pybuf::Fields;
/// assert_eq!((1u8, true).to_values().len(), 2);
/// ```
pub trait Fields: Sized {
    /// The record that these values are. `Error::Struct` refuses another number of values.
    ///
    /// ```
    /// use pybuf::{Error, Fields};
    /// assert_eq!(<(u8, u16)>::of_values(vec![7.into(), 8.into()]), Ok((7, 8)));
    /// assert_eq!(<(u8,)>::of_values(vec![7.into(), 8.into()]), Err(Error::Struct));
    /// ```
    fn of_values(values: Vec<Value>) -> Result<Self>;

    /// The values of the record.
    ///
    /// ```
    /// use pybuf::Fields;
    /// assert_eq!((7u8, b"ab".to_owned()).to_values(), [7.into(), b"ab".into()]);
    /// ```
    fn to_values(&self) -> Vec<Value>;
}

/// The record of these bytes by a format of Python's `struct`.
///
/// ```
/// assert_eq!(pybuf::unpack::<(u16, [u8; 4])>("<H4s", b"\x01\x02abcd"), Ok((513, *b"abcd")));
/// ```
pub fn unpack<T: Fields>(format: &str, bytes: &[u8]) -> Result<T> {
    Format::new(format)?.unpack_as(bytes)
}

/// The bytes of a record by a format of Python's `struct`.
///
/// ```
/// assert_eq!(pybuf::pack(">H4s", &(513u16, *b"abcd")).unwrap(), b"\x02\x01abcd");
/// ```
pub fn pack<T: Fields>(format: &str, record: &T) -> Result<Vec<u8>> {
    Format::new(format)?.pack(&record.to_values())
}

macro_rules! numbers {
    ($($number:ty, $code:literal;)*) => {$(
        impl sealed::Sealed for $number {}

        impl Item for $number {
            const CODE: &'static str = $code;
            const LIES: bool = true;

            fn of(number: i128) -> $number {
                number as $number
            }

            fn number(self) -> i128 {
                self.into()
            }
        }

        impl Field for $number {
            fn of_value(value: Value) -> Result<$number> {
                match value {
                    Value::Number(number) => <$number>::try_from(number).map_err(|_| Error::Overflow),
                    _ => Err(Error::Kind),
                }
            }

            fn to_value(&self) -> Value {
                Value::Number((*self).into())
            }
        }
    )*};
}

numbers! {
    u8, "B"; i8, "b"; u16, "H"; i16, "h"; u32, "I"; i32, "i"; u64, "Q"; i64, "q";
}

impl sealed::Sealed for bool {}

impl Item for bool {
    const CODE: &'static str = "?";

    fn of(number: i128) -> bool {
        number != 0
    }

    fn number(self) -> i128 {
        self.into()
    }
}

impl Field for bool {
    fn of_value(value: Value) -> Result<bool> {
        match value {
            Value::Truth(truth) => Ok(truth),
            _ => Err(Error::Kind),
        }
    }

    fn to_value(&self) -> Value {
        Value::Truth(*self)
    }
}

impl<const N: usize> sealed::Sealed for [u8; N] {}

impl<const N: usize> Field for [u8; N] {
    fn of_value(value: Value) -> Result<[u8; N]> {
        match value {
            Value::Bytes(bytes) => bytes.try_into().map_err(|_| Error::Value),
            _ => Err(Error::Kind),
        }
    }

    fn to_value(&self) -> Value {
        Value::Bytes(self.to_vec())
    }
}

macro_rules! orders {
    ($($number:ty)*) => {$(
        impl sealed::Sealed for Le<$number> {}
        impl sealed::Sealed for Be<$number> {}

        impl Item for Le<$number> {
            const CODE: &'static str = <$number>::CODE;

            fn of(number: i128) -> Le<$number> {
                Le(<$number>::from_le(<$number>::of(number)))
            }

            fn number(self) -> i128 {
                self.0.to_le().into()
            }
        }

        impl Item for Be<$number> {
            const CODE: &'static str = <$number>::CODE;

            fn of(number: i128) -> Be<$number> {
                Be(<$number>::from_be(<$number>::of(number)))
            }

            fn number(self) -> i128 {
                self.0.to_be().into()
            }
        }
    )*};
}

orders! { u16 i16 u32 i32 u64 i64 }

macro_rules! tuples {
    ($($count:literal: $($field:ident $at:tt)*;)*) => {$(
        impl<$($field: Field),*> Fields for ($($field,)*) {
            fn of_values(values: Vec<Value>) -> Result<Self> {
                if values.len() != $count {
                    return Err(Error::Struct);
                }
                let mut values = values.into_iter();
                Ok(($($field::of_value(values.next().ok_or(Error::Struct)?)?,)*))
            }

            fn to_values(&self) -> Vec<Value> {
                vec![$(self.$at.to_value()),*]
            }
        }
    )*};
}

tuples! {
    1: A 0;
    2: A 0 B 1;
    3: A 0 B 1 C 2;
    4: A 0 B 1 C 2 D 3;
    5: A 0 B 1 C 2 D 3 E 4;
    6: A 0 B 1 C 2 D 3 E 4 F 5;
    7: A 0 B 1 C 2 D 3 E 4 F 5 G 6;
    8: A 0 B 1 C 2 D 3 E 4 F 5 G 6 H 7;
    9: A 0 B 1 C 2 D 3 E 4 F 5 G 6 H 7 I 8;
    10: A 0 B 1 C 2 D 3 E 4 F 5 G 6 H 7 I 8 J 9;
    11: A 0 B 1 C 2 D 3 E 4 F 5 G 6 H 7 I 8 J 9 K 10;
    12: A 0 B 1 C 2 D 3 E 4 F 5 G 6 H 7 I 8 J 9 K 10 L 11;
}
