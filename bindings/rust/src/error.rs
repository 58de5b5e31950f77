//! What a call may fail with.
use std::fmt;

/// Why a call failed: a refusal, named as Python's exception, or what stands in the way of any answer.
///
/// ```
/// let array = pybuf::ByteArray::new(b"")?;
/// assert_eq!(array.pop(), Err(pybuf::Error::Index));
/// assert_eq!(pybuf::Error::Index.to_string(), "IndexError");
/// # Ok::<(), pybuf::Error>(())
/// ```
#[derive(Clone, Copy, Debug, PartialEq, Eq, Hash)]
pub enum Error {
    /// Memory ran out.
    NoMemory,
    /// A room is too small.
    TooSmall,
    /// An item is no number, or there is no such reply.
    Nothing,
    /// A number stands for nothing, or a view's format holds a zero byte.
    BadArgument,
    /// Python's `IndexError`.
    Index,
    /// Python's `ValueError`.
    Value,
    /// Python's `TypeError`.
    Kind,
    /// Python's `BufferError`: a view is in the way.
    Buffer,
    /// Python's `struct.error`.
    Struct,
    /// Python's `OverflowError`.
    Overflow,
    /// Python's `NotImplementedError`.
    NotImplemented,
    /// There is no such object, or it has no such call.
    UnknownName,
    /// A status that this crate doesn't know.
    Other(i32),
}

/// What a call gives, or why it failed.
///
/// ```
/// fn first(array: &pybuf::ByteArray) -> pybuf::Result<u8> {
///     array.get(0)
/// }
/// assert_eq!(first(&pybuf::ByteArray::new(b"a")?)?, 97);
/// # Ok::<(), pybuf::Error>(())
/// ```
pub type Result<T> = std::result::Result<T, Error>;

impl Error {
    pub(crate) fn of(status: i32) -> Error {
        match status {
            1 => Error::NoMemory,
            3 => Error::TooSmall,
            5 => Error::Nothing,
            6 => Error::BadArgument,
            16 => Error::Index,
            17 => Error::Value,
            18 => Error::Kind,
            19 => Error::Buffer,
            20 => Error::Struct,
            21 => Error::Overflow,
            22 => Error::NotImplemented,
            23 => Error::UnknownName,
            other => Error::Other(other),
        }
    }
}

impl fmt::Display for Error {
    fn fmt(&self, f: &mut fmt::Formatter<'_>) -> fmt::Result {
        f.write_str(match self {
            Error::NoMemory => "no memory",
            Error::TooSmall => "room too small",
            Error::Nothing => "no such reply",
            Error::BadArgument => "bad argument",
            Error::Index => "IndexError",
            Error::Value => "ValueError",
            Error::Kind => "TypeError",
            Error::Buffer => "BufferError",
            Error::Struct => "StructError",
            Error::Overflow => "OverflowError",
            Error::NotImplemented => "NotImplementedError",
            Error::UnknownName => "UnknownName",
            Error::Other(_) => "an unknown status",
        })
    }
}

impl std::error::Error for Error {}

impl From<Error> for std::io::Error {
    fn from(error: Error) -> std::io::Error {
        let kind = match error {
            Error::NoMemory => std::io::ErrorKind::OutOfMemory,
            _ => std::io::ErrorKind::Other,
        };
        std::io::Error::new(kind, error)
    }
}
