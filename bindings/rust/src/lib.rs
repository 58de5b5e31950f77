//! Python's `bytes`, `bytearray`, `memoryview` and `struct.Struct` by the proved library pybuf, over its archive.
//!
//! ```
//! use pybuf::{ByteArray, Le};
//!
//! let mut array = ByteArray::new(b"\x01\x00\x02\x00")?;
//! let mut numbers = array.as_view_mut()?.cast::<Le<u16>>()?;
//! numbers.set(1, Le(258))?;
//! assert_eq!(numbers, [Le(1), Le(258)]);
//! // `array.push(0)` doesn't compile here: the view borrows the array until it is dropped
//! drop(numbers);
//! array.push(0);
//! assert_eq!(array, *b"\x01\x00\x02\x01\x00");
//! # Ok::<(), pybuf::Error>(())
//! ```
//!
//! # Which view
//!
//! | View | As | While it is there |
//! |---|---|---|
//! | [`View`] | `&[T]` | no byte changes |
//! | [`ViewMut`] | `&mut [T]` | no other view is there, and the array isn't used |
//! | [`ViewCell`] | `&[Cell<T>]` | others of its kind read and write the same bytes, and see its writes |
//! | [`MemoryView`] | `memoryview` | as a `ViewCell`; it has no lifetime, and may outlive its array |
//!
//! Python's views write the same bytes and see each other's writes. Rust's `&mut` forbids that, so a `ViewMut` is alone, and views that share
//! bytes are cells. No view may be sent to another thread. A [`World`] and a [`Format`] may: that of C is proved to be `Send`. A [`ByteArray`]
//! or [`Bytes`] may once it is [detached](ByteArray::detach), when it has no view.
//!
//! A view reads and writes the bytes where they lie: a call for each item, or all of them as a slice ([`View::as_slice`],
//! [`ViewMut::as_mut_slice`]). What released views leave in the library is given back once no view of their array is there.
//!
//! # From `rustpython-vm` 0.4.0
//!
//! | There | Here |
//! |---|---|
//! | `PyBytes`, `PyByteArray`, `PyBytesInner`; `new_ref` | [`Bytes`], [`ByteArray`]; [`Bytes::new`], [`ByteArray::new`] |
//! | `PyBytes::{len, is_empty}`, `PyBytesInner::{contains, cmp, hash}` | [`Bytes::len`], [`Bytes::is_empty`], [`Bytes::contains`], `Ord`, `Hash` |
//! | `PyBytes::as_bytes`, `PyByteArray::borrow_buf` | [`View::as_slice`]; [`Bytes::to_bytes`], [`ByteArray::to_bytes`]: copies |
//! | `PyByteArray::borrow_buf_mut` | [`ByteArray::as_view_mut`], and the calls of [`ByteArray`] that edit |
//! | `PyByteArray::delitem`, `SequenceMutExt::imul` | [`ByteArray::delete`], [`ByteArray::repeat`] |
//! | `PyBytesInner::{find, split, hex, ..}`, `AnyStr` | none: [`World::run`] has them as lines |
//! | `PyBuffer`, `ArgBytesLike`; `ArgMemoryBuffer` | [`View`]; [`ViewMut`] |
//! | `PyBuffer::{retain, release}` | `clone`, `drop` |
//! | `PyBuffer::{append_to, contiguous_or_collect}`, `ArgBytesLike::with_ref` | [`View::to_bytes`] |
//! | `PyBuffer::{as_contiguous, obj_bytes}`, their `_mut` | [`View::as_slice`], [`ViewMut::as_mut_slice`] |
//! | `BufferDescriptor::{for_each_segment, zip_eq}` | none: [`View::get_at`] |
//! | `PyBuffer::from_byte_vector`, `VecBuffer` | [`Bytes::new`], then [`Bytes::as_view`] |
//! | `BufferDescriptor::{ndim, is_contiguous, position}`, `dim_desc` | [`View::shape`], [`View::is_contiguous`], [`View::get_at`], [`View::strides`] |
//! | `BufferMethods`, `BufferDescriptor::{simple, format, validate}` | none: the library exports its own bytes |
//! | `BufferResizeGuard::try_resizable` | the borrow checker; `Error::Buffer` of [`ByteArray::append`] |
//! | `PyMemoryView::{from_buffer, new_view, release}` | [`ByteArray::view`], [`MemoryView::view`], [`MemoryView::release`]; [`ViewCell`] with a lifetime |
//! | `PyMemoryView::{from_buffer_range, to_contiguous}` | [`View::slice`], [`View::to_bytes`] |
//! | `PyMemoryViewIterator`, `PyBytesIterator`, `PyByteArrayIterator` | [`Iter`], [`View::iter`], `IntoIterator` |
//! | `PySlice`, `SaturatedSlice`, `SequenceIndex`, `OptionalRangeArgs` | [`Slice`], [`slice!`]; an index is an `i64` |
//! | `SliceableSequenceOp::{getitem_by_index, getitem_by_slice}` | [`ByteArray::get`], [`ByteArray::slice`] |
//! | `SliceableSequenceMutOp::{setitem_by_index, setitem_by_slice, delitem_by_slice}` | [`ByteArray::set`], [`ByteArray::set_slice`], [`ByteArray::delete`] |
//! | `FormatSpec::{parse, size, pack, pack_into, unpack}` | [`Format::new`], [`Format::size`], [`Format::pack`], [`Format::pack_into`], [`Format::unpack`], [`Format::unpack_as`] |
//! | `new_struct_error`, `struct_error_type`, `PyBaseExceptionRef` | [`Error`] |
//! | `bytes_from_object`, `value_from_object`, `ArgStrOrBytesLike`, `ArgAsciiBuffer` | none: there are no objects of other types |
//!
//! This is how `unpack_single`, which reads an item of a memoryview there, moves over:
//!
//! ```
//! use pybuf::{Bytes, Format, Result, Value, View};
//!
//! // fn unpack_single(&self, pos: usize, vm: &VirtualMachine) -> PyResult {
//! //     let bytes = self.buffer.obj_bytes();
//! //     self.format_spec.unpack(&bytes[pos..pos + self.desc.itemsize], vm).map(..)
//! // }
//! fn unpack_single(view: &View<'_>, format: &Format, pos: i64) -> Result<Vec<Value>> {
//!     // the view stands for the buffer that `obj_bytes` locks, and no byte changes while it is there
//!     let item = view.slice(pos..pos + format.size()? as i64)?;
//!     // a slice out of range is shorter, which `unpack` refuses where the original panics; there is no `vm` to pass
//!     format.unpack(&item.to_bytes()?)
//! }
//!
//! let bytes = Bytes::new(b"\x01\x00\x02\x01")?;
//! let view = bytes.as_view()?;
//! assert_eq!(unpack_single(&view, &Format::new("<H")?, 2)?, [258.into()]);
//! // where the type is known, a typed view needs neither the format nor the copy
//! assert_eq!(view.cast::<pybuf::Le<u16>>()?.get(1)?.0, 258);
//! # Ok::<(), pybuf::Error>(())
//! ```
#![deny(missing_docs, unsafe_op_in_unsafe_fn)]
mod calls;
mod error;
mod formats;
mod items;
mod objects;
mod slices;
mod views;
mod world;

pub use error::{Error, Result};
pub use formats::{Format, Value};
pub use items::{pack, unpack, Be, Field, Fields, Item, Le};
pub use objects::{ByteArray, Bytes, Detached, Iter, MemoryView};
pub use slices::Slice;
pub use views::{Reader, View, ViewCell, ViewMut};
pub use world::{RunError, World};

/// The version of this crate.
///
/// ```
/// assert_eq!(pybuf::VERSION.split('.').count(), 3);
/// ```
pub const VERSION: &str = env!("CARGO_PKG_VERSION");

/// What named the folder of the archive that is linked, and the archive.
///
/// ```
/// assert!(pybuf::LINKED.ends_with("libpybuf.a"));
/// ```
pub const LINKED: &str = env!("PYBUF_LINKED");

/// The version of the library that is linked. It is that of the crate, unless PYBUF_LIB_DIR names another library.
///
/// ```
/// assert_eq!(pybuf::library_version(), pybuf::VERSION);
/// ```
pub fn library_version() -> String {
    // SAFETY: the text that the call answers ends with a zero, and is never freed.
    unsafe { std::ffi::CStr::from_ptr(calls::pybuf_version()) }.to_string_lossy().into_owned()
}
