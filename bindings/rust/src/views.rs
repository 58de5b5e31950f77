//! Views with lifetimes: of bytes that stand still, of bytes that one view writes, and of bytes that several write.
use crate::error::{Error, Result};
use crate::items::Item;
use crate::objects::MemoryView;
use crate::slices::Slice;
use std::cell::Cell;
use std::fmt;
use std::hash::{Hash, Hasher};
use std::io::{self, BufRead, Read, Write};
use std::marker::PhantomData;
use std::slice;

/// A view under which no byte changes, as a `&[T]` has it. It borrows what it sees until it is dropped.
///
/// While it is there, the calls that write by `&self`, of the [`ByteArray`](crate::ByteArray) or of another view of it, are refused with `Error::Buffer`.
///
/// ```
/// use pybuf::{slice, ByteArray, Error};
///
/// let array = ByteArray::new(&[0, 1, 2, 3, 4, 5])?;
/// let view = array.as_view()?;
/// assert_eq!(view, [0, 1, 2, 3, 4, 5]);
/// assert_eq!(view.slice(slice!(..; -2))?, [5, 3, 1]);
/// assert_eq!(view.cast_to::<u8>(&[2, 3])?.get_at(&[1, 0])?, 3);
/// assert_eq!(array.set(0, 9), Err(Error::Buffer));
/// drop(view);
/// array.set(0, 9)?;
/// # Ok::<(), Error>(())
/// ```
pub struct View<'a, T: Item = u8> {
    seen: MemoryView,
    kind: PhantomData<&'a [T]>,
}

/// The one view that reads and writes some bytes, as a `&mut [T]` has it. It borrows what it sees until it is dropped.
///
/// ```
/// use pybuf::ByteArray;
///
/// let mut array = ByteArray::new(b"\x01\x00\x02\x00")?;
/// let mut numbers = array.as_view_mut()?.cast::<pybuf::Le<u16>>()?;
/// numbers.set(1, pybuf::Le(258))?;
/// drop(numbers);
/// array.push(0);
/// assert_eq!(array, *b"\x01\x00\x02\x01\x00");
/// # Ok::<(), pybuf::Error>(())
/// ```
pub struct ViewMut<'a, T: Item = u8> {
    seen: MemoryView,
    kind: PhantomData<&'a mut [T]>,
}

/// One of several views that read and write the same bytes, and see each other's writes, as a `&[Cell<T>]` has it.
///
/// ```
/// let array = pybuf::ByteArray::new(b"abcd")?;
/// let (all, end) = (array.as_cells()?, array.as_cells()?.slice(2..)?);
/// end.set(0, 67)?;
/// assert_eq!(all.get(2)?, 67);
/// # Ok::<(), pybuf::Error>(())
/// ```
pub struct ViewCell<'a, T: Item = u8> {
    seen: MemoryView,
    kind: PhantomData<&'a [Cell<T>]>,
}

/// The bytes of a view as a stream.
///
/// ```
/// use std::io::BufRead;
/// let bytes = pybuf::Bytes::new(b"one\ntwo\n")?;
/// let lines: Vec<String> = bytes.as_view()?.reader().lines().map(Result::unwrap).collect();
/// assert_eq!(lines, ["one", "two"]);
/// # Ok::<(), pybuf::Error>(())
/// ```
#[derive(Debug)]
pub struct Reader<'a> {
    view: View<'a>,
    /// Where the entries begin that aren't held yet.
    at: usize,
    held: Vec<u8>,
    used: usize,
}

/// How many entries a reader holds at most.
const HELD: usize = 4096;

/// An index, which no length of a buffer passes.
fn place(index: usize) -> i64 {
    i64::try_from(index).unwrap_or(i64::MAX)
}

fn sizes(numbers: Vec<i128>) -> Vec<usize> {
    numbers.into_iter().map(|number| number as usize).collect()
}

/// The view of these items, by way of bytes, since one of two views of a cast has to be of bytes.
fn cast<T: Item>(seen: &MemoryView) -> Result<MemoryView> {
    seen.cast("B")?.cast(T::CODE)
}

fn cast_to<T: Item>(seen: &MemoryView, shape: &[usize]) -> Result<MemoryView> {
    let shape: Vec<i64> = shape.iter().map(|&entries| place(entries)).collect();
    seen.cast("B")?.cast_to_shape(T::CODE, &shape)
}

/// What each of the views has.
macro_rules! reads {
    ($view:ident, $made:literal) => {
        impl<'a, T: Item> $view<'a, T> {
            /// The item at an index, which counts from the end where it is negative. `Error::Index` refuses one that is out of range.
            ///
            /// ```
            /// # let mut array = pybuf::ByteArray::new(b"abcd")?;
            #[doc = $made]
            /// assert_eq!(view.get(-1)?, 100);
            /// assert_eq!(view.get(4), Err(pybuf::Error::Index));
            /// # Ok::<(), pybuf::Error>(())
            /// ```
            pub fn get(&self, index: i64) -> Result<T> {
                self.seen.get(index).map(T::of)
            }

            /// The item at an index for each dimension.
            ///
            /// ```
            /// # let mut array = pybuf::ByteArray::new(b"abcd")?;
            #[doc = $made]
            /// assert_eq!(view.cast_to::<u8>(&[2, 2])?.get_at(&[1, -1])?, 100);
            /// # Ok::<(), pybuf::Error>(())
            /// ```
            pub fn get_at(&self, indices: &[i64]) -> Result<T> {
                self.seen.get_at(indices).map(T::of)
            }

            /// The number of entries of the first dimension. It panics if memory runs out.
            ///
            /// ```
            /// # let mut array = pybuf::ByteArray::new(b"abcd")?;
            #[doc = $made]
            /// assert_eq!(view.len(), 4);
            /// # Ok::<(), pybuf::Error>(())
            /// ```
            pub fn len(&self) -> usize {
                self.seen.len().expect(MEMORY)
            }

            /// Whether there are no entries. It panics if memory runs out.
            ///
            /// ```
            /// # let mut array = pybuf::ByteArray::new(b"abcd")?;
            #[doc = $made]
            /// assert!(!view.is_empty());
            /// # Ok::<(), pybuf::Error>(())
            /// ```
            pub fn is_empty(&self) -> bool {
                self.len() == 0
            }

            /// A copy of the items, row by row.
            ///
            /// ```
            /// # let mut array = pybuf::ByteArray::new(b"\x01\x01\x02\x02")?;
            #[doc = $made]
            /// assert_eq!(view.cast::<u16>()?.to_vec()?, [257, 514]);
            /// # Ok::<(), pybuf::Error>(())
            /// ```
            pub fn to_vec(&self) -> Result<Vec<T>> {
                Ok(self.seen.items()?.into_iter().map(T::of).collect())
            }

            /// A copy of the bytes of the items, row by row.
            ///
            /// ```
            /// # let mut array = pybuf::ByteArray::new(b"abcd")?;
            #[doc = $made]
            /// assert_eq!(view.cast::<u16>()?.to_bytes()?, b"abcd");
            /// # Ok::<(), pybuf::Error>(())
            /// ```
            pub fn to_bytes(&self) -> Result<Vec<u8>> {
                self.seen.to_bytes()
            }

            /// The items as they are now, row by row. It panics if memory runs out.
            ///
            /// ```
            /// # let mut array = pybuf::ByteArray::new(b"abcd")?;
            #[doc = $made]
            /// assert_eq!(view.iter().map(u32::from).sum::<u32>(), 394);
            /// # Ok::<(), pybuf::Error>(())
            /// ```
            pub fn iter(&self) -> std::vec::IntoIter<T> {
                self.to_vec().expect(MEMORY).into_iter()
            }

            /// The number of entries of each dimension.
            ///
            /// ```
            /// # let mut array = pybuf::ByteArray::new(b"abcd")?;
            #[doc = $made]
            /// assert_eq!(view.cast_to::<u8>(&[2, 2])?.shape()?, [2, 2]);
            /// # Ok::<(), pybuf::Error>(())
            /// ```
            pub fn shape(&self) -> Result<Vec<usize>> {
                self.seen.shape().map(sizes)
            }

            /// How many bytes an entry is from the next, for each dimension.
            ///
            /// ```
            /// # let mut array = pybuf::ByteArray::new(b"abcd")?;
            #[doc = $made]
            /// assert_eq!(view.cast_to::<u8>(&[2, 2])?.strides()?, [2, 1]);
            /// # Ok::<(), pybuf::Error>(())
            /// ```
            pub fn strides(&self) -> Result<Vec<isize>> {
                Ok(self.seen.strides()?.into_iter().map(|stride| stride as isize).collect())
            }

            /// Whether the items lie side by side.
            ///
            /// ```
            /// # let mut array = pybuf::ByteArray::new(b"abcd")?;
            #[doc = $made]
            /// assert!(view.is_contiguous()?);
            /// # Ok::<(), pybuf::Error>(())
            /// ```
            pub fn is_contiguous(&self) -> Result<bool> {
                self.seen.is_contiguous()
            }

            fn of(seen: MemoryView) -> $view<'a, T> {
                $view { seen, kind: PhantomData }.counted()
            }
        }

        impl<T: Item> fmt::Debug for $view<'_, T> {
            fn fmt(&self, f: &mut fmt::Formatter<'_>) -> fmt::Result {
                match self.to_vec() {
                    Ok(items) => f.debug_tuple(stringify!($view)).field(&items).finish(),
                    Err(error) => f.debug_tuple(stringify!($view)).field(&error).finish(),
                }
            }
        }

        impl<'a, T: Item> PartialEq<$view<'a, T>> for $view<'_, T> {
            fn eq(&self, other: &$view<'a, T>) -> bool {
                matches!((self.shape(), other.shape()), (Ok(left), Ok(right)) if left == right)
                    && matches!((self.to_vec(), other.to_vec()), (Ok(left), Ok(right)) if left == right)
            }
        }

        impl<T: Item> PartialEq<[T]> for $view<'_, T> {
            fn eq(&self, other: &[T]) -> bool {
                matches!(self.seen.ndim(), Ok(1)) && self.to_vec().is_ok_and(|items| items == other)
            }
        }

        impl<T: Item> PartialEq<&[T]> for $view<'_, T> {
            fn eq(&self, other: &&[T]) -> bool {
                *self == **other
            }
        }

        impl<T: Item, const N: usize> PartialEq<[T; N]> for $view<'_, T> {
            fn eq(&self, other: &[T; N]) -> bool {
                *self == other[..]
            }
        }

        impl<T: Item> IntoIterator for &$view<'_, T> {
            type Item = T;
            type IntoIter = std::vec::IntoIter<T>;

            fn into_iter(self) -> std::vec::IntoIter<T> {
                self.iter()
            }
        }
    };
}

const MEMORY: &str = "pybuf: memory ran out";

reads!(View, "let view = array.as_view()?;");
reads!(ViewMut, "let view = array.as_view_mut()?;");
reads!(ViewCell, "let view = array.as_cells()?;");

/// What the views have that others may be beside.
macro_rules! shares {
    ($view:ident, $made:literal) => {
        impl<'a, T: Item> $view<'a, T> {
            /// A view of the entries of a slice.
            ///
            /// ```
            /// # let array = pybuf::ByteArray::new(b"abcd")?;
            #[doc = $made]
            /// assert_eq!(view.slice(1..=-1)?, *b"bcd");
            /// assert_eq!(view.slice(pybuf::slice!(..; -1))?, *b"dcba");
            /// # Ok::<(), pybuf::Error>(())
            /// ```
            pub fn slice(&self, slice: impl Into<Slice>) -> Result<$view<'a, T>> {
                self.seen.slice(slice).map($view::of)
            }

            /// A view of the same bytes as items of another type, in one dimension. `Error::Kind` refuses it where the bytes aren't
            /// side by side or their number is no multiple of an item's. The bytes may lie at any address.
            ///
            /// ```
            /// # let array = pybuf::ByteArray::new(b"\x01\x02\x03\x04")?;
            #[doc = $made]
            /// assert_eq!(view.cast::<pybuf::Be<u16>>()?.get(1)?.0, 0x0304);
            /// assert_eq!(view.slice(1..)?.cast::<u16>().err(), Some(pybuf::Error::Kind));
            /// # Ok::<(), pybuf::Error>(())
            /// ```
            pub fn cast<U: Item>(&self) -> Result<$view<'a, U>> {
                cast::<U>(&self.seen).map($view::of)
            }

            /// A view of the same bytes as items of a type, in this shape.
            ///
            /// ```
            /// # let array = pybuf::ByteArray::new(b"abcd")?;
            #[doc = $made]
            /// assert_eq!(view.cast_to::<u8>(&[2, 2])?.get_at(&[0, 1])?, 98);
            /// # Ok::<(), pybuf::Error>(())
            /// ```
            pub fn cast_to<U: Item>(&self, shape: &[usize]) -> Result<$view<'a, U>> {
                cast_to::<U>(&self.seen, shape).map($view::of)
            }
        }

        impl<T: Item> Clone for $view<'_, T> {
            /// A view of the same items. It panics if memory runs out.
            fn clone(&self) -> Self {
                $view::of(self.seen.view().expect(MEMORY))
            }
        }
    };
}

shares!(View, "let view = array.as_view()?;");
shares!(ViewCell, "let view = array.as_cells()?;");

impl<'a, T: Item> View<'a, T> {
    pub(crate) fn of_all(seen: MemoryView) -> View<'a, T> {
        View::of(seen)
    }

    fn counted(self) -> Self {
        self.seen.object.world.add_reader();
        self
    }

    /// The items where they lie, without a copy. It is `None` if they don't lie one after the other, at a place for them, and for items that
    /// aren't whole numbers as this machine has them: for [`Le`](crate::Le), [`Be`](crate::Be) and `bool`.
    ///
    /// ```
    /// let array = pybuf::ByteArray::new(b"abcd")?;
    /// let view = array.as_view()?;
    /// assert_eq!(view.as_slice(), Some(&b"abcd"[..]));
    /// assert_eq!(view.slice(pybuf::slice!(..; 2))?.as_slice(), None);
    /// # Ok::<(), pybuf::Error>(())
    /// ```
    pub fn as_slice(&self) -> Option<&[T]> {
        let (at, count) = self.seen.object.lent()?;
        // SAFETY: the items lie there until the view is released, and while it is there no byte changes.
        Some(unsafe { slice::from_raw_parts(at, count) })
    }
}

impl<'a> View<'a> {
    /// The bytes as a stream, which is `Read` and `BufRead`.
    ///
    /// ```
    /// use std::io::Read;
    /// let array = pybuf::ByteArray::new(b"abcd")?;
    /// let mut front = [0; 2];
    /// array.as_view()?.reader().read_exact(&mut front).unwrap();
    /// assert_eq!(&front, b"ab");
    /// # Ok::<(), pybuf::Error>(())
    /// ```
    pub fn reader(self) -> Reader<'a> {
        Reader { view: self, at: 0, held: Vec::new(), used: 0 }
    }
}

impl<T: Item> Drop for View<'_, T> {
    fn drop(&mut self) {
        self.seen.object.world.take_reader();
    }
}

impl<T: Item + Eq> Eq for View<'_, T> {}

impl<T: Item + Hash> Hash for View<'_, T> {
    fn hash<H: Hasher>(&self, state: &mut H) {
        self.to_vec().expect(MEMORY).hash(state);
    }
}

impl<'a, T: Item> ViewMut<'a, T> {
    pub(crate) fn of_all(seen: MemoryView) -> ViewMut<'a, T> {
        ViewMut::of(seen)
    }

    fn counted(self) -> Self {
        self
    }

    /// The items where they lie, as [`View::as_slice`] has them.
    ///
    /// ```
    /// # let mut array = pybuf::ByteArray::new(b"abcd")?;
    /// assert_eq!(array.as_view_mut()?.as_slice(), Some(&b"abcd"[..]));
    /// # Ok::<(), pybuf::Error>(())
    /// ```
    pub fn as_slice(&self) -> Option<&[T]> {
        let (at, count) = self.seen.object.lent()?;
        // SAFETY: the items lie there until the view is released, and nothing else writes them.
        Some(unsafe { slice::from_raw_parts(at, count) })
    }

    /// The items where they lie, to be written, as [`View::as_slice`] has them.
    ///
    /// ```
    /// # let mut array = pybuf::ByteArray::new(b"abcd")?;
    /// let mut view = array.as_view_mut()?;
    /// view.as_mut_slice().unwrap()[1..3].copy_from_slice(b"BC");
    /// assert_eq!(view, *b"aBCd");
    /// # Ok::<(), pybuf::Error>(())
    /// ```
    pub fn as_mut_slice(&mut self) -> Option<&mut [T]> {
        let (at, count) = self.seen.object.lent_to_write()?;
        // SAFETY: the items lie there until the view is released, and nothing else reads or writes them.
        Some(unsafe { slice::from_raw_parts_mut(at, count) })
    }

    /// Writes the item at an index.
    ///
    /// ```
    /// # let mut array = pybuf::ByteArray::new(b"abcd")?;
    /// let mut view = array.as_view_mut()?;
    /// view.set(-1, 68)?;
    /// assert_eq!(view, *b"abcD");
    /// # Ok::<(), pybuf::Error>(())
    /// ```
    pub fn set(&mut self, index: i64, item: T) -> Result<()> {
        self.seen.set(index, item.number())
    }

    /// Writes the item at an index for each dimension.
    ///
    /// ```
    /// # let mut array = pybuf::ByteArray::new(b"abcd")?;
    /// array.as_view_mut()?.cast_to::<u8>(&[2, 2])?.set_at(&[1, 0], 67)?;
    /// assert_eq!(array, *b"abCd");
    /// # Ok::<(), pybuf::Error>(())
    /// ```
    pub fn set_at(&mut self, indices: &[i64], item: T) -> Result<()> {
        self.seen.set_at(indices, item.number())
    }

    /// Writes these items over those of the view, which has to have one dimension and as many, else `Error::Value` refuses it.
    ///
    /// ```
    /// # let mut array = pybuf::ByteArray::new(b"abcd")?;
    /// array.as_view_mut()?.slice_mut(1..3)?.copy_from(b"BC")?;
    /// assert_eq!(array, *b"aBCd");
    /// # Ok::<(), pybuf::Error>(())
    /// ```
    pub fn copy_from(&mut self, items: &[T]) -> Result<()> {
        copy(&self.seen, items)
    }

    /// A view of the same items that reads.
    ///
    /// ```
    /// # let mut array = pybuf::ByteArray::new(b"abcd")?;
    /// let view = array.as_view_mut()?;
    /// assert_eq!(view.as_view()?.slice(2..)?, *b"cd");
    /// # Ok::<(), pybuf::Error>(())
    /// ```
    pub fn as_view(&self) -> Result<View<'_, T>> {
        self.seen.view().map(View::of)
    }

    /// A view of the entries of a slice, which borrows this one.
    ///
    /// ```
    /// # let mut array = pybuf::ByteArray::new(b"abcd")?;
    /// let mut view = array.as_view_mut()?;
    /// view.slice_mut(2..)?.set(0, 67)?;
    /// assert_eq!(view, *b"abCd");
    /// # Ok::<(), pybuf::Error>(())
    /// ```
    pub fn slice_mut(&mut self, slice: impl Into<Slice>) -> Result<ViewMut<'_, T>> {
        self.seen.slice(slice).map(ViewMut::of)
    }

    /// This view as one of items of another type, in one dimension. It is refused as [`View::cast`] is.
    ///
    /// ```
    /// # let mut array = pybuf::ByteArray::new(b"abcd")?;
    /// array.as_view_mut()?.cast::<pybuf::Be<u16>>()?.set(0, pybuf::Be(0x4142))?;
    /// assert_eq!(array, *b"ABcd");
    /// # Ok::<(), pybuf::Error>(())
    /// ```
    pub fn cast<U: Item>(self) -> Result<ViewMut<'a, U>> {
        cast::<U>(&self.seen).map(ViewMut::of)
    }

    /// This view as one of items of a type, in this shape.
    ///
    /// ```
    /// # let mut array = pybuf::ByteArray::new(b"abcd")?;
    /// assert_eq!(array.as_view_mut()?.cast_to::<u8>(&[2, 2])?.get_at(&[0, 1])?, 98);
    /// # Ok::<(), pybuf::Error>(())
    /// ```
    pub fn cast_to<U: Item>(self, shape: &[usize]) -> Result<ViewMut<'a, U>> {
        cast_to::<U>(&self.seen, shape).map(ViewMut::of)
    }

    /// This view as one that others may be beside.
    ///
    /// ```
    /// # let mut array = pybuf::ByteArray::new(b"abcd")?;
    /// let cells = array.as_view_mut()?.into_cells()?;
    /// let also = cells.clone();
    /// also.set(0, 65)?;
    /// assert_eq!(cells.get(0)?, 65);
    /// # Ok::<(), pybuf::Error>(())
    /// ```
    pub fn into_cells(self) -> Result<ViewCell<'a, T>> {
        self.seen.view().map(ViewCell::of)
    }
}

impl<T: Item> Drop for ViewMut<'_, T> {
    // what is borrowed stays so until here, and not only until the last use of the view
    fn drop(&mut self) {}
}

/// Writes to the front of the view, which is what is left of it then, as `&mut [u8]` does.
impl Write for ViewMut<'_> {
    fn write(&mut self, bytes: &[u8]) -> io::Result<usize> {
        let count = bytes.len().min(self.len());
        self.slice_mut(..place(count))?.seen.set_slice(.., &bytes[..count])?;
        self.seen = self.seen.slice(place(count)..)?;
        Ok(count)
    }

    fn flush(&mut self) -> io::Result<()> {
        Ok(())
    }
}

impl<'a, T: Item> ViewCell<'a, T> {
    pub(crate) fn of_all(seen: MemoryView) -> ViewCell<'a, T> {
        ViewCell::of(seen)
    }

    fn counted(self) -> Self {
        self
    }

    /// Writes the item at an index. `Error::Buffer` refuses it while a [`View`] of the bytes is there.
    ///
    /// ```
    /// # let array = pybuf::ByteArray::new(b"abcd")?;
    /// array.as_cells()?.set(0, 65)?;
    /// assert_eq!(array, *b"Abcd");
    /// # Ok::<(), pybuf::Error>(())
    /// ```
    pub fn set(&self, index: i64, item: T) -> Result<()> {
        self.seen.set(index, item.number())
    }

    /// Writes the item at an index for each dimension.
    ///
    /// ```
    /// # let array = pybuf::ByteArray::new(b"abcd")?;
    /// array.as_cells()?.cast_to::<u8>(&[2, 2])?.set_at(&[1, 1], 68)?;
    /// assert_eq!(array, *b"abcD");
    /// # Ok::<(), pybuf::Error>(())
    /// ```
    pub fn set_at(&self, indices: &[i64], item: T) -> Result<()> {
        self.seen.set_at(indices, item.number())
    }

    /// Writes these items over those of the view, which has to have one dimension and as many, else `Error::Value` refuses it.
    ///
    /// ```
    /// # let array = pybuf::ByteArray::new(b"abcd")?;
    /// array.as_cells()?.slice(pybuf::slice!(..; 2))?.copy_from(b"AC")?;
    /// assert_eq!(array, *b"AbCd");
    /// # Ok::<(), pybuf::Error>(())
    /// ```
    pub fn copy_from(&self, items: &[T]) -> Result<()> {
        copy(&self.seen, items)
    }
}

impl<T: Item> Drop for ViewCell<'_, T> {
    // what is borrowed stays so until here, and not only until the last use of the view
    fn drop(&mut self) {}
}

fn copy<T: Item>(seen: &MemoryView, items: &[T]) -> Result<()> {
    if seen.shape()? != [items.len() as i128] {
        return Err(Error::Value);
    }
    (0..).zip(items).try_for_each(|(index, item)| seen.set(index, item.number()))
}

impl Read for Reader<'_> {
    fn read(&mut self, room: &mut [u8]) -> io::Result<usize> {
        let count = self.fill_buf()?.read(room)?;
        self.consume(count);
        Ok(count)
    }
}

impl BufRead for Reader<'_> {
    fn fill_buf(&mut self) -> io::Result<&[u8]> {
        if self.used == self.held.len() {
            let end = self.at.saturating_add(HELD);
            let entries = self.view.slice(place(self.at)..place(end))?;
            self.held = entries.to_bytes()?;
            self.at += entries.len();
            self.used = 0;
        }
        Ok(&self.held[self.used..])
    }

    fn consume(&mut self, count: usize) {
        self.used = self.held.len().min(self.used.saturating_add(count));
    }
}
