//! Bytearrays and views of them.
use crate::calls::{self, copied, done, Number};
use crate::error::{Error, Result};
use crate::items::Item;
use crate::slices::Slice;
use crate::views::{View, ViewCell, ViewMut};
use crate::world::World;
use std::cell::{Ref, RefCell};
use std::cmp::Ordering;
use std::ffi::CString;
use std::fmt;
use std::hash::{Hash, Hasher};
use std::io;
use std::marker::PhantomData;
use std::mem::{align_of, size_of};
use std::ptr;
use std::rc::Rc;

// A world is worn after so many views, and so many more for each of so many bytes, which a new one has to copy.
const VIEWS: u64 = 512;
const COPIED: u64 = 1 << 16;

/// What a world and a number name. A world and its objects stay on their thread.
#[derive(Clone)]
pub(crate) struct Object {
    pub(crate) world: Rc<World>,
    pub(crate) number: u64,
}

// SAFETY, of each unsafe block below: the world is alive, no other call uses it, since it stays on its thread and no call of it calls
// back, and each pointer points to a place of this call that is as long as the call says.
impl Object {
    /// An exporter of this kind in a world of its own.
    fn new(kind: i32, bytes: &[u8]) -> Result<Object> {
        let world = World::new()?;
        let mut number = 0;
        done(unsafe { calls::pybuf_new(world.pointer(), kind, bytes.as_ptr(), bytes.len(), &mut number) })?;
        Ok(Object { world: Rc::new(world), number })
    }

    /// Whether no view is there, and released views left more in the world than a new one with a copy of the bytes takes.
    fn is_worn(&self) -> bool {
        let left = self.world.count() / VIEWS;
        left > 0 && Rc::strong_count(&self.world) == 1 && self.length().is_ok_and(|length| left > length as u64 / COPIED)
    }

    fn made(&self, number: u64) -> Object {
        Object {
            world: Rc::clone(&self.world),
            number,
        }
    }

    pub(crate) fn object(&self, call: impl Fn(*mut calls::RawWorld, u64, *mut u64) -> i32) -> Result<Object> {
        let mut made = 0;
        done(call(self.world.pointer(), self.number, &mut made))?;
        self.world.made(made);
        Ok(self.made(made))
    }

    pub(crate) fn number(&self, call: impl Fn(*mut calls::RawWorld, u64, *mut Number) -> i32) -> Result<i128> {
        let mut number = Number::default();
        done(call(self.world.pointer(), self.number, &mut number))?;
        Ok(number.value())
    }

    pub(crate) fn length(&self) -> Result<usize> {
        let mut length = 0;
        done(unsafe { calls::pybuf_length(self.world.pointer(), self.number, &mut length) })?;
        Ok(length)
    }

    pub(crate) fn bytes(&self) -> Result<Vec<u8>> {
        copied(|room, room_length, length| unsafe {
            calls::pybuf_bytes(self.world.pointer(), self.number, room, room_length, length)
        })
    }

    pub(crate) fn get(&self, index: i64) -> Result<i128> {
        self.number(|world, object, item| unsafe { calls::pybuf_get(world, object, index, item) })
    }

    pub(crate) fn set(&self, index: i64, item: i128) -> Result<()> {
        self.world.may_write()?;
        let item = Number::of(item)?;
        done(unsafe { calls::pybuf_set(self.world.pointer(), self.number, index, item) })
    }

    pub(crate) fn set_slice(&self, slice: Slice, bytes: &[u8]) -> Result<()> {
        self.world.may_write()?;
        let words = slice.words();
        done(unsafe {
            calls::pybuf_set_slice(self.world.pointer(), self.number, &words, bytes.as_ptr(), bytes.len())
        })
    }

    /// The items of a view where they lie, as a pointer and their number, if they lie one after the other, at a place for them.
    pub(crate) fn lent<T: Item>(&self) -> Option<(*const T, usize)> {
        let (mut at, mut length) = (ptr::null(), 0);
        done(unsafe { calls::pybuf_lend(self.world.pointer(), self.number, &mut at, &mut length) }).ok()?;
        let at = at.cast::<T>();
        (T::LIES && at as usize % align_of::<T>() == 0).then(|| (at, length / size_of::<T>()))
    }

    /// Likewise, if they may be written.
    pub(crate) fn lent_to_write<T: Item>(&self) -> Option<(*mut T, usize)> {
        let (mut at, mut length) = (ptr::null_mut(), 0);
        done(unsafe { calls::pybuf_lend_to_write(self.world.pointer(), self.number, &mut at, &mut length) }).ok()?;
        let at = at.cast::<T>();
        (T::LIES && at as usize % align_of::<T>() == 0).then(|| (at, length / size_of::<T>()))
    }

    pub(crate) fn view(&self) -> Result<MemoryView> {
        let object = self.object(|world, object, made| unsafe { calls::pybuf_view(world, object, made) })?;
        Ok(MemoryView { object })
    }

    fn slice_bytes(&self, slice: Slice) -> Result<Vec<u8>> {
        let words = slice.words();
        copied(|room, room_length, length| unsafe {
            calls::pybuf_get_slice_bytes(self.world.pointer(), self.number, &words, room, room_length, length)
        })
    }

    fn contains(&self, bytes: &[u8]) -> Result<bool> {
        let mut truth = false;
        done(unsafe { calls::pybuf_contains(self.world.pointer(), self.number, bytes.as_ptr(), bytes.len(), &mut truth) })?;
        Ok(truth)
    }

    /// What is replied to a comparison with an object: nothing where they can't be compared.
    fn compared(&self, operator: i32, other: &Object) -> Result<Option<bool>> {
        if !Rc::ptr_eq(&self.world, &other.world) {
            return self.compared_to(operator, &other.bytes()?);
        }
        let mut truth = 0;
        done(unsafe { calls::pybuf_compare_with(self.world.pointer(), self.number, operator, other.number, &mut truth) })?;
        Ok(told(truth))
    }

    /// What is replied to a comparison with bytes.
    fn compared_to(&self, operator: i32, bytes: &[u8]) -> Result<Option<bool>> {
        let mut truth = 0;
        done(unsafe {
            calls::pybuf_compare(self.world.pointer(), self.number, operator, bytes.as_ptr(), bytes.len(), &mut truth)
        })?;
        Ok(told(truth))
    }
}

/// What a comparison answers: nothing where it isn't implemented.
fn told(truth: i32) -> Option<bool> {
    match truth {
        0 => Some(false),
        1 => Some(true),
        _ => None,
    }
}

/// Python's `bytearray`. Its bytes are freed with it and the last view of it.
///
/// ```
/// use pybuf::ByteArray;
///
/// let array = ByteArray::new(b"abc")?;
/// array.append(100)?;
/// array.insert(-1, 90)?;
/// assert_eq!(array.pop()?, 100);
/// assert_eq!(array.get(-1)?, 90);
/// assert_eq!(array.slice(..2)?, b"ab");
/// assert!(array < ByteArray::new(b"abd")?);
/// # Ok::<(), pybuf::Error>(())
/// ```
pub struct ByteArray {
    object: RefCell<Object>,
}

// SAFETY, of each unsafe block below: the world is alive, no other call uses it, since it stays on its thread and no call of it calls
// back, and each pointer points to a place of this call that is as long as the call says.
impl ByteArray {
    /// A bytearray of a copy of these bytes, in a world of its own.
    ///
    /// ```
    /// # use pybuf::ByteArray;
    /// assert_eq!(ByteArray::new(b"ab")?, *b"ab");
    /// # Ok::<(), pybuf::Error>(())
    /// ```
    pub fn new(bytes: &[u8]) -> Result<ByteArray> {
        Ok(ByteArray { object: Object::new(1, bytes)?.into() })
    }

    /// `memoryview(self)`.
    ///
    /// ```
    /// # use pybuf::ByteArray;
    /// let array = ByteArray::new(b"abcb")?;
    /// assert_eq!(array.view()?.get(0)?, 97);
    /// # Ok::<(), pybuf::Error>(())
    /// ```
    pub fn view(&self) -> Result<MemoryView> {
        self.renewed().view()
    }

    /// The number of bytes.
    ///
    /// ```
    /// # use pybuf::ByteArray;
    /// let array = ByteArray::new(b"abcb")?;
    /// assert_eq!(array.len()?, 4);
    /// # Ok::<(), pybuf::Error>(())
    /// ```
    pub fn len(&self) -> Result<usize> {
        self.object().length()
    }

    /// Whether there are no bytes.
    ///
    /// ```
    /// # use pybuf::ByteArray;
    /// let array = ByteArray::new(b"abcb")?;
    /// assert!(!array.is_empty()?);
    /// # Ok::<(), pybuf::Error>(())
    /// ```
    pub fn is_empty(&self) -> Result<bool> {
        Ok(self.len()? == 0)
    }

    /// How many views of it are unreleased.
    ///
    /// ```
    /// # use pybuf::ByteArray;
    /// let array = ByteArray::new(b"abcb")?;
    /// let view = array.view()?;
    /// assert_eq!(array.exports()?, 1);
    /// # Ok::<(), pybuf::Error>(())
    /// ```
    pub fn exports(&self) -> Result<usize> {
        let exports = self.object().number(|world, array, number| unsafe { calls::pybuf_property_number(world, array, 0, number) })?;
        Ok(exports as usize)
    }

    /// A copy of the bytes.
    ///
    /// ```
    /// # use pybuf::ByteArray;
    /// let array = ByteArray::new(b"abcb")?;
    /// assert_eq!(array.to_bytes()?, b"abcb");
    /// # Ok::<(), pybuf::Error>(())
    /// ```
    pub fn to_bytes(&self) -> Result<Vec<u8>> {
        self.object().bytes()
    }

    /// The byte at an index, which counts from the end where it is negative.
    ///
    /// ```
    /// # use pybuf::ByteArray;
    /// let array = ByteArray::new(b"abcb")?;
    /// assert_eq!(array.get(-1)?, 98);
    /// assert_eq!(array.get(4), Err(pybuf::Error::Index));
    /// # Ok::<(), pybuf::Error>(())
    /// ```
    pub fn get(&self, index: i64) -> Result<u8> {
        Ok(self.object().get(index)? as u8)
    }

    /// Writes the byte at an index. `Error::Buffer` refuses it while a [`View`] is there.
    ///
    /// ```
    /// # use pybuf::ByteArray;
    /// let array = ByteArray::new(b"abcb")?;
    /// array.set(0, 65)?;
    /// assert_eq!(array, *b"Abcb");
    /// # Ok::<(), pybuf::Error>(())
    /// ```
    pub fn set(&self, index: i64, byte: u8) -> Result<()> {
        self.object().set(index, byte.into())
    }

    /// A copy of the bytes of a slice.
    ///
    /// ```
    /// # use pybuf::ByteArray;
    /// let array = ByteArray::new(b"abcb")?;
    /// assert_eq!(array.slice(1..=-1)?, b"bcb");
    /// # Ok::<(), pybuf::Error>(())
    /// ```
    pub fn slice(&self, slice: impl Into<Slice>) -> Result<Vec<u8>> {
        self.object().slice_bytes(slice.into())
    }

    /// Puts bytes in place of a slice.
    ///
    /// ```
    /// # use pybuf::ByteArray;
    /// let array = ByteArray::new(b"abcb")?;
    /// array.set_slice(1..3, b"xyz")?;
    /// assert_eq!(array, *b"axyzb");
    /// # Ok::<(), pybuf::Error>(())
    /// ```
    pub fn set_slice(&self, slice: impl Into<Slice>, bytes: &[u8]) -> Result<()> {
        self.object().set_slice(slice.into(), bytes)
    }

    /// Takes out the bytes of a slice.
    ///
    /// ```
    /// # use pybuf::ByteArray;
    /// let array = ByteArray::new(b"abcb")?;
    /// array.delete(..2)?;
    /// assert_eq!(array, *b"cb");
    /// # Ok::<(), pybuf::Error>(())
    /// ```
    pub fn delete(&self, slice: impl Into<Slice>) -> Result<()> {
        let object = self.object();
        let words = slice.into().words();
        done(unsafe { calls::pybuf_delete_slice(object.world.pointer(), object.number, &words) })
    }

    /// Puts a byte at the end. `Error::Buffer` refuses it, and each other change of the length, while a view is unreleased. With
    /// [`push`](ByteArray::push) the compiler refuses it.
    ///
    /// ```
    /// # use pybuf::ByteArray;
    /// let array = ByteArray::new(b"abcb")?;
    /// array.append(33)?;
    /// assert_eq!(array, *b"abcb!");
    /// # Ok::<(), pybuf::Error>(())
    /// ```
    pub fn append(&self, byte: u8) -> Result<()> {
        let object = self.object();
        let byte = Number::of(byte.into())?;
        done(unsafe { calls::pybuf_append(object.world.pointer(), object.number, byte) })
    }

    /// Puts bytes at the end. [`Extend`] takes an iterator.
    ///
    /// ```
    /// # use pybuf::ByteArray;
    /// let array = ByteArray::new(b"abcb")?;
    /// array.extend(b"!?")?;
    /// assert_eq!(array, *b"abcb!?");
    /// # Ok::<(), pybuf::Error>(())
    /// ```
    pub fn extend(&self, bytes: &[u8]) -> Result<()> {
        let object = self.object();
        done(unsafe { calls::pybuf_extend(object.world.pointer(), object.number, bytes.as_ptr(), bytes.len()) })
    }

    /// Puts a byte before the place nearest to an index.
    ///
    /// ```
    /// # use pybuf::ByteArray;
    /// let array = ByteArray::new(b"abcb")?;
    /// array.insert(0, 33)?;
    /// assert_eq!(array, *b"!abcb");
    /// # Ok::<(), pybuf::Error>(())
    /// ```
    pub fn insert(&self, index: i64, byte: u8) -> Result<()> {
        let object = self.object();
        let byte = Number::of(byte.into())?;
        done(unsafe { calls::pybuf_insert(object.world.pointer(), object.number, index, byte) })
    }

    /// Takes out the last byte.
    ///
    /// ```
    /// # use pybuf::ByteArray;
    /// let array = ByteArray::new(b"abcb")?;
    /// assert_eq!(array.pop()?, 98);
    /// # Ok::<(), pybuf::Error>(())
    /// ```
    pub fn pop(&self) -> Result<u8> {
        let byte = self.object().number(|world, object, byte| unsafe { calls::pybuf_pop_last(world, object, byte) })?;
        Ok(byte as u8)
    }

    /// Takes out the byte at an index.
    ///
    /// ```
    /// # use pybuf::ByteArray;
    /// let array = ByteArray::new(b"abcb")?;
    /// assert_eq!(array.pop_at(0)?, 97);
    /// # Ok::<(), pybuf::Error>(())
    /// ```
    pub fn pop_at(&self, index: i64) -> Result<u8> {
        let byte = self.object().number(|world, object, byte| unsafe { calls::pybuf_pop(world, object, index, byte) })?;
        Ok(byte as u8)
    }

    /// Takes out the first such byte.
    ///
    /// ```
    /// # use pybuf::ByteArray;
    /// let array = ByteArray::new(b"abcb")?;
    /// array.remove(98)?;
    /// assert_eq!(array, *b"acb");
    /// assert_eq!(array.remove(0), Err(pybuf::Error::Value));
    /// # Ok::<(), pybuf::Error>(())
    /// ```
    pub fn remove(&self, byte: u8) -> Result<()> {
        let object = self.object();
        let byte = Number::of(byte.into())?;
        done(unsafe { calls::pybuf_remove(object.world.pointer(), object.number, byte) })
    }

    /// Takes out all bytes.
    ///
    /// ```
    /// # use pybuf::ByteArray;
    /// let array = ByteArray::new(b"abcb")?;
    /// array.clear()?;
    /// assert!(array.is_empty()?);
    /// # Ok::<(), pybuf::Error>(())
    /// ```
    pub fn clear(&self) -> Result<()> {
        let object = self.object();
        done(unsafe { calls::pybuf_clear(object.world.pointer(), object.number) })
    }

    /// Turns the order of the bytes round.
    ///
    /// ```
    /// # use pybuf::ByteArray;
    /// let array = ByteArray::new(b"abcb")?;
    /// array.reverse()?;
    /// assert_eq!(array, *b"bcba");
    /// # Ok::<(), pybuf::Error>(())
    /// ```
    pub fn reverse(&self) -> Result<()> {
        let object = self.object();
        object.world.may_write()?;
        done(unsafe { calls::pybuf_reverse(object.world.pointer(), object.number) })
    }

    /// Repeats the bytes so many times.
    ///
    /// ```
    /// # use pybuf::ByteArray;
    /// let array = ByteArray::new(b"abcb")?;
    /// array.repeat(2)?;
    /// assert_eq!(array, *b"abcbabcb");
    /// # Ok::<(), pybuf::Error>(())
    /// ```
    pub fn repeat(&self, count: i64) -> Result<()> {
        let object = self.object();
        done(unsafe { calls::pybuf_repeat(object.world.pointer(), object.number, count) })
    }
}

impl ByteArray {
    /// A view under which no byte changes.
    ///
    /// ```
    /// let array = pybuf::ByteArray::new(b"abcd")?;
    /// assert_eq!(array.as_view()?.slice(1..3)?, *b"bc");
    /// # Ok::<(), pybuf::Error>(())
    /// ```
    pub fn as_view(&self) -> Result<View<'_>> {
        self.view().map(View::of_all)
    }

    /// The one view that reads and writes the bytes. `Error::Buffer` refuses it while a [`MemoryView`] is unreleased.
    ///
    /// ```
    /// let mut array = pybuf::ByteArray::new(b"abcd")?;
    /// array.as_view_mut()?.set(0, 65)?;
    /// assert_eq!(array, *b"Abcd");
    /// # Ok::<(), pybuf::Error>(())
    /// ```
    pub fn as_view_mut(&mut self) -> Result<ViewMut<'_>> {
        match self.exports()? {
            0 => self.view().map(ViewMut::of_all),
            _ => Err(Error::Buffer),
        }
    }

    /// A view that others may be beside, which see its writes.
    ///
    /// ```
    /// let array = pybuf::ByteArray::new(b"abcd")?;
    /// array.as_cells()?.set(0, 65)?;
    /// assert_eq!(array.get(0)?, 65);
    /// # Ok::<(), pybuf::Error>(())
    /// ```
    pub fn as_cells(&self) -> Result<ViewCell<'_>> {
        self.view().map(ViewCell::of_all)
    }

    /// Puts a byte at the end. It panics if memory runs out, or if a [`MemoryView`] is unreleased, which the compiler can't see.
    ///
    /// ```
    /// let mut array = pybuf::ByteArray::new(b"abc")?;
    /// array.push(100);
    /// assert_eq!(array, *b"abcd");
    /// # Ok::<(), pybuf::Error>(())
    /// ```
    pub fn push(&mut self, byte: u8) {
        self.append(byte).expect("pybuf: push");
    }

    /// Whether these bytes stand in it, one behind the other.
    ///
    /// ```
    /// assert!(pybuf::ByteArray::new(b"abcd")?.contains(b"bc")?);
    /// # Ok::<(), pybuf::Error>(())
    /// ```
    pub fn contains(&self, bytes: &[u8]) -> Result<bool> {
        self.object().contains(bytes)
    }
}

/// Python's `bytes`, which never change.
///
/// ```
/// use pybuf::Bytes;
///
/// let bytes = Bytes::new(b"\x01\x02\x03\x04")?;
/// assert_eq!(bytes, [1, 2, 3, 4]);
/// assert_eq!(bytes.as_view()?.cast::<pybuf::Be<u32>>()?.get(0)?.0, 0x01020304);
/// # Ok::<(), pybuf::Error>(())
/// ```
pub struct Bytes {
    object: RefCell<Object>,
}

impl Bytes {
    /// Bytes that are a copy of these, in a world of their own.
    ///
    /// ```
    /// assert_eq!(pybuf::Bytes::new(b"ab")?, *b"ab");
    /// # Ok::<(), pybuf::Error>(())
    /// ```
    pub fn new(bytes: &[u8]) -> Result<Bytes> {
        Ok(Bytes { object: Object::new(0, bytes)?.into() })
    }

    /// A view of the bytes.
    ///
    /// ```
    /// assert_eq!(pybuf::Bytes::new(b"abcd")?.as_view()?.slice(1..3)?, *b"bc");
    /// # Ok::<(), pybuf::Error>(())
    /// ```
    pub fn as_view(&self) -> Result<View<'_>> {
        self.renewed().view().map(View::of_all)
    }

    /// The number of bytes. It panics if memory runs out.
    ///
    /// ```
    /// assert_eq!(pybuf::Bytes::new(b"abcd")?.len(), 4);
    /// # Ok::<(), pybuf::Error>(())
    /// ```
    pub fn len(&self) -> usize {
        self.object().length().expect(MEMORY)
    }

    /// Whether there are no bytes. It panics if memory runs out.
    ///
    /// ```
    /// assert!(pybuf::Bytes::new(b"")?.is_empty());
    /// # Ok::<(), pybuf::Error>(())
    /// ```
    pub fn is_empty(&self) -> bool {
        self.len() == 0
    }

    /// The byte at an index, which counts from the end where it is negative.
    ///
    /// ```
    /// assert_eq!(pybuf::Bytes::new(b"abcd")?.get(-1)?, 100);
    /// # Ok::<(), pybuf::Error>(())
    /// ```
    pub fn get(&self, index: i64) -> Result<u8> {
        Ok(self.object().get(index)? as u8)
    }

    /// A copy of the bytes of a slice.
    ///
    /// ```
    /// assert_eq!(pybuf::Bytes::new(b"abcd")?.slice(pybuf::slice!(..; -2))?, b"db");
    /// # Ok::<(), pybuf::Error>(())
    /// ```
    pub fn slice(&self, slice: impl Into<Slice>) -> Result<Vec<u8>> {
        self.object().slice_bytes(slice.into())
    }

    /// A copy of the bytes.
    ///
    /// ```
    /// assert_eq!(pybuf::Bytes::new(b"abcd")?.to_bytes()?, b"abcd");
    /// # Ok::<(), pybuf::Error>(())
    /// ```
    pub fn to_bytes(&self) -> Result<Vec<u8>> {
        self.object().bytes()
    }

    /// Whether these bytes stand in it, one behind the other.
    ///
    /// ```
    /// assert!(pybuf::Bytes::new(b"abcd")?.contains(b"bc")?);
    /// # Ok::<(), pybuf::Error>(())
    /// ```
    pub fn contains(&self, bytes: &[u8]) -> Result<bool> {
        self.object().contains(bytes)
    }
}

/// A bytearray or bytes without a view, which may go to another thread. `From` makes what it was of it.
///
/// ```
/// use pybuf::ByteArray;
///
/// let array = ByteArray::new(b"abc")?;
/// let view = array.view()?;
/// let array = array.detach().unwrap_err();
/// drop(view);
/// let detached = array.detach().unwrap();
/// let longer = std::thread::spawn(move || {
///     let array = ByteArray::from(detached);
///     array.append(100).unwrap();
///     array.detach().unwrap()
/// });
/// assert_eq!(ByteArray::from(longer.join().unwrap()), *b"abcd");
/// # Ok::<(), pybuf::Error>(())
/// ```
pub struct Detached<T> {
    world: World,
    number: u64,
    owner: PhantomData<fn() -> T>,
}

impl<T> fmt::Debug for Detached<T> {
    fn fmt(&self, f: &mut fmt::Formatter<'_>) -> fmt::Result {
        f.debug_struct("Detached").finish_non_exhaustive()
    }
}

const MEMORY: &str = "pybuf: memory ran out";

/// What owners of bytes have in common.
macro_rules! owners {
    ($($owner:ident $kind:literal)*) => {$(
        impl $owner {
            /// Takes it off its thread, so that it may go to another one. It comes back as it is, in `Err`, while a view of it is there.
            ///
            /// ```
            #[doc = concat!("let owner = pybuf::", stringify!($owner), "::new(b\"abc\")?.detach().unwrap();")]
            #[doc = concat!("let told = std::thread::spawn(move || pybuf::", stringify!($owner), "::from(owner) == *b\"abc\");")]
            /// assert!(told.join().unwrap());
            /// # Ok::<(), pybuf::Error>(())
            /// ```
            pub fn detach(self) -> std::result::Result<Detached<$owner>, $owner> {
                let Object { world, number } = self.object.into_inner();
                match Rc::try_unwrap(world) {
                    Ok(world) => Ok(Detached { world, number, owner: PhantomData }),
                    Err(world) => Err($owner { object: Object { world, number }.into() }),
                }
            }

            fn object(&self) -> Ref<'_, Object> {
                self.object.borrow()
            }

            /// The object, after it moved to a new world if what released views left in the old one is more than the bytes.
            fn renewed(&self) -> Ref<'_, Object> {
                if self.object().is_worn() {
                    // where memory runs out, the old world stays
                    if let Ok(object) = self.to_bytes().and_then(|bytes| Object::new($kind, &bytes)) {
                        self.object.replace(object);
                    }
                }
                self.object()
            }
        }

        impl From<Detached<$owner>> for $owner {
            fn from(detached: Detached<$owner>) -> $owner {
                let Detached { world, number, .. } = detached;
                $owner { object: Object { world: Rc::new(world), number }.into() }
            }
        }

        impl fmt::Debug for $owner {
            fn fmt(&self, f: &mut fmt::Formatter<'_>) -> fmt::Result {
                match self.to_bytes() {
                    Ok(bytes) => f.debug_tuple(stringify!($owner)).field(&bytes).finish(),
                    Err(error) => f.debug_tuple(stringify!($owner)).field(&error).finish(),
                }
            }
        }

        impl PartialEq for $owner {
            fn eq(&self, other: &$owner) -> bool {
                self.object().compared(0, &other.object()) == Ok(Some(true))
            }
        }

        impl Eq for $owner {}

        impl PartialOrd for $owner {
            fn partial_cmp(&self, other: &$owner) -> Option<Ordering> {
                Some(self.cmp(other))
            }
        }

        impl Ord for $owner {
            fn cmp(&self, other: &$owner) -> Ordering {
                let told = |operator| self.object().compared(operator, &other.object()).expect(MEMORY) == Some(true);
                if told(2) {
                    Ordering::Less
                } else if told(4) {
                    Ordering::Greater
                } else {
                    Ordering::Equal
                }
            }
        }

        impl Hash for $owner {
            fn hash<H: Hasher>(&self, state: &mut H) {
                self.to_bytes().expect(MEMORY).hash(state);
            }
        }

        impl Clone for $owner {
            /// A copy in a world of its own. It panics if memory runs out.
            fn clone(&self) -> $owner {
                $owner::from(&self.to_bytes().expect(MEMORY)[..])
            }
        }

        impl From<&[u8]> for $owner {
            /// A copy of these bytes. It panics if memory runs out, where `new` says so.
            fn from(bytes: &[u8]) -> $owner {
                $owner::new(bytes).expect(MEMORY)
            }
        }

        impl<const N: usize> From<&[u8; N]> for $owner {
            fn from(bytes: &[u8; N]) -> $owner {
                $owner::from(&bytes[..])
            }
        }

        impl Default for $owner {
            /// No bytes. It panics if memory runs out.
            fn default() -> $owner {
                $owner::from(b"")
            }
        }

        impl FromIterator<u8> for $owner {
            fn from_iter<I: IntoIterator<Item = u8>>(bytes: I) -> $owner {
                $owner::from(&bytes.into_iter().collect::<Vec<u8>>()[..])
            }
        }

        impl PartialEq<[u8]> for $owner {
            fn eq(&self, other: &[u8]) -> bool {
                self.object().compared_to(0, other) == Ok(Some(true))
            }
        }

        impl PartialEq<&[u8]> for $owner {
            fn eq(&self, other: &&[u8]) -> bool {
                *self == **other
            }
        }

        impl<const N: usize> PartialEq<[u8; N]> for $owner {
            fn eq(&self, other: &[u8; N]) -> bool {
                *self == other[..]
            }
        }

        impl PartialEq<Vec<u8>> for $owner {
            fn eq(&self, other: &Vec<u8>) -> bool {
                *self == other[..]
            }
        }

        impl IntoIterator for &$owner {
            type Item = u8;
            type IntoIter = std::vec::IntoIter<u8>;

            fn into_iter(self) -> std::vec::IntoIter<u8> {
                self.to_bytes().expect(MEMORY).into_iter()
            }
        }
    )*};
}

owners! { ByteArray 1 Bytes 0 }

impl Extend<u8> for ByteArray {
    /// It panics where [`push`](ByteArray::push) does.
    fn extend<I: IntoIterator<Item = u8>>(&mut self, bytes: I) {
        let bytes: Vec<u8> = bytes.into_iter().collect();
        ByteArray::extend(self, &bytes).expect("pybuf: extend");
    }
}

impl<'b> Extend<&'b u8> for ByteArray {
    fn extend<I: IntoIterator<Item = &'b u8>>(&mut self, bytes: I) {
        Extend::extend(self, bytes.into_iter().copied());
    }
}

/// Writes to the end.
impl io::Write for ByteArray {
    fn write(&mut self, bytes: &[u8]) -> io::Result<usize> {
        ByteArray::extend(self, bytes)?;
        Ok(bytes.len())
    }

    fn flush(&mut self) -> io::Result<()> {
        Ok(())
    }
}

/// Python's `memoryview` of a bytearray. It is released where it is dropped.
///
/// ```
/// use pybuf::{ByteArray, Error, Slice};
///
/// let array = ByteArray::new(&[0, 1, 2, 3, 4, 5])?;
/// let rows = array.view()?.cast_to_shape("B", &[2, 3])?;
/// assert_eq!(rows.shape()?, [2, 3]);
/// rows.set_at(&[0, 2], 90)?;
/// let back = rows.slice(Slice { step: Some(-1), ..Slice::default() })?;
/// assert_eq!(back.items()?, [3, 4, 5, 0, 1, 90]);
/// back.release()?;
/// assert_eq!(back.items(), Err(Error::Value));
/// # Ok::<(), Error>(())
/// ```
pub struct MemoryView {
    pub(crate) object: Object,
}

// SAFETY, of each unsafe block below: the world is alive, no other call uses it, since it stays on its thread and no call of it calls
// back, and each pointer points to a place of this call that is as long as the call says.
impl MemoryView {
    /// A view of the same items.
    ///
    /// ```
    /// # use pybuf::ByteArray;
    /// let array = ByteArray::new(b"abcd")?;
    /// let view = array.view()?;
    /// assert_eq!(view.view()?, view);
    /// # Ok::<(), pybuf::Error>(())
    /// ```
    pub fn view(&self) -> Result<MemoryView> {
        self.object.view()
    }

    /// `self.cast(format)`.
    ///
    /// ```
    /// # use pybuf::ByteArray;
    /// let array = ByteArray::new(b"abcd")?;
    /// let view = array.view()?;
    /// assert_eq!(view.cast("H")?.len()?, 2);
    /// # Ok::<(), pybuf::Error>(())
    /// ```
    pub fn cast(&self, format: &str) -> Result<MemoryView> {
        let format = CString::new(format).map_err(|_| Error::BadArgument)?;
        let object = self.object.object(|world, view, made| unsafe {
            calls::pybuf_cast(world, view, format.as_ptr(), std::ptr::null(), 0, made)
        })?;
        Ok(MemoryView { object })
    }

    /// `self.cast(format, shape)`.
    ///
    /// ```
    /// # use pybuf::ByteArray;
    /// let array = ByteArray::new(b"abcd")?;
    /// let view = array.view()?;
    /// assert_eq!(view.cast_to_shape("B", &[2, 2])?.shape()?, [2, 2]);
    /// # Ok::<(), pybuf::Error>(())
    /// ```
    pub fn cast_to_shape(&self, format: &str, shape: &[i64]) -> Result<MemoryView> {
        let format = CString::new(format).map_err(|_| Error::BadArgument)?;
        let object = self.object.object(|world, view, made| unsafe {
            calls::pybuf_cast(world, view, format.as_ptr(), shape.as_ptr(), shape.len(), made)
        })?;
        Ok(MemoryView { object })
    }

    /// A view of the same items that may only be read.
    ///
    /// ```
    /// # use pybuf::ByteArray;
    /// let array = ByteArray::new(b"abcd")?;
    /// let view = array.view()?;
    /// assert_eq!(view.to_readonly()?.set(0, 1), Err(pybuf::Error::Kind));
    /// # Ok::<(), pybuf::Error>(())
    /// ```
    pub fn to_readonly(&self) -> Result<MemoryView> {
        let object = self.object.object(|world, view, made| unsafe { calls::pybuf_to_readonly(world, view, made) })?;
        Ok(MemoryView { object })
    }

    /// A view of the entries of a slice.
    ///
    /// ```
    /// # use pybuf::ByteArray;
    /// let array = ByteArray::new(b"abcd")?;
    /// let view = array.view()?;
    /// assert_eq!(view.slice(1..-1)?.to_bytes()?, b"bc");
    /// # Ok::<(), pybuf::Error>(())
    /// ```
    pub fn slice(&self, slice: impl Into<Slice>) -> Result<MemoryView> {
        let words = slice.into().words();
        let object = self.object.object(|world, view, made| unsafe { calls::pybuf_get_slice(world, view, &words, made) })?;
        Ok(MemoryView { object })
    }

    /// Releases the view. A second time changes nothing.
    ///
    /// ```
    /// # use pybuf::ByteArray;
    /// let array = ByteArray::new(b"abcd")?;
    /// let view = array.view()?;
    /// view.release()?;
    /// assert_eq!(view.get(0), Err(pybuf::Error::Value));
    /// # Ok::<(), pybuf::Error>(())
    /// ```
    pub fn release(&self) -> Result<()> {
        done(unsafe { calls::pybuf_release(self.object.world.pointer(), self.object.number) })
    }

    /// The number of entries of the first dimension.
    ///
    /// ```
    /// # use pybuf::ByteArray;
    /// let array = ByteArray::new(b"abcd")?;
    /// let view = array.view()?;
    /// assert_eq!(view.len()?, 4);
    /// # Ok::<(), pybuf::Error>(())
    /// ```
    pub fn len(&self) -> Result<usize> {
        self.object.length()
    }

    /// Whether there are no entries.
    ///
    /// ```
    /// # use pybuf::ByteArray;
    /// let array = ByteArray::new(b"abcd")?;
    /// let view = array.view()?;
    /// assert!(!view.is_empty()?);
    /// # Ok::<(), pybuf::Error>(())
    /// ```
    pub fn is_empty(&self) -> Result<bool> {
        Ok(self.len()? == 0)
    }

    /// A copy of the bytes of the items, row by row.
    ///
    /// ```
    /// # use pybuf::ByteArray;
    /// let array = ByteArray::new(b"abcd")?;
    /// let view = array.view()?;
    /// assert_eq!(view.to_bytes()?, b"abcd");
    /// # Ok::<(), pybuf::Error>(())
    /// ```
    pub fn to_bytes(&self) -> Result<Vec<u8>> {
        self.object.bytes()
    }

    /// The item at an index.
    ///
    /// ```
    /// # use pybuf::ByteArray;
    /// let array = ByteArray::new(b"abcd")?;
    /// let view = array.view()?;
    /// assert_eq!(view.get(-1)?, 100);
    /// # Ok::<(), pybuf::Error>(())
    /// ```
    pub fn get(&self, index: i64) -> Result<i128> {
        self.object.get(index)
    }

    /// The item at an index for each dimension.
    ///
    /// ```
    /// # use pybuf::ByteArray;
    /// let array = ByteArray::new(b"abcd")?;
    /// let view = array.view()?;
    /// assert_eq!(view.cast_to_shape("B", &[2, 2])?.get_at(&[1, 0])?, 99);
    /// # Ok::<(), pybuf::Error>(())
    /// ```
    pub fn get_at(&self, indices: &[i64]) -> Result<i128> {
        self.object.number(|world, view, item| unsafe {
            calls::pybuf_get_at(world, view, indices.as_ptr(), indices.len(), item)
        })
    }

    /// Writes the item at an index. `Error::Buffer` refuses it while a [`View`] is there.
    ///
    /// ```
    /// # use pybuf::ByteArray;
    /// let array = ByteArray::new(b"abcd")?;
    /// let view = array.view()?;
    /// view.set(0, 65)?;
    /// assert_eq!(array, *b"Abcd");
    /// # Ok::<(), pybuf::Error>(())
    /// ```
    pub fn set(&self, index: i64, item: i128) -> Result<()> {
        self.object.set(index, item)
    }

    /// Writes the item at an index for each dimension.
    ///
    /// ```
    /// # use pybuf::ByteArray;
    /// let array = ByteArray::new(b"abcd")?;
    /// let view = array.view()?;
    /// view.cast_to_shape("B", &[2, 2])?.set_at(&[1, 0], 67)?;
    /// assert_eq!(array, *b"abCd");
    /// # Ok::<(), pybuf::Error>(())
    /// ```
    pub fn set_at(&self, indices: &[i64], item: i128) -> Result<()> {
        self.object.world.may_write()?;
        let item = Number::of(item)?;
        done(unsafe {
            calls::pybuf_set_at(self.object.world.pointer(), self.object.number, indices.as_ptr(), indices.len(), item)
        })
    }

    /// Writes bytes to the items of a slice.
    ///
    /// ```
    /// # use pybuf::ByteArray;
    /// let array = ByteArray::new(b"abcd")?;
    /// let view = array.view()?;
    /// view.set_slice(..2, b"AB")?;
    /// assert_eq!(array, *b"ABcd");
    /// # Ok::<(), pybuf::Error>(())
    /// ```
    pub fn set_slice(&self, slice: impl Into<Slice>, bytes: &[u8]) -> Result<()> {
        self.object.set_slice(slice.into(), bytes)
    }

    /// Writes the items of another view to those of a slice.
    ///
    /// ```
    /// # use pybuf::ByteArray;
    /// let array = ByteArray::new(b"abcd")?;
    /// let view = array.view()?;
    /// view.set_slice_of(..2, &view.slice(2..)?)?;
    /// assert_eq!(array, *b"cdcd");
    /// # Ok::<(), pybuf::Error>(())
    /// ```
    pub fn set_slice_of(&self, slice: impl Into<Slice>, other: &MemoryView) -> Result<()> {
        if !Rc::ptr_eq(&self.object.world, &other.object.world) {
            return self.set_slice(slice, &other.to_bytes()?);
        }
        self.object.world.may_write()?;
        let words = slice.into().words();
        done(unsafe {
            calls::pybuf_set_slice_of(self.object.world.pointer(), self.object.number, &words, other.object.number)
        })
    }

    /// The items, row by row.
    ///
    /// ```
    /// # use pybuf::ByteArray;
    /// let array = ByteArray::new(b"abcd")?;
    /// let view = array.view()?;
    /// assert_eq!(view.items()?, [97, 98, 99, 100]);
    /// # Ok::<(), pybuf::Error>(())
    /// ```
    pub fn items(&self) -> Result<Vec<i128>> {
        let items = copied(|room, room_count, count| unsafe {
            calls::pybuf_items(self.object.world.pointer(), self.object.number, room, room_count, count)
        })?;
        Ok(items.into_iter().map(Number::value).collect())
    }

    /// The items of the first dimension, one by one.
    ///
    /// ```
    /// # use pybuf::ByteArray;
    /// let array = ByteArray::new(b"abcd")?;
    /// let view = array.view()?;
    /// assert_eq!(view.iter().count(), 4);
    /// # Ok::<(), pybuf::Error>(())
    /// ```
    pub fn iter(&self) -> Iter<'_> {
        Iter { view: self, next: 0 }
    }

    pub(crate) fn numbers(&self, property: i32) -> Result<Vec<i128>> {
        let numbers = copied(|room, room_count, count| unsafe {
            calls::pybuf_property_numbers(self.object.world.pointer(), self.object.number, property, room, room_count, count)
        })?;
        Ok(numbers.into_iter().map(Number::value).collect())
    }

    pub(crate) fn property(&self, property: i32) -> Result<i128> {
        self.object.number(|world, view, number| unsafe { calls::pybuf_property_number(world, view, property, number) })
    }

    /// The number of bytes of the items.
    ///
    /// ```
    /// # use pybuf::ByteArray;
    /// let array = ByteArray::new(b"abcd")?;
    /// let view = array.view()?;
    /// assert_eq!(view.nbytes()?, 4);
    /// # Ok::<(), pybuf::Error>(())
    /// ```
    pub fn nbytes(&self) -> Result<usize> {
        Ok(self.property(2)? as usize)
    }

    /// Whether it may only be read.
    ///
    /// ```
    /// # use pybuf::ByteArray;
    /// let array = ByteArray::new(b"abcd")?;
    /// let view = array.view()?;
    /// assert!(!view.is_readonly()?);
    /// # Ok::<(), pybuf::Error>(())
    /// ```
    pub fn is_readonly(&self) -> Result<bool> {
        Ok(self.property(3)? != 0)
    }

    /// The number of bytes of an item.
    ///
    /// ```
    /// # use pybuf::ByteArray;
    /// let array = ByteArray::new(b"abcd")?;
    /// let view = array.view()?;
    /// assert_eq!(view.cast("H")?.itemsize()?, 2);
    /// # Ok::<(), pybuf::Error>(())
    /// ```
    pub fn itemsize(&self) -> Result<usize> {
        Ok(self.property(4)? as usize)
    }

    /// The number of dimensions.
    ///
    /// ```
    /// # use pybuf::ByteArray;
    /// let array = ByteArray::new(b"abcd")?;
    /// let view = array.view()?;
    /// assert_eq!(view.ndim()?, 1);
    /// # Ok::<(), pybuf::Error>(())
    /// ```
    pub fn ndim(&self) -> Result<usize> {
        Ok(self.property(5)? as usize)
    }

    /// The number of entries of each dimension.
    ///
    /// ```
    /// # use pybuf::ByteArray;
    /// let array = ByteArray::new(b"abcd")?;
    /// let view = array.view()?;
    /// assert_eq!(view.shape()?, [4]);
    /// # Ok::<(), pybuf::Error>(())
    /// ```
    pub fn shape(&self) -> Result<Vec<i128>> {
        self.numbers(6)
    }

    /// How many bytes an entry is from the next, for each dimension.
    ///
    /// ```
    /// # use pybuf::ByteArray;
    /// let array = ByteArray::new(b"abcd")?;
    /// let view = array.view()?;
    /// assert_eq!(view.slice(pybuf::slice!(..; -2))?.strides()?, [-2]);
    /// # Ok::<(), pybuf::Error>(())
    /// ```
    pub fn strides(&self) -> Result<Vec<i128>> {
        self.numbers(7)
    }

    /// The format of an item.
    ///
    /// ```
    /// # use pybuf::ByteArray;
    /// let array = ByteArray::new(b"abcd")?;
    /// let view = array.view()?;
    /// assert_eq!(view.format()?, "B");
    /// # Ok::<(), pybuf::Error>(())
    /// ```
    pub fn format(&self) -> Result<String> {
        let text = copied(|room, room_length, length| unsafe {
            calls::pybuf_property_text(self.object.world.pointer(), self.object.number, 9, room, room_length, length)
        })?;
        Ok(String::from_utf8_lossy(&text).into_owned())
    }

    /// Whether the items lie side by side.
    ///
    /// ```
    /// # use pybuf::ByteArray;
    /// let array = ByteArray::new(b"abcd")?;
    /// let view = array.view()?;
    /// assert!(view.is_contiguous()?);
    /// # Ok::<(), pybuf::Error>(())
    /// ```
    pub fn is_contiguous(&self) -> Result<bool> {
        Ok(self.property(10)? != 0)
    }
}

impl fmt::Debug for MemoryView {
    fn fmt(&self, f: &mut fmt::Formatter<'_>) -> fmt::Result {
        let shown = copied(|room, room_length, length| unsafe {
            calls::pybuf_shown(self.object.world.pointer(), self.object.number, room, room_length, length)
        });
        match shown {
            Ok(text) => f.write_str(&String::from_utf8_lossy(&text)),
            Err(error) => f.debug_tuple("MemoryView").field(&error).finish(),
        }
    }
}

impl PartialEq for MemoryView {
    fn eq(&self, other: &MemoryView) -> bool {
        self.object.compared(0, &other.object) == Ok(Some(true))
    }
}

impl Drop for MemoryView {
    fn drop(&mut self) {
        let _ = self.release();
    }
}

/// The items of a view, one by one; the last may be an error.
///
/// ```
/// let view = pybuf::ByteArray::new(b"ab")?.view()?;
/// assert_eq!(view.iter().collect::<pybuf::Result<Vec<_>>>()?, [97, 98]);
/// # Ok::<(), pybuf::Error>(())
/// ```
#[derive(Debug)]
pub struct Iter<'a> {
    view: &'a MemoryView,
    next: i64,
}

impl Iterator for Iter<'_> {
    type Item = Result<i128>;

    fn next(&mut self) -> Option<Result<i128>> {
        match self.view.get(self.next) {
            Err(Error::Index) => None,
            item => {
                self.next += 1;
                Some(item)
            }
        }
    }
}
