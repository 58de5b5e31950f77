//! Worlds, by lines.
use crate::calls::{self, copied, done, RawWorld};
use crate::error::{Error, Result};
use std::cell::Cell;
use std::fmt;
use std::ptr;

/// Why a text of lines wasn't run, or not to its end.
///
/// ```
/// use pybuf::{RunError, World};
/// assert_eq!(World::new()?.run("len h0\nno\n"), Err(RunError::BadLine(2)));
/// # Ok::<(), RunError>(())
/// ```
#[derive(Clone, Copy, Debug, PartialEq, Eq)]
pub enum RunError {
    /// The first line that is no command, from 1. Nothing was run.
    BadLine(u64),
    /// A call failed.
    Failed(Error),
}

impl fmt::Display for RunError {
    fn fmt(&self, f: &mut fmt::Formatter<'_>) -> fmt::Result {
        match self {
            RunError::BadLine(line) => write!(f, "line {line} is not a command"),
            RunError::Failed(error) => error.fmt(f),
        }
    }
}

impl std::error::Error for RunError {}

impl From<Error> for RunError {
    fn from(error: Error) -> RunError {
        RunError::Failed(error)
    }
}

/// A world of objects, which runs lines, as the program does.
///
/// ```
/// let mut world = pybuf::World::new()?;
/// let replies = world.run("new bytearray x616263\nview h0\nset h1 0 65\nget h1 0\nbytes h1\nrelease h1\n")?;
/// assert_eq!(replies, ["h0", "h1", "ok", "65", "b'Abc'", "ok"]);
/// // it may go to another thread
/// let told = std::thread::spawn(move || world.run("len h0\n"));
/// assert_eq!(told.join().unwrap()?, ["3"]);
/// # Ok::<(), pybuf::RunError>(())
/// ```
pub struct World {
    pointer: *mut RawWorld,
    /// How many views are there under which no byte changes.
    readers: Cell<usize>,
    /// How many objects it made, whose numbers stay taken when they are released.
    count: Cell<u64>,
}

// SAFETY: the pointer is the world's alone, and what it points to is proved to be `Send`: no part of it is bound to a thread. It isn't
// `Sync`, since each call changes it.
unsafe impl Send for World {}

impl World {
    /// A world with nothing in it.
    ///
    /// ```
    /// assert_eq!(pybuf::World::new()?.run("")?.len(), 0);
    /// # Ok::<(), pybuf::RunError>(())
    /// ```
    pub fn new() -> Result<World> {
        let mut pointer = ptr::null_mut();
        // SAFETY: the pointer points to a place that is ours.
        done(unsafe { calls::pybuf_world_new(&mut pointer) })?;
        Ok(World { pointer, readers: Cell::new(0), count: Cell::new(0) })
    }

    /// The replies to the lines of a text. A refusal is a reply that begins with `!`.
    ///
    /// ```
    /// assert_eq!(pybuf::World::new()?.run("new bytes x61\nget h0 1\n")?, ["h0", "! IndexError"]);
    /// # Ok::<(), pybuf::RunError>(())
    /// ```
    pub fn run(&mut self, text: &str) -> std::result::Result<Vec<String>, RunError> {
        let (mut count, mut line) = (0, 0);
        // SAFETY: the text is read only during the call, and only this call uses the world.
        let status = unsafe { calls::pybuf_world_run(self.pointer, text.as_ptr(), text.len(), &mut count, &mut line) };
        if status == 4 {
            return Err(RunError::BadLine(line));
        }
        done(status)?;
        let reply = |index| {
            // SAFETY: the room is that of `copied`, which is as long as it says.
            let text = copied(|room, room_length, length| unsafe {
                calls::pybuf_world_reply(self.pointer, index, room, room_length, length)
            })?;
            Ok(String::from_utf8_lossy(&text).into_owned())
        };
        (0..count).map(reply).collect()
    }

    /// Refuses a write while there is a view under which no byte changes.
    pub(crate) fn may_write(&self) -> Result<()> {
        if self.readers.get() == 0 {
            Ok(())
        } else {
            Err(Error::Buffer)
        }
    }

    /// Counts one more reader.
    pub(crate) fn add_reader(&self) {
        self.readers.set(self.readers.get() + 1);
    }

    /// Counts one reader less, which was counted.
    pub(crate) fn take_reader(&self) {
        self.readers.set(self.readers.get() - 1);
    }

    /// Takes note of the number of an object that it made.
    pub(crate) fn made(&self, number: u64) {
        self.count.set(number.saturating_add(1));
    }

    pub(crate) fn count(&self) -> u64 {
        self.count.get()
    }

    pub(crate) fn pointer(&self) -> *mut RawWorld {
        self.pointer
    }
}

impl fmt::Debug for World {
    fn fmt(&self, f: &mut fmt::Formatter<'_>) -> fmt::Result {
        f.debug_struct("World").finish_non_exhaustive()
    }
}

impl Drop for World {
    fn drop(&mut self) {
        // SAFETY: the world is ours, and is not used again.
        unsafe { calls::pybuf_world_free(self.pointer) };
    }
}
