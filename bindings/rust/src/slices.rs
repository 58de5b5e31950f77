//! Slices, by Rust's ranges and by Python's steps.
use crate::calls::Words;
use std::ops::{Bound, RangeBounds};

/// A slice, as Python's `start:stop:step`, whose parts may be absent. Every range of `i64` is one, and [`slice!`](crate::slice) adds a step.
///
/// A place counts from the end where it is negative, in each kind of range: `1..=-1` is from the second entry to the last, and `..=-2` ends
/// with the last but one.
///
/// ```
/// use pybuf::Slice;
/// assert_eq!(Slice::from(1..3), Slice { start: Some(1), stop: Some(3), step: None });
/// assert_eq!(Slice::from(..), Slice::default());
/// assert_eq!(Slice::from(1..=-1), Slice::from(1..));
/// assert_eq!(Slice::from(..=-2), Slice::from(..-1));
/// ```
#[derive(Clone, Copy, Debug, Default, PartialEq, Eq, Hash)]
pub struct Slice {
    /// The first place.
    ///
    /// ```
    /// assert_eq!(pybuf::Slice::from(-3..).start, Some(-3));
    /// ```
    pub start: Option<i64>,
    /// The place behind the last one.
    ///
    /// ```
    /// assert_eq!(pybuf::Slice::from(..=4).stop, Some(5));
    /// ```
    pub stop: Option<i64>,
    /// How far one place is from the next. A step of 0 is refused with `Error::Value`.
    ///
    /// ```
    /// assert_eq!(pybuf::Slice::stepped(.., -1).step, Some(-1));
    /// ```
    pub step: Option<i64>,
}

impl<R: RangeBounds<i64>> From<R> for Slice {
    fn from(range: R) -> Slice {
        Slice { step: None, ..Slice::stepped(range, 1) }
    }
}

impl Slice {
    /// The slice of a range with this step. Where it is negative, the range begins at the higher place, as in Python.
    ///
    /// ```
    /// use pybuf::{ByteArray, Slice};
    /// let array = ByteArray::new(b"abcdef")?;
    /// assert_eq!(array.slice(Slice::stepped(1.., 2))?, b"bdf");
    /// assert_eq!(array.slice(Slice::stepped(4..1, -1))?, b"edc");
    /// assert_eq!(array.slice(Slice::stepped(4..=0, -1))?, b"edcba");
    /// # Ok::<(), pybuf::Error>(())
    /// ```
    pub fn stepped(range: impl RangeBounds<i64>, step: i64) -> Slice {
        let next = if step < 0 { -1 } else { 1 };
        // what lies behind the last place in the direction of the step: nothing
        let edge = if step < 0 { 0 } else { -1 };
        let start = match range.start_bound() {
            Bound::Included(at) => Some(*at),
            Bound::Excluded(at) if *at == edge => Some(if step < 0 { i64::MIN } else { i64::MAX }),
            Bound::Excluded(at) => Some(at.saturating_add(next)),
            Bound::Unbounded => None,
        };
        let stop = match range.end_bound() {
            Bound::Included(at) if *at == edge => None,
            Bound::Included(at) => Some(at.saturating_add(next)),
            Bound::Excluded(at) => Some(*at),
            Bound::Unbounded => None,
        };
        Slice { start, stop, step: Some(step) }
    }

    pub(crate) fn words(self) -> Words {
        Words {
            start: self.start.unwrap_or(0),
            stop: self.stop.unwrap_or(0),
            step: self.step.unwrap_or(0),
            has_start: self.start.is_some(),
            has_stop: self.stop.is_some(),
            has_step: self.step.is_some(),
        }
    }
}

/// A [`Slice`] of a range, and of a step behind a semicolon.
///
/// ```
/// use pybuf::{slice, ByteArray};
/// let array = ByteArray::new(b"abcdef")?;
/// assert_eq!(array.slice(slice!(1..-1))?, b"bcde");
/// assert_eq!(array.slice(slice!(..; -2))?, b"fdb");
/// # Ok::<(), pybuf::Error>(())
/// ```
#[macro_export]
macro_rules! slice {
    ($range:expr) => {
        $crate::Slice::from($range)
    };
    ($range:expr; $step:expr) => {
        $crate::Slice::stepped($range, $step)
    };
}
