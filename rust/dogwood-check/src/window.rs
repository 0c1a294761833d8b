//! The time windows of a condition, and how a listing counts them in sweeps.

use crate::encode::{Encoded, Problem, Writer};
use crate::DecodeError;
use std::fmt;

/// The version of a condition record that brought windows.
const WINDOWS: u8 = 2;

/// How far back `formerly`, `previous` and `since` look.
///
/// ```
/// use dogwood_check::{Condition, Window};
///
/// // formerly within 90m f()
/// let condition = Condition::formerly_within(0..23, Window::minutes(90), Condition::call(20..23));
/// assert_eq!(condition.encode()?[..5], *b"DWC\0\x02");
/// assert_eq!(Window::minutes(90).length(), Some(5_400));
/// # Ok::<(), dogwood_check::EncodeError>(())
/// ```
#[derive(Clone, Copy, Debug, PartialEq, Eq, Hash)]
pub enum Window {
    /// So many of a unit. The record holds what is neither negative nor above 2^63 - 1 seconds.
    Within {
        /// How many.
        amount: i64,
        /// Of which.
        unit: TimeUnit,
    },
    /// `?p`, a parameter of a macro.
    ParamRef,
}

/// A unit of time.
#[derive(Clone, Copy, Debug, PartialEq, Eq, Hash)]
#[repr(u8)]
pub enum TimeUnit {
    /// `s`
    Seconds = 0,
    /// `m`
    Minutes = 1,
    /// `h`
    Hours = 2,
    /// `d`
    Days = 3,
}

impl TimeUnit {
    /// Every unit, in the order of the format's numbers.
    pub const ALL: [TimeUnit; 4] = [TimeUnit::Seconds, TimeUnit::Minutes, TimeUnit::Hours, TimeUnit::Days];

    /// How many seconds it has.
    pub fn seconds(self) -> i64 {
        match self {
            TimeUnit::Seconds => 1,
            TimeUnit::Minutes => 60,
            TimeUnit::Hours => 3_600,
            TimeUnit::Days => 86_400,
        }
    }
}

impl Window {
    /// So many seconds.
    pub fn seconds(amount: i64) -> Window {
        Window::Within { amount, unit: TimeUnit::Seconds }
    }

    /// So many minutes.
    pub fn minutes(amount: i64) -> Window {
        Window::Within { amount, unit: TimeUnit::Minutes }
    }

    /// So many hours.
    pub fn hours(amount: i64) -> Window {
        Window::Within { amount, unit: TimeUnit::Hours }
    }

    /// So many days.
    pub fn days(amount: i64) -> Window {
        Window::Within { amount, unit: TimeUnit::Days }
    }

    /// Its seconds; none for a parameter, and for what no record holds.
    pub fn length(self) -> Option<u64> {
        let Window::Within { amount, unit } = self else {
            return None;
        };
        amount.checked_mul(unit.seconds()).and_then(|seconds| u64::try_from(seconds).ok())
    }

    /// The window of a condition that looks back, or that it has none.
    pub(crate) fn write_given(window: Option<Window>, out: &mut Writer) -> Encoded {
        let Some(window) = window else {
            return out.left_out(WINDOWS, Problem::WindowMissing);
        };
        out.said(WINDOWS);
        window.write(out)
    }

    fn write(self, out: &mut Writer) -> Encoded {
        let Window::Within { amount, unit } = self else {
            out.byte(1);
            return Ok(());
        };
        if self.length().is_none() {
            return Err(Problem::WindowOutOfRange { amount, unit }.into());
        }
        out.byte(0);
        out.byte(unit as u8);
        out.number64(amount);
        Ok(())
    }
}

/// A concrete window as [`windows`](crate::windows) lists it: `sweeps` times the period and `rest` are its seconds, and
/// `rest` is below the period.
#[derive(Clone, Copy, Debug, PartialEq, Eq, Hash)]
pub struct ListedWindow {
    /// Where the condition that has the window starts in the rule's text.
    pub start: u32,
    /// How many whole sweeps are in the window.
    pub sweeps: u64,
    /// How many seconds are left.
    pub rest: u64,
}

impl fmt::Display for ListedWindow {
    fn fmt(&self, f: &mut fmt::Formatter) -> fmt::Result {
        write!(f, "{}: {} sweeps and {} s", self.start, self.sweeps, self.rest)
    }
}

/// The bytes of an entry: start in 32 bits, sweeps and rest in 64 each.
pub(crate) const ENTRY: usize = 20;

/// The windows at the beginning of a buffer, one after the other, without allocation.
///
/// ```
/// use dogwood_check::{ListedWindow, ListedWindows};
///
/// // start 7, 2 sweeps, rest 30; what stands behind the entries does not matter
/// let buffer = [0, 0, 0, 7, 0, 0, 0, 0, 0, 0, 0, 2, 0, 0, 0, 0, 0, 0, 0, 30, 0xFF];
/// let mut windows = ListedWindows::new(&buffer, 1)?;
/// assert_eq!(windows.next(), Some(ListedWindow { start: 7, sweeps: 2, rest: 30 }));
/// assert_eq!(windows.next(), None);
/// # Ok::<(), dogwood_check::DecodeError>(())
/// ```
#[derive(Clone, Debug)]
pub struct ListedWindows<'a> {
    entries: std::slice::ChunksExact<'a, u8>,
}

impl<'a> ListedWindows<'a> {
    /// The first `count` windows of a buffer that [`windows_into`](crate::windows_into) has filled. Bytes that are not
    /// as many whole entries are an error; the library leaves no such buffer.
    pub fn new(buffer: &'a [u8], count: usize) -> Result<ListedWindows<'a>, DecodeError> {
        let there = buffer.len() / ENTRY;
        if there < count {
            return Err(DecodeError::Window { index: there });
        }
        Ok(ListedWindows { entries: buffer[..count * ENTRY].chunks_exact(ENTRY) })
    }
}

impl Iterator for ListedWindows<'_> {
    type Item = ListedWindow;

    fn next(&mut self) -> Option<ListedWindow> {
        let (start, rest) = self.entries.next()?.split_first_chunk()?;
        let (sweeps, rest) = rest.split_first_chunk()?;
        let (left, _) = rest.split_first_chunk()?;
        Some(ListedWindow {
            start: u32::from_be_bytes(*start),
            sweeps: u64::from_be_bytes(*sweeps),
            rest: u64::from_be_bytes(*left),
        })
    }

    fn size_hint(&self) -> (usize, Option<usize>) {
        self.entries.size_hint()
    }
}

impl ExactSizeIterator for ListedWindows<'_> {}

impl std::iter::FusedIterator for ListedWindows<'_> {}
