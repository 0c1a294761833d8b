//! Reports, decoded from the buffer that the library has filled.

use crate::DecodeError;
use std::fmt;

/// A rule that the condition breaks: where, and what to tell its writer.
#[derive(Clone, Debug, PartialEq, Eq, Hash)]
pub struct Report {
    /// Where the offending part of the rule's text starts, as the condition's span says.
    pub start: u32,
    /// Where it ends.
    pub end: u32,
    /// What is wrong there.
    pub message: String,
}

impl Report {
    /// The part of the rule's text that the report is about. There is none where the span is no part of this text: it
    /// ends before it starts, reaches beyond the text, or cuts a letter of several bytes. A condition may have such
    /// spans, and they are reported as they stand.
    ///
    /// ```
    /// use dogwood_check::Report;
    ///
    /// let at = |start, end| Report { start, end, message: String::new() };
    /// let rule = "year < 1900";
    /// assert_eq!(at(0, 4).excerpt(rule), Some("year"));
    /// assert_eq!(at(5, 3).excerpt(rule), None);
    /// assert_eq!(at(7, 12).excerpt(rule), None);
    /// ```
    pub fn excerpt<'t>(&self, text: &'t str) -> Option<&'t str> {
        excerpt(self.start, self.end, text)
    }
}

impl fmt::Display for Report {
    fn fmt(&self, f: &mut fmt::Formatter) -> fmt::Result {
        write!(f, "{}..{}: {}", self.start, self.end, self.message)
    }
}

/// A [`Report`] whose message stands in the lent buffer.
#[derive(Clone, Copy, Debug, PartialEq, Eq, Hash)]
pub struct ReportRef<'a> {
    /// Where the offending part of the rule's text starts.
    pub start: u32,
    /// Where it ends.
    pub end: u32,
    /// What is wrong there.
    pub message: &'a str,
}

impl ReportRef<'_> {
    /// The part of the rule's text that the report is about, as [`Report::excerpt`] says.
    pub fn excerpt<'t>(&self, text: &'t str) -> Option<&'t str> {
        excerpt(self.start, self.end, text)
    }

    /// A copy of its own.
    pub fn to_report(self) -> Report {
        Report { start: self.start, end: self.end, message: self.message.to_string() }
    }
}

fn excerpt(start: u32, end: u32, text: &str) -> Option<&str> {
    text.get(start.try_into().ok()?..end.try_into().ok()?)
}

/// The reports at the beginning of a buffer, one after the other, without allocation.
///
/// ```
/// use dogwood_check::Reports;
///
/// // start 0, end 8, a message of 2 bytes; what stands behind the reports does not matter
/// let buffer = [0, 0, 0, 0, 0, 0, 0, 8, 0, 2, b'h', b'i', 0xFF, 0xFF];
/// let mut reports = Reports::new(&buffer, 1)?;
/// assert_eq!(reports.next().map(|report| report.message), Some("hi"));
/// assert_eq!(reports.next(), None);
/// # Ok::<(), dogwood_check::DecodeError>(())
/// ```
#[derive(Clone, Debug)]
pub struct Reports<'a> {
    rest: &'a [u8],
    left: usize,
}

impl<'a> Reports<'a> {
    /// The first `count` reports of a buffer that [`check_into`](crate::check_into) or
    /// [`sums_into`](crate::sums_into) has filled. Bytes that are not as many whole reports are an error; the library
    /// leaves no such buffer.
    pub fn new(buffer: &'a [u8], count: usize) -> Result<Reports<'a>, DecodeError> {
        let mut rest = buffer;
        for index in 0..count {
            (_, rest) = first(rest).ok_or(DecodeError::Report { index })?;
        }
        Ok(Reports { rest: buffer, left: count })
    }
}

impl<'a> Iterator for Reports<'a> {
    type Item = ReportRef<'a>;

    fn next(&mut self) -> Option<ReportRef<'a>> {
        self.left = self.left.checked_sub(1)?;
        let (report, rest) = first(self.rest)?;
        self.rest = rest;
        Some(report)
    }

    fn size_hint(&self) -> (usize, Option<usize>) {
        (self.left, Some(self.left))
    }
}

impl ExactSizeIterator for Reports<'_> {}

impl std::iter::FusedIterator for Reports<'_> {}

/// The report at the front, and what stands behind it: start and end in 32 bits each, the message's length in 16, the
/// message.
fn first(bytes: &[u8]) -> Option<(ReportRef<'_>, &[u8])> {
    let (start, rest) = bytes.split_first_chunk()?;
    let (end, rest) = rest.split_first_chunk()?;
    let (length, rest) = rest.split_first_chunk()?;
    let (message, rest) = rest.split_at_checked(u16::from_be_bytes(*length).into())?;
    let message = std::str::from_utf8(message).ok()?;
    Some((ReportRef { start: u32::from_be_bytes(*start), end: u32::from_be_bytes(*end), message }, rest))
}
