//! The fields of a record, written one after the other.

use super::{Class, EncodeError, Encoded, Problem, Within, MOST_BYTES, MOST_TEXT};
use crate::Span;

/// A record so far.
pub(crate) struct Writer {
    bytes: Vec<u8>,
    /// The version that is written.
    version: u8,
    /// The lowest version that has room for all that was said so far.
    needed: u8,
}

impl Writer {
    /// A record's mark and version, what `fields` writes, and a look at the size. It is of the lowest version that has
    /// room for all that is said; where that is not the first, it is written again, to see that nothing is left out.
    pub(crate) fn record(mark: &[u8; 3], fields: impl Fn(&mut Writer) -> Encoded) -> Result<Vec<u8>, EncodeError> {
        let mut out = Writer::begin(mark, 1);
        fields(&mut out)?;
        if out.needed > 1 {
            out = Writer::begin(mark, out.needed);
            fields(&mut out)?;
        }
        if out.bytes.len() > MOST_BYTES {
            return Err(Problem::TooLong { bytes: out.bytes.len() }.into());
        }
        Ok(out.bytes)
    }

    /// What `fields` writes, without a mark and a version.
    pub(crate) fn part(fields: impl FnOnce(&mut Writer) -> Encoded) -> Result<Vec<u8>, EncodeError> {
        let mut out = Writer { bytes: Vec::new(), version: 1, needed: 1 };
        fields(&mut out)?;
        Ok(out.bytes)
    }

    fn begin(mark: &[u8; 3], version: u8) -> Writer {
        Writer { bytes: [mark.as_slice(), &[0, version]].concat(), version, needed: 1 }
    }

    /// What the versions from this one on have room for follows.
    pub(crate) fn said(&mut self, version: u8) {
        self.needed = self.needed.max(version);
    }

    /// What the versions from this one on have room for does not follow, which is a problem in these.
    pub(crate) fn left_out(&self, version: u8, missing: Problem) -> Encoded {
        if self.version >= version {
            return Err(missing.into());
        }
        Ok(())
    }

    pub(crate) fn byte(&mut self, byte: u8) {
        self.bytes.push(byte);
    }

    fn number16(&mut self, number: u16) {
        self.bytes.extend(number.to_be_bytes());
    }

    pub(crate) fn number64(&mut self, number: i64) {
        self.bytes.extend(number.to_be_bytes());
    }

    pub(crate) fn span(&mut self, span: Span) {
        self.bytes.extend(span.start.to_be_bytes());
        self.bytes.extend(span.end.to_be_bytes());
    }

    /// A string: its length, then its bytes.
    pub(crate) fn text(&mut self, class: Class, text: &str) -> Encoded {
        if !class.holds(text) {
            return Err(Problem::OutsideClass { text: text.to_string(), class }.into());
        }
        let length = u8::try_from(text.len()).map_err(|_| Problem::TextTooLong { text: text.to_string() })?;
        self.byte(length);
        self.bytes.extend(text.as_bytes());
        Ok(())
    }

    /// A list: its 8-bit count, then its entries. `what` names them in the plural.
    pub(crate) fn list<T>(
        &mut self,
        what: &'static str,
        entries: impl IntoIterator<Item = T, IntoIter: ExactSizeIterator>,
        write: impl FnMut(&mut Writer, T) -> Encoded,
    ) -> Encoded {
        let entries = entries.into_iter();
        let count = u8::try_from(entries.len()).map_err(|_| too_many(what, entries.len(), MOST_TEXT))?;
        self.byte(count);
        self.all(entries, write)
    }

    /// A list with a 16-bit count.
    pub(crate) fn long_list<T>(
        &mut self,
        what: &'static str,
        entries: &[T],
        write: impl FnMut(&mut Writer, &T) -> Encoded,
    ) -> Encoded {
        let count = u16::try_from(entries.len()).map_err(|_| too_many(what, entries.len(), u16::MAX.into()))?;
        self.number16(count);
        self.all(entries.iter(), write)
    }

    fn all<T>(
        &mut self,
        mut entries: impl Iterator<Item = T>,
        mut write: impl FnMut(&mut Writer, T) -> Encoded,
    ) -> Encoded {
        entries.try_for_each(|entry| write(self, entry))
    }

    /// A list of strings of one class, in the order given.
    pub(crate) fn texts(&mut self, what: &'static str, class: Class, texts: &[String]) -> Encoded {
        self.list(what, texts, |out, text| out.text(class, text)).within(|| format!("the {what}"))
    }

    /// A list of path names, sorted.
    pub(crate) fn names(&mut self, what: &'static str, names: &[String]) -> Encoded {
        let names = sorted(names, |name| name.as_str(), |name| name.clone());
        names
            .and_then(|names| self.list(what, names, |out, name| out.text(Class::PathName, name)))
            .within(|| format!("the {what}"))
    }
}

fn too_many(what: &'static str, count: usize, most: usize) -> EncodeError {
    Problem::TooMany { what, count, most }.into()
}

/// The entries in the order of their keys, which must differ; `name` is what an error calls one.
pub(crate) fn sorted<'t, T, K: Ord>(
    entries: &'t [T],
    key: impl Fn(&'t T) -> K,
    name: impl Fn(&T) -> String,
) -> Result<Vec<&'t T>, EncodeError> {
    let mut all: Vec<&T> = entries.iter().collect();
    all.sort_by_key(|entry| key(entry));
    match all.windows(2).find(|pair| key(pair[0]) == key(pair[1])) {
        Some(pair) => Err(Problem::Repeated { name: name(pair[0]) }.into()),
        None => Ok(all),
    }
}
