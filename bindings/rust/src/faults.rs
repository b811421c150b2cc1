//! What is wrong with a text.

use crate::archive::Diagnosis;
use crate::room;
use crate::snippet::{Escaped, Snippet};
use std::borrow::Cow;
use std::error::Error;
use std::ops::Range;
use std::path::Path;
use std::{fmt, iter};

/// A place in a text.
#[derive(Clone, Copy, Debug, PartialEq, Eq, Hash)]
pub struct Place {
    /// Bytes before it.
    pub offset: usize,
    /// Its line, from 1.
    pub line: usize,
    /// Its column in bytes, from 1.
    pub column: usize,
}

impl fmt::Display for Place {
    fn fmt(&self, f: &mut fmt::Formatter<'_>) -> fmt::Result {
        write!(f, "{}:{}", self.line, self.column)
    }
}

/// What kind of fault a text has. E1 to E9 and E11 have a place, and so has malformed text. No text
/// has E13, because the reader refuses a component as malformed.
#[derive(Clone, Copy, Debug, PartialEq, Eq, Hash)]
#[non_exhaustive]
pub enum Kind {
    /// The text is not a module: the reader does not accept it, or it is not UTF-8.
    Malformed = 0,
    /// E1: an import comes after a definition.
    ImportAfter = 1,
    /// E2: two items of one index space, or two locals, have the same id.
    Duplicate = 2,
    /// E3: two fields of a struct have the same id.
    DuplicateField = 3,
    /// E4: nothing has this name.
    Unknown = 4,
    /// E5: a type use has a type that is not a function type.
    NotFunc = 5,
    /// E6: a type index is out of bounds.
    OutOfBounds = 6,
    /// E7: an inline type is not the type at the index.
    NoMatch = 7,
    /// E8: the label at the end of a block is not that at its start.
    Labels = 8,
    /// E9: a field is accessed by name, but the type has no named fields.
    NoNamedFields = 9,
    /// E10: a count or a size does not fit in 32 bits.
    TooLarge = 10,
    /// E11: an unsupported construct, which resolves but cannot be encoded.
    Uncovered = 11,
    /// E12: allocation failed.
    Memory = 12,
    /// E13: the module is a component, not a core module.
    Component = 13,
}

impl Kind {
    /// Those that have a number, in its order.
    const NUMBERED: [Kind; 13] = [
        Kind::ImportAfter,
        Kind::Duplicate,
        Kind::DuplicateField,
        Kind::Unknown,
        Kind::NotFunc,
        Kind::OutOfBounds,
        Kind::NoMatch,
        Kind::Labels,
        Kind::NoNamedFields,
        Kind::TooLarge,
        Kind::Uncovered,
        Kind::Memory,
        Kind::Component,
    ];

    /// Returns the number of the kind: 1 for E1, and so on to 13. Returns `None` for
    /// [`Kind::Malformed`].
    pub fn number(self) -> Option<u32> {
        Some(self as u32).filter(|number| *number != 0)
    }

    /// Returns what the kind says of any text that has it. [`Fault::message`] says it of one text.
    pub fn text(self) -> &'static str {
        match self {
            Kind::Malformed => "the text is not a module",
            Kind::ImportAfter => "an import comes after a definition",
            Kind::Duplicate => "two items of one index space, or two locals, have the same id",
            Kind::DuplicateField => "two fields of a struct have the same id",
            Kind::Unknown => "nothing has this name",
            Kind::NotFunc => "a type use has a type that is not a function type",
            Kind::OutOfBounds => "a type index is out of bounds",
            Kind::NoMatch => "an inline type is not the type at the index",
            Kind::Labels => "the label at the end of a block is not that at its start",
            Kind::NoNamedFields => "a field is accessed by name, but the type has no named fields",
            Kind::TooLarge => "a count or a size does not fit in 32 bits",
            Kind::Uncovered => "an unsupported construct, which resolves but cannot be encoded",
            Kind::Memory => "allocation failed",
            Kind::Component => "the module is a component, not a core module",
        }
    }

    /// The kind of a number: that of malformed text for 0.
    fn of(number: u32) -> Kind {
        Kind::NUMBERED
            .iter()
            .copied()
            .find(|kind| *kind as u32 == number)
            .unwrap_or(Kind::Malformed)
    }
}

impl fmt::Display for Kind {
    fn fmt(&self, f: &mut fmt::Formatter<'_>) -> fmt::Result {
        f.pad(self.text())
    }
}

/// Why a text has no bytes.
///
/// It is printed in one line, with the line and the column of its place. `{:#}` prints more lines:
/// the line of the text too, at most 120 bytes of it, with a caret and tildes below the token. Both
/// print control characters as escapes, such as `\n` or `\u{1b}`, because a name in the text may have
/// them.
///
/// # Example
///
/// ```
/// let fault = rigyomad::encode("(module\n  (start $f))").unwrap_err();
/// assert_eq!(fault.kind(), rigyomad::Kind::Unknown);
/// assert_eq!(fault.message(), "unknown func: failed to find name `$f`");
/// assert_eq!(fault.span(), Some(17..19));
/// assert_eq!(fault.to_string(), "2:10: unknown func: failed to find name `$f`");
/// let shown = "\
/// unknown func: failed to find name `$f`
///  --> 2:10
///   |
/// 2 |   (start $f))
///   |          ^~";
/// assert_eq!(format!("{fault:#}"), shown);
/// ```
#[derive(Clone, Debug, PartialEq, Eq)]
pub struct Fault {
    kind: Kind,
    place: Option<(Place, Snippet)>,
    /// The offset of the end of the token at the place.
    end: usize,
    message: Cow<'static, str>,
}

/// How many decimal digits a number has.
fn digits(number: usize) -> usize {
    iter::successors(Some(number / 10), |rest| Some(rest / 10)).take_while(|rest| *rest > 0).count()
        + 1
}

impl Fault {
    /// Returns what kind of fault it is.
    pub fn kind(&self) -> Kind {
        self.kind
    }

    /// Returns the number of the fault: 1 for E1, and so on to 13, as in [`Kind`]. Returns `None`
    /// if the text is not a module.
    pub fn number(&self) -> Option<u32> {
        self.kind.number()
    }

    /// Returns the place of the fault, if it has one.
    pub fn place(&self) -> Option<Place> {
        self.place.as_ref().map(|(place, _)| *place)
    }

    /// Returns the part of the text that the fault is about, as offsets of bytes: mostly a token. It
    /// is empty at the end of the text. Returns `None` if the fault has no place.
    pub fn span(&self) -> Option<Range<usize>> {
        self.place().map(|place| place.offset..self.end.max(place.offset))
    }

    /// Returns what is wrong, without the place. A name in it is as in the text, without escapes.
    pub fn message(&self) -> &str {
        &self.message
    }

    /// Allocation failed. It does not allocate.
    pub(crate) fn out_of_memory() -> Fault {
        let message = Cow::Borrowed("out of memory");
        Fault { kind: Kind::Memory, place: None, end: 0, message }
    }

    /// The fault of a text by its diagnosis, with its message; E12 if there is no memory for it.
    pub(crate) fn new(text: &str, at: &Diagnosis, message: &[u8]) -> Fault {
        let place = Place { offset: at.offset, line: at.line, column: at.column };
        let place = Some(place).filter(|place| place.line != 0);
        Fault::try_new(text, Kind::of(at.number), place, at.end_offset, message)
            .unwrap_or_else(|out_of_memory| out_of_memory)
    }

    /// A fault of a text, with a copy of its message and of its line.
    fn try_new(
        text: &str,
        kind: Kind,
        place: Option<Place>,
        end: usize,
        message: &[u8],
    ) -> Result<Fault, Fault> {
        let message = Cow::Owned(room::owned(message)?);
        let place = match place {
            Some(place) => Some((place, Snippet::new(text, place.offset..end)?)),
            None => None,
        };
        Ok(Fault { kind, place, end, message })
    }

    /// Bytes are not UTF-8 after this text; E12 if there is no memory to say so.
    pub(crate) fn not_utf8(text: &str) -> Fault {
        let line_start = text.rfind('\n').map_or(0, |newline| newline + 1);
        let place = Place {
            offset: text.len(),
            line: text.bytes().filter(|byte| *byte == b'\n').count() + 1,
            column: text.len() - line_start + 1,
        };
        let end = text.len();
        Fault::try_new(text, Kind::Malformed, Some(place), end, b"malformed UTF-8 encoding")
            .unwrap_or_else(|out_of_memory| out_of_memory)
    }

    /// Prints it as `{}` and `{:#}` do, as a fault of a file if there is one.
    pub(crate) fn fmt_in(&self, f: &mut fmt::Formatter<'_>, file: Option<&Path>) -> fmt::Result {
        if f.alternate() {
            return self.fmt_lines(f, file);
        }
        if let Some(file) = file {
            write!(f, "{}:", Escaped(file.display()))?;
        }
        let message = Escaped(&self.message);
        match &self.place {
            Some((place, _)) => write!(f, "{place}: {message}"),
            None if file.is_some() => write!(f, " {message}"),
            None => write!(f, "{message}"),
        }
    }

    /// Prints the message, the place and the line of the place, with a caret and tildes below the token.
    fn fmt_lines(&self, f: &mut fmt::Formatter<'_>, file: Option<&Path>) -> fmt::Result {
        write!(f, "{}", Escaped(&self.message))?;
        let margin = self.place().map_or(1, |place| digits(place.line));
        if file.is_some() || self.place.is_some() {
            write!(f, "\n{:margin$}--> ", "")?;
        }
        if let Some(file) = file {
            let colon = if self.place.is_some() { ":" } else { "" };
            write!(f, "{}{colon}", Escaped(file.display()))?;
        }
        if let Some((place, snippet)) = &self.place {
            writeln!(f, "{place}\n{:margin$} |", "")?;
            writeln!(f, "{} | {}", place.line, snippet.line())?;
            write!(f, "{:margin$} | {}{}", "", snippet.blanks(), snippet.marks())?;
        }
        Ok(())
    }
}

impl fmt::Display for Fault {
    fn fmt(&self, f: &mut fmt::Formatter<'_>) -> fmt::Result {
        self.fmt_in(f, None)
    }
}

impl Error for Fault {}

#[cfg(test)]
mod tests {
    use super::{digits, Diagnosis, Fault};

    #[test]
    fn fault_without_a_line_has_no_place() {
        let at = Diagnosis { number: 10, ..Diagnosis::default() };
        let fault = Fault::new("(module)", &at, b"too large");
        assert_eq!((fault.place(), fault.number()), (None, Some(10)));
        assert_eq!(
            (fault.to_string(), format!("{fault:#}")),
            ("too large".into(), "too large".into())
        );
    }

    #[test]
    fn end_before_the_place_is_an_empty_span() {
        let at = Diagnosis { offset: 3, line: 1, column: 4, ..Diagnosis::default() };
        assert_eq!(Fault::new("(module)", &at, b"a").span(), Some(3..3));
    }

    #[test]
    fn numbers_have_digits() {
        assert_eq!([1, 9, 10, 99, 100, 12_345].map(digits), [1, 1, 2, 2, 3, 5]);
    }
}
