//! What the names of a text denote.

use crate::archive::{self, Room};
use crate::{fault, room, Fault};
use std::fmt;

/// An index space of a module (text format, indices).
#[derive(Clone, Copy, Debug, PartialEq, Eq, Hash)]
#[non_exhaustive]
pub enum Space {
    /// Functions.
    Func,
    /// Tables.
    Table,
    /// Memories.
    Memory,
    /// Globals.
    Global,
    /// Tags.
    Tag,
    /// Element segments.
    Elem,
    /// Data segments.
    Data,
    /// Types.
    Type,
}

impl Space {
    /// All eight index spaces, in the order in which [`names`] lists them.
    pub const ALL: [Space; 8] = [
        Space::Func,
        Space::Table,
        Space::Memory,
        Space::Global,
        Space::Tag,
        Space::Elem,
        Space::Data,
        Space::Type,
    ];

    /// Returns the word for an item of the space, as messages have it: `func`, .., `type`.
    pub fn word(self) -> &'static str {
        match self {
            Space::Func => "func",
            Space::Table => "table",
            Space::Memory => "memory",
            Space::Global => "global",
            Space::Tag => "tag",
            Space::Elem => "elem",
            Space::Data => "data",
            Space::Type => "type",
        }
    }
}

impl fmt::Display for Space {
    fn fmt(&self, f: &mut fmt::Formatter<'_>) -> fmt::Result {
        f.pad(self.word())
    }
}

/// A name of a text, and what it denotes (text format, indices).
#[derive(Clone, Debug, PartialEq, Eq, Hash)]
#[non_exhaustive]
pub struct Name {
    /// The index space.
    pub space: Space,
    /// The index of what it denotes.
    pub number: u32,
    /// Bytes of the text before its id, which begins with `$`.
    pub offset: usize,
    /// The name, without the `$` of its id.
    pub name: String,
}

/// Whether a byte can be in an id without quotes (text format, identifiers).
fn is_id_byte(byte: u8) -> bool {
    byte.is_ascii_graphic() && !b"\"(),;[]{}".contains(&byte)
}

/// Prints its space, its id and its index as `wat --names` does: `func $f 1`. An id that needs quotes
/// has its control characters as escapes.
impl fmt::Display for Name {
    fn fmt(&self, f: &mut fmt::Formatter<'_>) -> fmt::Result {
        write!(f, "{} ", self.space)?;
        if self.name.bytes().all(is_id_byte) {
            return write!(f, "${} {}", self.name, self.number);
        }
        write!(f, "$\"{}\" {}", self.name.escape_default(), self.number)
    }
}

/// Returns the index of what a name, without its `$`, denotes in an index space of the module of a
/// text; `None` if nothing of the space has the name.
///
/// It reads the whole text. For several names of one text, [`names`] reads it once.
///
/// # Example
///
/// ```
/// # fn main() -> Result<(), rigyomad::Fault> {
/// use rigyomad::{resolve, Space};
/// let text = "(module (func) (func $f))";
/// assert_eq!(resolve(text, Space::Func, "f")?, Some(1));
/// assert_eq!(resolve(text, Space::Table, "f")?, None);
/// # Ok(())
/// # }
/// ```
///
/// # Errors
///
/// As [`names`].
///
/// # Panics
///
/// As [`names`].
pub fn resolve(text: &str, space: Space, name: &str) -> Result<Option<u32>, Fault> {
    let (status, number) = archive::resolve(text, space as u32, name);
    match status {
        archive::DONE => Ok(Some(number)),
        archive::UNKNOWN => Ok(None),
        archive::FAULT => Err(fault(text)),
        _ => Err(Fault::out_of_memory()),
    }
}

/// As much room as the names of a text can need: an item with a name has eight bytes or more, as
/// `(tag $a)` has, and a name has no more bytes than the text.
fn first_room(text: &str) -> Room {
    Room { names: text.len() / 8, bytes: text.len() }
}

/// The name of a record.
fn name_of(record: &archive::Name, bytes: &[u8]) -> Result<Name, Fault> {
    Ok(Name {
        space: Space::ALL[record.space as usize],
        number: record.number,
        offset: record.offset,
        name: room::owned(&bytes[record.start..record.start + record.size])?,
    })
}

/// The names of records.
fn names_of(records: &[archive::Name], bytes: &[u8]) -> Result<Vec<Name>, Fault> {
    let mut names = Vec::new();
    room::reserve(&mut names, records.len())?;
    for record in records {
        names.push(name_of(record, bytes)?);
    }
    Ok(names)
}

/// Returns all names that the items of the index spaces of the module of a text have: by the space,
/// in the order of [`Space::ALL`], then by the index. It reads the text once.
///
/// # Example
///
/// ```
/// # fn main() -> Result<(), rigyomad::Fault> {
/// let names = rigyomad::names("(module (type $t (func)) (func) (func $f))")?;
/// let found: Vec<_> = names.iter().map(|it| (it.space, it.name.as_str(), it.number)).collect();
/// assert_eq!(found, [(rigyomad::Space::Func, "f", 1), (rigyomad::Space::Type, "t", 0)]);
/// # Ok(())
/// # }
/// ```
///
/// # Errors
///
/// - no number: the text is not a module;
/// - E1 to E9: a name, an index or a type of it does not resolve;
/// - E10: it is too large;
/// - E12: allocation failed, in the archive or here.
///
/// # Panics
///
/// If the archive is another than this crate needs ([`VERSION`](crate::VERSION)).
pub fn names(text: &str) -> Result<Vec<Name>, Fault> {
    let mut room = first_room(text);
    loop {
        let mut records = room::filled(room.names)?;
        let mut bytes = room::filled(room.bytes)?;
        let (status, needed) = archive::names(text, &mut records, &mut bytes);
        match status {
            archive::DONE => return names_of(&records[..needed.names], &bytes),
            archive::SHORT => room = needed,
            archive::FAULT => return Err(fault(text)),
            _ => return Err(Fault::out_of_memory()),
        }
    }
}
