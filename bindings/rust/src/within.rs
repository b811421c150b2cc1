//! Names of locals, labels and fields, by the name section of a module (custom sections, name
//! section).

use crate::{encode, room, Fault};
use std::fmt;

/// What begins a binary module: the magic number and the version.
const HEADER: usize = 8;

/// The id of a custom section.
const CUSTOM: u8 = 0;

/// What has a name within a function or a type.
#[derive(Clone, Copy, Debug, PartialEq, Eq, Hash)]
#[non_exhaustive]
pub enum Within {
    /// A parameter or a local of a function. Its index is that of a local.
    Local,
    /// A label of a function. Its index is that of its block, counted from 0 in the order of the
    /// text.
    Label,
    /// A field of a struct type. Its index counts the fields of the type.
    Field,
}

impl Within {
    /// All three, in the order in which [`names_within`] lists them.
    pub const ALL: [Within; 3] = [Within::Local, Within::Label, Within::Field];

    /// Returns its word, as messages have it: `local`, `label` or `field`.
    pub fn word(self) -> &'static str {
        match self {
            Within::Local => "local",
            Within::Label => "label",
            Within::Field => "field",
        }
    }

    /// Those of a part of the name section, by the id of the part.
    fn of(part: u8) -> Option<Within> {
        match part {
            2 => Some(Within::Local),
            3 => Some(Within::Label),
            10 => Some(Within::Field),
            _ => None,
        }
    }
}

impl fmt::Display for Within {
    fn fmt(&self, f: &mut fmt::Formatter<'_>) -> fmt::Result {
        f.pad(self.word())
    }
}

/// A name within a function or a type.
#[derive(Clone, Debug, PartialEq, Eq, Hash)]
#[non_exhaustive]
pub struct NameWithin {
    /// What has the name.
    pub kind: Within,
    /// The index of the function, or of the type of a field.
    pub owner: u32,
    /// The index of what has the name, within its owner.
    pub number: u32,
    /// The name, without the `$` of an id.
    pub name: String,
}

/// Why reading stops.
#[derive(Debug)]
enum Stop {
    /// The bytes are not what they should be.
    Malformed,
    /// Allocation failed.
    Fault(Fault),
}

impl From<Fault> for Stop {
    fn from(fault: Fault) -> Stop {
        Stop::Fault(fault)
    }
}

/// Bytes that are left to read (binary format, values).
struct Reader<'a>(&'a [u8]);

impl<'a> Reader<'a> {
    /// Reads a byte.
    fn byte(&mut self) -> Result<u8, Stop> {
        let (first, rest) = self.0.split_first().ok_or(Stop::Malformed)?;
        self.0 = rest;
        Ok(*first)
    }

    /// Reads a number of 32 bits in LEB128.
    fn number(&mut self) -> Result<u32, Stop> {
        let mut number = 0;
        for shift in [0, 7, 14, 21, 28] {
            let byte = self.byte()?;
            number |= u32::from(byte & 0x7f) << shift;
            if byte & 0x80 == 0 {
                return Ok(number);
            }
        }
        Err(Stop::Malformed)
    }

    /// Reads bytes after their length.
    fn bytes(&mut self) -> Result<&'a [u8], Stop> {
        let size = self.number()? as usize;
        if size > self.0.len() {
            return Err(Stop::Malformed);
        }
        let (bytes, rest) = self.0.split_at(size);
        self.0 = rest;
        Ok(bytes)
    }

    /// Reads the next section, or the next part of the name section: its id and its contents.
    fn section(&mut self) -> Result<Option<(u8, Reader<'a>)>, Stop> {
        if self.0.is_empty() {
            return Ok(None);
        }
        let id = self.byte()?;
        Ok(Some((id, Reader(self.bytes()?))))
    }
}

/// Returns the contents of the name section of a module, if it has one.
fn name_section(module: &[u8]) -> Result<Option<Reader<'_>>, Stop> {
    let mut sections = Reader(module.get(HEADER..).ok_or(Stop::Malformed)?);
    while let Some((id, mut contents)) = sections.section()? {
        if id == CUSTOM && contents.bytes()? == b"name" {
            return Ok(Some(contents));
        }
    }
    Ok(None)
}

/// Appends the names of an owner.
fn read_owner(
    kind: Within,
    reader: &mut Reader<'_>,
    names: &mut Vec<NameWithin>,
) -> Result<(), Stop> {
    let owner = reader.number()?;
    for _ in 0..reader.number()? {
        let number = reader.number()?;
        let name = room::owned(reader.bytes()?)?;
        room::reserve_more(names)?;
        names.push(NameWithin { kind, owner, number, name });
    }
    Ok(())
}

/// Appends the names of all owners in a part of the name section.
fn read_part(
    kind: Within,
    mut reader: Reader<'_>,
    names: &mut Vec<NameWithin>,
) -> Result<(), Stop> {
    for _ in 0..reader.number()? {
        read_owner(kind, &mut reader, names)?;
    }
    Ok(())
}

/// The names of locals, labels and fields in the name section of a module.
fn read_module(module: &[u8]) -> Result<Vec<NameWithin>, Stop> {
    let mut names = Vec::new();
    if let Some(mut parts) = name_section(module)? {
        while let Some((id, contents)) = parts.section()? {
            if let Some(kind) = Within::of(id) {
                read_part(kind, contents, &mut names)?;
            }
        }
    }
    Ok(names)
}

/// Returns the names of locals, labels and fields that the name section of the module of a text has:
/// by [`Within::ALL`], then by the owner, then by the index.
///
/// They are the ids of the text. If something has a name annotation, as in
/// `(local $a (@name "b") i32)`, its name is the annotation. Parameters of imported tags have none
/// in the section. If the text has a custom section `name` of its own, the names are those in it,
/// and none if it is not well formed.
///
/// # Example
///
/// ```
/// # fn main() -> Result<(), rigyomad::Fault> {
/// let text = "(module (func) (func (param i32) (local $n i64) block $done end))";
/// let names = rigyomad::names_within(text)?;
/// let found: Vec<_> = names.iter().map(|it| (it.kind.word(), it.owner, it.number)).collect();
/// assert_eq!(found, [("local", 1, 1), ("label", 1, 0)]);
/// assert_eq!((names[0].name.as_str(), names[1].name.as_str()), ("n", "done"));
/// # Ok(())
/// # }
/// ```
///
/// # Errors
///
/// As [`encode`].
///
/// # Panics
///
/// As [`encode`].
pub fn names_within(text: &str) -> Result<Vec<NameWithin>, Fault> {
    match read_module(&encode(text)?) {
        Ok(names) => Ok(names),
        Err(Stop::Malformed) => Ok(Vec::new()),
        Err(Stop::Fault(fault)) => Err(fault),
    }
}

#[cfg(test)]
mod tests {
    use super::{read_module, Reader, Stop};

    #[test]
    fn numbers_are_read_in_leb128() {
        assert_eq!(Reader(&[0x7f]).number().unwrap(), 127);
        assert_eq!(Reader(&[0xe5, 0x8e, 0x26]).number().unwrap(), 624_485);
        assert_eq!(Reader(&[0xff, 0xff, 0xff, 0xff, 0x0f]).number().unwrap(), u32::MAX);
        assert!(matches!(Reader(&[0x80; 6]).number(), Err(Stop::Malformed)));
    }

    #[test]
    fn malformed_bytes_are_refused() {
        let module = b"\0asm\x01\0\0\0\0\x0e\x04name\x02\x07\x01\x00\x01\x00\x02ab";
        assert_eq!(read_module(module).unwrap()[0].name, "ab");
        for size in (0..module.len()).filter(|size| *size != 8) {
            assert!(matches!(read_module(&module[..size]), Err(Stop::Malformed)));
        }
        for at in 0..module.len() {
            for byte in [0, 1, 0x7f, 0xff] {
                let mut changed = *module;
                changed[at] = byte;
                let _ = read_module(&changed);
            }
        }
    }
}
