//! Turns modules in the text format of WebAssembly into the bytes of the binary format.
//!
//! The build compiles C that is made of the proved code, so it needs a C compiler, and Python in a
//! clone of Rigyomad. This C has no [`script`]. To link the archive `librigyomad.a` in its place, run
//! `tools/build archive ~/rigyomad` there, and set `RIGYOMAD_LIB=~/rigyomad` for cargo. After
//! `tools/install ~/.local`, set `PKG_CONFIG_PATH=~/.local/lib/pkgconfig` in its place.
//!
//! # Example
//!
//! ```
//! # fn main() -> Result<(), rigyomad::Error> {
//! let bytes = rigyomad::parse_str("(module (func $f))")?;
//! assert_eq!(&bytes[..4], b"\0asm");
//! let error = rigyomad::parse_str("(module (start $f))").unwrap_err();
//! assert_eq!(error.to_string(), "1:16: unknown func: failed to find name `$f`");
//! # Ok(())
//! # }
//! ```
//!
//! [`parse_str`], [`parse_bytes`], [`parse_file`] and [`Result`] have the signatures of the crate
//! `wat`. Of its other names, two are missing. `Parser` has one option, which asks for DWARF: that is
//! not generated, and [`Error::set_path`] sets the path. `Detect` needs the tokens of a text, which no
//! call of the archive returns: [`parse_bytes`] accepts text and binary.
//!
//! Below these, [`encode`] returns the [`Fault`] of a text alone. [`names`] and [`resolve`] return
//! what the names of a text denote, and [`names_within`] the names of locals, labels and fields.
//!
//! The encoder is an archive whose code is proved; this crate declares its calls and lends them
//! slices. No call keeps state, so any thread may make any call. If allocation fails, a call
//! returns E12 ([`Kind::Memory`]) and does not abort; only the standard library may, while it reads
//! a file for [`parse_file`].

#![warn(missing_docs)]

mod archive;
mod faults;
mod names;
mod parse;
mod room;
pub mod script;
mod snippet;
mod within;

pub use faults::{Fault, Kind, Place};
pub use names::{names, resolve, Name, Space};
pub use parse::{parse_bytes, parse_file, parse_str, Error, Result};
pub use within::{names_within, NameWithin, Within};

/// The number of the declarations that this crate has of the calls of the archive. The first call
/// compares it with that of the archive, and panics if they differ, because a call by other
/// declarations would be undefined behaviour. A program has no need to compare them.
pub const VERSION: u32 = 2;

/// The examples of the README, as tests.
#[cfg(doctest)]
#[doc = include_str!("../README.md")]
struct Readme;

/// Enough bytes for the module of most texts of this length.
fn first_room(text: &str) -> usize {
    text.len() + 64
}

/// Why a text has no bytes, if the archive says that it has none.
fn fault(text: &str) -> Fault {
    let mut size = 256;
    loop {
        let mut message = match room::filled(size) {
            Ok(message) => message,
            Err(fault) => return fault,
        };
        let (status, at) = archive::fault(text, &mut message);
        if status != archive::FAULT {
            return Fault::out_of_memory();
        }
        if at.size <= message.len() {
            return Fault::new(text, &at, &message[..at.size]);
        }
        size = at.size;
    }
}

/// Returns the bytes of the module of a text.
///
/// # Example
///
/// ```
/// # fn main() -> Result<(), rigyomad::Fault> {
/// assert_eq!(rigyomad::encode("(module)")?, b"\0asm\x01\0\0\0");
/// # Ok(())
/// # }
/// ```
///
/// # Errors
///
/// - no number: the text is not a module;
/// - E1 to E9: a name, an index or a type of it does not resolve;
/// - E10: it is too large;
/// - E11: it has a construct that cannot be encoded;
/// - E12: allocation failed, in the archive or here.
///
/// # Panics
///
/// If the archive is another than this crate needs ([`VERSION`]).
pub fn encode(text: &str) -> Result<Vec<u8>, Fault> {
    let mut size = first_room(text);
    loop {
        let mut bytes = room::filled(size)?;
        let (status, wanted) = archive::encode(text, &mut bytes);
        match status {
            archive::DONE => {
                bytes.truncate(wanted);
                return Ok(bytes);
            }
            archive::SHORT => size = wanted,
            archive::FAULT => return Err(fault(text)),
            _ => return Err(Fault::out_of_memory()),
        }
    }
}

/// Returns the number of the archive's declarations, which is [`VERSION`] in a program that works.
pub fn version() -> u32 {
    archive::version()
}
