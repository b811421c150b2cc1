//! Bytes of texts and of files, by the signatures of the crate `wat`.

use crate::snippet::Escaped;
use crate::{encode, Fault};
use std::borrow::Cow;
use std::ffi::OsString;
use std::path::{Path, PathBuf};
use std::{error, fmt, fs, io, str};

/// What binary modules begin with (binary format, modules).
const MAGIC: &[u8] = b"\0asm";

/// Why there are no bytes: a fault of the text, or a file that cannot be read.
#[derive(Debug)]
enum Cause {
    Fault(Fault),
    Read(io::Error),
}

/// Why [`parse_str`], [`parse_bytes`] or [`parse_file`] returns no bytes.
///
/// It is printed in one line: the file if there is one, the line and the column, and what is wrong.
/// `{:#}` prints the line of the text too, as [`Fault`] does. Control characters are printed as escapes.
///
/// # Example
///
/// ```
/// let mut error = rigyomad::parse_str("(module (start $f))").unwrap_err();
/// assert_eq!(error.fault().map(|fault| fault.kind()), Some(rigyomad::Kind::Unknown));
/// error.set_path("a.wat");
/// assert_eq!(error.to_string(), "a.wat:1:16: unknown func: failed to find name `$f`");
/// ```
#[derive(Debug)]
pub struct Error {
    path: Option<PathBuf>,
    cause: Cause,
}

/// What [`parse_str`], [`parse_bytes`] and [`parse_file`] return. The other calls return a [`Fault`].
pub type Result<T, E = Error> = std::result::Result<T, E>;

impl Error {
    /// Returns the fault of the text. Returns `None` if a file cannot be read.
    pub fn fault(&self) -> Option<&Fault> {
        match &self.cause {
            Cause::Fault(fault) => Some(fault),
            Cause::Read(_) => None,
        }
    }

    /// Returns why a file cannot be read. Returns `None` if the module has an error.
    pub fn io_error(&self) -> Option<&io::Error> {
        match &self.cause {
            Cause::Fault(_) => None,
            Cause::Read(error) => Some(error),
        }
    }

    /// Returns the file of the text, if it is known.
    pub fn path(&self) -> Option<&Path> {
        self.path.as_deref()
    }

    /// Sets the file of the text, which is printed before the place.
    pub fn set_path<P: AsRef<Path>>(&mut self, path: P) {
        self.path = Some(path.as_ref().to_owned());
    }

    /// Why a file has no bytes; E12 if there is no memory for its name.
    fn of_file(file: &Path, cause: Cause) -> Error {
        let mut path = OsString::new();
        match path.try_reserve_exact(file.as_os_str().len()) {
            Ok(()) => path.push(file),
            Err(_) => return Error::from(Fault::out_of_memory()),
        }
        Error { path: Some(PathBuf::from(path)), cause }
    }
}

impl From<Fault> for Error {
    fn from(fault: Fault) -> Error {
        Error { path: None, cause: Cause::Fault(fault) }
    }
}

impl fmt::Display for Error {
    fn fmt(&self, f: &mut fmt::Formatter<'_>) -> fmt::Result {
        match (&self.cause, &self.path) {
            (Cause::Fault(fault), path) => fault.fmt_in(f, path.as_deref()),
            (Cause::Read(error), Some(path)) => {
                write!(f, "cannot read {}: {}", Escaped(path.display()), Escaped(error))
            }
            (Cause::Read(error), None) => write!(f, "cannot read: {}", Escaped(error)),
        }
    }
}

impl error::Error for Error {
    /// Returns why a file cannot be read, which is printed already.
    fn source(&self) -> Option<&(dyn error::Error + 'static)> {
        match &self.cause {
            Cause::Fault(_) => None,
            Cause::Read(error) => Some(error),
        }
    }
}

/// Whether bytes are a module in the binary format.
fn is_binary(bytes: &[u8]) -> bool {
    bytes.starts_with(MAGIC)
}

/// The bytes of the module of a text, if it is UTF-8.
fn encode_bytes(bytes: &[u8]) -> Result<Vec<u8>, Fault> {
    match str::from_utf8(bytes) {
        Ok(text) => encode(text),
        Err(error) => {
            let text = str::from_utf8(&bytes[..error.valid_up_to()]).unwrap_or_default();
            Err(Fault::not_utf8(text))
        }
    }
}

/// Returns the bytes of the module of a text, as [`encode`] does.
///
/// # Example
///
/// ```
/// # fn main() -> Result<(), rigyomad::Error> {
/// assert_eq!(rigyomad::parse_str("(module)")?, b"\0asm\x01\0\0\0");
/// # Ok(())
/// # }
/// ```
///
/// # Errors
///
/// The fault of the text, with the errors of [`encode`].
///
/// # Panics
///
/// If the archive is another than this crate needs ([`VERSION`](crate::VERSION)).
pub fn parse_str<S: AsRef<str>>(text: S) -> Result<Vec<u8>> {
    Ok(encode(text.as_ref())?)
}

/// Returns the bytes of the module of a text; bytes that begin with `\0asm` are a binary module
/// already, and are returned as they are.
///
/// # Example
///
/// ```
/// # fn main() -> Result<(), rigyomad::Error> {
/// use std::borrow::Cow;
/// let bytes = rigyomad::parse_bytes(b"(module)")?;
/// assert!(matches!(rigyomad::parse_bytes(&bytes)?, Cow::Borrowed(same) if same == &*bytes));
/// # Ok(())
/// # }
/// ```
///
/// # Errors
///
/// As [`parse_str`]. Bytes that are not UTF-8 are [`Kind::Malformed`](crate::Kind::Malformed).
///
/// # Panics
///
/// As [`parse_str`].
pub fn parse_bytes(bytes: &[u8]) -> Result<Cow<'_, [u8]>> {
    if is_binary(bytes) {
        return Ok(Cow::Borrowed(bytes));
    }
    Ok(Cow::Owned(encode_bytes(bytes)?))
}

/// Returns the bytes of the module of a file, as [`parse_bytes`] does.
///
/// # Example
///
/// ```
/// let error = rigyomad::parse_file("no/file.wat").unwrap_err();
/// assert!(error.to_string().starts_with("cannot read no/file.wat: "));
/// ```
///
/// # Errors
///
/// As [`parse_bytes`], and if the file cannot be read. The error has the path of the file.
///
/// # Panics
///
/// As [`parse_str`].
pub fn parse_file<P: AsRef<Path>>(file: P) -> Result<Vec<u8>> {
    let file = file.as_ref();
    let bytes = fs::read(file).map_err(|error| Error::of_file(file, Cause::Read(error)))?;
    if is_binary(&bytes) {
        return Ok(bytes);
    }
    encode_bytes(&bytes).map_err(|fault| Error::of_file(file, Cause::Fault(fault)))
}
