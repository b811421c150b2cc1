//! The calls of the archive. A reference is never null, and a slice has its length, so that they need no test.
//!
//! Each call first checks, once in a program, that the archive has the declarations of this file.

use crate::VERSION;
use std::sync::atomic::{AtomicBool, Ordering};

/// What was asked for is there.
pub(crate) const DONE: u32 = 0;

/// It does not fit.
pub(crate) const SHORT: u32 = 1;

/// The module has an error.
pub(crate) const FAULT: u32 = 2;

/// Nothing has the name.
pub(crate) const UNKNOWN: u32 = 5;

/// What is wrong with a text, and where.
#[repr(C)]
#[derive(Default)]
pub(crate) struct Diagnosis {
    pub(crate) number: u32,
    pub(crate) offset: usize,
    pub(crate) line: usize,
    pub(crate) column: usize,
    pub(crate) size: usize,
    pub(crate) end_offset: usize,
}

/// A name, and what it denotes.
#[repr(C)]
#[derive(Clone, Copy, Default)]
pub(crate) struct Name {
    pub(crate) space: u32,
    pub(crate) number: u32,
    pub(crate) offset: usize,
    pub(crate) start: usize,
    pub(crate) size: usize,
}

/// How much room names need.
#[repr(C)]
#[derive(Default)]
pub(crate) struct Room {
    pub(crate) names: usize,
    pub(crate) bytes: usize,
}

extern "C" {
    fn rigyomad_c_version() -> u32;
    fn rigyomad_c_encode(
        text: *const u8,
        text_size: usize,
        out: *mut u8,
        out_size: usize,
        size: *mut usize,
    ) -> u32;
    fn rigyomad_c_fault(
        text: *const u8,
        text_size: usize,
        message: *mut u8,
        message_size: usize,
        diagnosis: *mut Diagnosis,
    ) -> u32;
    fn rigyomad_c_resolve(
        text: *const u8,
        text_size: usize,
        space: u32,
        name: *const u8,
        name_size: usize,
        number: *mut u32,
    ) -> u32;
    fn rigyomad_c_names(
        text: *const u8,
        text_size: usize,
        names: *mut Name,
        names_count: usize,
        bytes: *mut u8,
        bytes_size: usize,
        room: *mut Room,
    ) -> u32;
}

/// The number of the archive's declarations.
pub(crate) fn version() -> u32 {
    // SAFETY: it takes nothing.
    unsafe { rigyomad_c_version() }
}

/// Panics if declarations of this number are not those of this file.
fn expect_version(number: u32) {
    assert!(
        number == VERSION,
        "librigyomad.a has declarations of number {number}, and the crate rigyomad {} needs \
         number {VERSION}: link the archive of the same version",
        env!("CARGO_PKG_VERSION")
    );
}

/// Panics if the archive has other declarations than this file. It asks the archive once.
pub(crate) fn check_version() {
    static IS_CHECKED: AtomicBool = AtomicBool::new(false);
    if !IS_CHECKED.load(Ordering::Relaxed) {
        expect_version(version());
        IS_CHECKED.store(true, Ordering::Relaxed);
    }
}

/// The status, and the size of the bytes.
pub(crate) fn encode(text: &str, out: &mut [u8]) -> (u32, usize) {
    check_version();
    let mut size = 0;
    // SAFETY: the pointers are those of slices and of a place, which last for the call; the ones that are written to are lent to
    // nobody else.
    let status = unsafe {
        rigyomad_c_encode(text.as_ptr(), text.len(), out.as_mut_ptr(), out.len(), &mut size)
    };
    (status, size)
}

/// The status, and what is wrong.
pub(crate) fn fault(text: &str, message: &mut [u8]) -> (u32, Diagnosis) {
    check_version();
    let mut at = Diagnosis::default();
    // SAFETY: as in `encode`.
    let status = unsafe {
        rigyomad_c_fault(text.as_ptr(), text.len(), message.as_mut_ptr(), message.len(), &mut at)
    };
    (status, at)
}

/// The status, and the number.
pub(crate) fn resolve(text: &str, space: u32, name: &str) -> (u32, u32) {
    check_version();
    let mut number = 0;
    // SAFETY: as in `encode`.
    let status = unsafe {
        rigyomad_c_resolve(text.as_ptr(), text.len(), space, name.as_ptr(), name.len(), &mut number)
    };
    (status, number)
}

/// The status, and the room that all names need.
pub(crate) fn names(text: &str, names: &mut [Name], bytes: &mut [u8]) -> (u32, Room) {
    check_version();
    let mut room = Room::default();
    // SAFETY: as in `encode`.
    let status = unsafe {
        rigyomad_c_names(
            text.as_ptr(),
            text.len(),
            names.as_mut_ptr(),
            names.len(),
            bytes.as_mut_ptr(),
            bytes.len(),
            &mut room,
        )
    };
    (status, room)
}

#[cfg(test)]
mod tests {
    use super::{check_version, expect_version};

    #[test]
    fn archive_has_these_declarations() {
        check_version();
    }

    #[test]
    #[should_panic(expected = "librigyomad.a has declarations of number 3, and the crate rigyomad")]
    fn other_declarations_are_refused() {
        expect_version(3);
    }
}
