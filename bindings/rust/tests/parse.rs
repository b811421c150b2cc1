//! What the calls by the signatures of the crate `wat` return.

use rigyomad::{encode, parse_bytes, parse_file, parse_str, Kind, Place};
use std::borrow::Cow;
use std::error::Error;
use std::fs;
use std::path::{Path, PathBuf};

/// A text with a fault, and how it is printed.
const WRONG: &str = "(module\n  (start $f))";
const MESSAGE: &str = "2:10: unknown func: failed to find name `$f`";

/// A file of the folder of this test, with these bytes.
fn file(name: &str, bytes: &[u8]) -> PathBuf {
    let path = Path::new(env!("CARGO_TARGET_TMPDIR")).join(name);
    fs::write(&path, bytes).unwrap();
    path
}

#[test]
fn results_have_a_name() -> rigyomad::Result<()> {
    let bytes: rigyomad::Result<Vec<u8>> = parse_str("(module)");
    bytes.map(|_| ())
}

#[test]
fn text_is_encoded() {
    let bytes = encode("(module (func $f))").unwrap();
    assert_eq!(parse_str("(module (func $f))").unwrap(), bytes);
    assert_eq!(parse_str(String::from("(module (func $f))")).unwrap(), bytes);
    assert_eq!(parse_bytes(b"(module (func $f))").unwrap(), bytes);
    assert_eq!(parse_file(file("good.wat", b"(module (func $f))")).unwrap(), bytes);
}

#[test]
fn binary_module_is_passed_through() {
    let module = b"\0asm\x01\0\0\0rest";
    assert!(matches!(parse_bytes(module), Ok(Cow::Borrowed(bytes)) if bytes == module));
    assert_eq!(parse_file(file("good.wasm", module)).unwrap(), module);
    assert!(parse_bytes(b"\0as").is_err());
}

#[test]
fn fault_of_a_file_has_its_name() {
    let error = parse_str(WRONG).unwrap_err();
    assert_eq!((error.path(), error.to_string()), (None, MESSAGE.to_owned()));
    let path = file("wrong.wat", WRONG.as_bytes());
    let error = parse_file(&path).unwrap_err();
    assert_eq!(error.path(), Some(path.as_path()));
    assert_eq!(error.to_string(), format!("{}:{MESSAGE}", path.display()));
    assert!(error.fault().is_some() && error.io_error().is_none());
    let lines = format!("\n --> {}:2:10\n  |\n2 |   (start $f))\n  |          ^~", path.display());
    assert!(format!("{error:#}").ends_with(&lines));
}

#[test]
fn file_that_cannot_be_read_is_an_error() {
    let error = parse_file("no/such/file.wat").unwrap_err();
    assert!(error.fault().is_none() && error.io_error().is_some());
    assert_eq!(error.path(), Some(Path::new("no/such/file.wat")));
    let reason = error.io_error().unwrap();
    assert_eq!(error.to_string(), format!("cannot read no/such/file.wat: {reason}"));
    assert_eq!(error.source().unwrap().to_string(), reason.to_string());
    assert!(parse_str(WRONG).unwrap_err().source().is_none());
}

#[test]
fn bytes_that_are_not_utf8_have_a_place() {
    let error = parse_bytes(b"(module\n  ;;\xff\n)").unwrap_err();
    let fault = error.fault().unwrap();
    assert_eq!((fault.kind(), fault.number()), (Kind::Malformed, None));
    assert_eq!(fault.place(), Some(Place { offset: 12, line: 2, column: 5 }));
    assert_eq!(error.to_string(), "2:5: malformed UTF-8 encoding");
    let lines = " --> 2:5\n  |\n2 |   ;;\n  |     ^";
    assert_eq!(format!("{error:#}"), format!("malformed UTF-8 encoding\n{lines}"));
}

/// Numbers below a bound, by a generator of its own.
fn numbers(mut state: u64) -> impl FnMut(usize) -> usize {
    move |bound| {
        state =
            state.wrapping_mul(6_364_136_223_846_793_005).wrapping_add(1_442_695_040_888_963_407);
        (state >> 33) as usize % bound
    }
}

#[test]
fn faults_of_changed_texts_are_shown() {
    let text = "(module\n\t(func $é (param $x i32) (local.get $x))\r\n (start $é) (data \"é\"))";
    let mut below = numbers(1);
    for _ in 0..3_000 {
        let mut bytes = text.repeat(1 + below(3)).into_bytes();
        for _ in 0..1 + below(3) {
            let at = below(bytes.len());
            bytes[at] = b"()$\";\n\t 1x\xff\xc3\xa9"[below(13)];
        }
        if let Err(error) = parse_bytes(&bytes) {
            let place = error.fault().and_then(|fault| fault.place()).unwrap();
            let shown = format!("{error:#}");
            let lines: Vec<_> = shown.split('\n').collect();
            assert_eq!(lines.len(), 5, "{shown}");
            assert!(error.to_string().starts_with(&format!("{place}: ")));
            assert!(lines[3].starts_with(&format!("{} | ", place.line)) && lines[4].contains('^'));
            assert!(lines[4].chars().count() <= lines[3].chars().count() + 1);
            let span = error.fault().and_then(|fault| fault.span()).unwrap();
            assert!(span.start == place.offset && span.end <= bytes.len(), "{shown}");
            assert!(std::str::from_utf8(&bytes[span]).is_ok(), "{shown}");
        }
    }
}
