//! Writes the module of the file FILE, as text or as bytes, to the file OUT, or prints what is
//! wrong and where: file FILE OUT.

use std::process::ExitCode;
use std::{env, fs};

fn convert(file: &str, out: &str) -> Result<(), String> {
    let bytes = rigyomad::parse_file(file).map_err(|error| format!("{error:#}"))?;
    fs::write(out, bytes).map_err(|error| format!("cannot write {out:?}: {error}"))
}

fn main() -> ExitCode {
    let words: Vec<String> = env::args().collect();
    let result = match words.as_slice() {
        [_, file, out] => convert(file, out),
        _ => Err("usage: file FILE OUT".to_owned()),
    };
    match result {
        Ok(()) => ExitCode::SUCCESS,
        Err(why) => {
            eprintln!("error: {why}");
            ExitCode::FAILURE
        }
    }
}
