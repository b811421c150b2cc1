//! Prints the bytes of the module of a text in hexadecimal, or its fault with line and column: convert TEXT..
//! The status is 1 if a text has an error.

use std::env;
use std::process::ExitCode;

fn main() -> ExitCode {
    let mut status = ExitCode::SUCCESS;
    for text in env::args().skip(1) {
        match rigyomad::parse_str(text) {
            Ok(bytes) => {
                println!("{}", bytes.iter().map(|byte| format!("{byte:02x}")).collect::<String>());
            }
            Err(error) => {
                println!("{error}");
                status = ExitCode::FAILURE;
            }
        }
    }
    status
}
