//! Prints what the archive returns of texts, for tools/test doors: answers < TEXTS. A line of each has
//! hexadecimal digits: those of a text, and those of its module, or the number, offset, line and
//! column of its fault and the digits of the message.

use std::io::BufRead;

fn hex(bytes: &[u8]) -> String {
    bytes.iter().map(|byte| format!("{byte:02x}")).collect()
}

fn unhex(digits: &str) -> Vec<u8> {
    let at = |i: usize| u8::from_str_radix(&digits[2 * i..2 * i + 2], 16).unwrap();
    (0..digits.len() / 2).map(at).collect()
}

fn main() {
    for line in std::io::stdin().lock().lines() {
        match rigyomad::parse_bytes(&unhex(&line.unwrap())) {
            Ok(module) => println!("{}", hex(&module)),
            Err(error) => {
                let fault = error.fault().unwrap();
                let place = fault.place().map_or((0, 0, 0), |it| (it.offset, it.line, it.column));
                let number = fault.number().unwrap_or(0);
                let message = hex(fault.message().as_bytes());
                println!("{number} {} {} {} {message}", place.0, place.1, place.2);
            }
        }
    }
}
