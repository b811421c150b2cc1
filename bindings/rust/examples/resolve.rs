//! Prints the index of what a function's name denotes in the module of a text: resolve TEXT NAME.

use rigyomad::{resolve, Space};
use std::env;

fn main() -> Result<(), rigyomad::Fault> {
    let words: Vec<String> = env::args().collect();
    if let [_, text, name] = words.as_slice() {
        match resolve(text, Space::Func, name)? {
            Some(number) => println!("{number}"),
            None => println!("nothing has this name"),
        }
    }
    Ok(())
}
