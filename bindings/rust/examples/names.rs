//! Prints what each name of the modules of texts denotes, as `wat --names` does: names TEXT..

use std::env;

fn main() -> Result<(), rigyomad::Fault> {
    for text in env::args().skip(1) {
        for name in rigyomad::names(&text)? {
            println!("{name}");
        }
    }
    Ok(())
}
