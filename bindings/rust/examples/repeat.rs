//! Encodes the text of a file again and again, to be measured: repeat FILE COUNT.

use std::time::Instant;
use std::{env, fs};

fn main() {
    let words: Vec<String> = env::args().collect();
    let (file, count) = match words.as_slice() {
        [_, file, count] => (file, count),
        _ => panic!("usage: repeat FILE COUNT"),
    };
    let text = fs::read_to_string(file).expect("a text");
    let count: u32 = count.parse().expect("a number");
    let start = Instant::now();
    let mut size = 0;
    for _ in 0..count {
        size = rigyomad::encode(&text).expect("a module").len();
    }
    println!("{size} bytes, {:?} a time", start.elapsed() / count.max(1));
}
