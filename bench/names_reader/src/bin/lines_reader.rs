//! Reads files of JSON Lines, each line as a value, and counts them: as a Rust programmer would who wants any of their members.

use serde_json::Value;
use std::fs::File;
use std::io::{BufRead, BufReader};

fn main() {
    let mut lines = 0u64;
    for name in std::env::args().skip(1) {
        let file = BufReader::new(File::open(name).expect("the file opens"));
        for line in file.lines() {
            let value: Value = serde_json::from_str(&line.expect("the file is text")).expect("the line is JSON");
            lines += u64::from(value.is_object());
        }
    }
    println!("{lines}");
}
