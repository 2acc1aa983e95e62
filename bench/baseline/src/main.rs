//! Reads each line of a file into a tree of JSON, drops it, and prints how many lines there were.

use std::error::Error;
use std::fs::File;
use std::hint::black_box;
use std::io::{BufRead, BufReader};

fn main() -> Result<(), Box<dyn Error>> {
    let path = std::env::args_os().nth(1).ok_or("usage: baseline FILE")?;
    let mut text = BufReader::with_capacity(1 << 20, File::open(path)?);
    let mut line = Vec::new();
    let mut lines = 0_u64;
    while text.read_until(b'\n', &mut line)? != 0 {
        let value: serde_json::Value = serde_json::from_slice(&line)?;
        drop(black_box(value));
        line.clear();
        lines += 1;
    }
    println!("{lines}");
    Ok(())
}
