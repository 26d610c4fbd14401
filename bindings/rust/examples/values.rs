//! Indexes a file once, then prints the value of each pointer (RFC 6901) that stands on a line of standard input, and what the
//! look-ups cost: `cargo run --release --example values FILE`.

use jx::{Index, Settings};
use std::error::Error;
use std::io::{self, BufRead, Write};
use std::time::{Duration, Instant};
use std::{env, fs};

fn main() -> Result<(), Box<dyn Error>> {
    let file = env::args_os().nth(1).ok_or("values FILE")?;
    let text = fs::read(file)?;
    let started = Instant::now();
    let index = Index::new(&text, Settings::default())?;
    let made = started.elapsed();
    let mut out = io::stdout().lock();
    let mut count = 0;
    let mut spent = Duration::ZERO;
    for pointer in io::stdin().lock().lines() {
        let pointer = pointer?;
        let started = Instant::now();
        let found = index.find(&pointer);
        spent += started.elapsed();
        count += 1;
        match found {
            Ok(value) => out.write_all(value.bytes)?,
            Err(fault) => write!(out, "{pointer}: {fault}")?,
        }
        writeln!(out)?;
    }
    eprintln!("indexed in {made:?}, {count} look-ups in {spent:?}");
    Ok(())
}
