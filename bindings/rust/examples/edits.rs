//! The cost of edits of a file, each with its verdict, and beside them a check of all of it:
//! `cargo run --release --example edits FILE`. Places are random, and the same in each run; each edit is undone by another one.

use jx::{Document, Settings};
use std::error::Error;
use std::time::Instant;
use std::{env, fs};

/// Times in seconds, told in microseconds: the median, and the 99th of a hundred.
fn told(mut times: Vec<f64>) -> String {
    times.sort_by(f64::total_cmp);
    let at = |share: f64| times[(share * (times.len() - 1) as f64) as usize] * 1e6;
    format!("{:.0} ({:.0})", at(0.5), at(0.99))
}

/// Memory of the process that is in use, in bytes.
fn used() -> usize {
    let pages = fs::read_to_string("/proc/self/statm").unwrap_or_default();
    let resident = pages
        .split(' ')
        .nth(1)
        .and_then(|it| it.parse::<usize>().ok());
    resident.unwrap_or(0) * 4096
}

struct Edits {
    text: Vec<u8>,
    document: Document,
}

impl Edits {
    /// One edit and the verdict behind it, in seconds.
    fn time(&mut self, start: usize, end: usize, put: &[u8]) -> Result<f64, Box<dyn Error>> {
        let started = Instant::now();
        self.document.edit(start..end, put)?;
        let _ = self.document.verdict();
        Ok(started.elapsed().as_secs_f64())
    }

    /// So many places, far from each other.
    fn places(&self, count: usize) -> Vec<usize> {
        let size = self.text.len() as u64 - 1;
        let place = |at: u64| (at.wrapping_mul(0x9E37_79B9_7F4A_7C15) >> 16) % size;
        (1..=count as u64).map(|at| place(at) as usize).collect()
    }

    /// Bytes that give way to others, at random places.
    fn many(&mut self, take: usize, put: &[u8]) -> Result<String, Box<dyn Error>> {
        let mut times = Vec::new();
        for at in self.places(500) {
            times.push(self.time(at, at + take, put)?);
            let old = self.text[at..at + take].to_vec();
            self.time(at, at + put.len(), &old)?;
        }
        Ok(told(times))
    }

    /// A quote that is typed, and then closed.
    fn quotes(&mut self) -> Result<String, Box<dyn Error>> {
        let (mut open, mut closed) = (Vec::new(), Vec::new());
        for at in self.places(100) {
            open.push(self.time(at, at, b"\"")?);
            closed.push(self.time(at + 1, at + 1, b"\"")?);
            self.time(at, at + 2, b"")?;
        }
        Ok(format!("{}, closed {}", told(open), told(closed)))
    }

    /// A bracket in front of all, and taken again.
    fn brackets(&mut self) -> Result<String, Box<dyn Error>> {
        let (mut put, mut taken) = (Vec::new(), Vec::new());
        for _ in 0..25 {
            put.push(self.time(0, 0, b"[")?);
            taken.push(self.time(0, 1, b"")?);
        }
        Ok(format!("{}, taken {}", told(put), told(taken)))
    }
}

fn main() -> Result<(), Box<dyn Error>> {
    let text = fs::read(env::args_os().nth(1).ok_or("no FILE")?)?;
    let started = Instant::now();
    jx::check(&text, jx::DEPTH)?;
    let checked = started.elapsed();
    let before = used();
    let started = Instant::now();
    let mut document = Document::new(&text, Settings::default())?;
    document.verdict()?;
    let made = started.elapsed();
    let share = (used() - before) as f64 / text.len() as f64;
    println!(
        "{} bytes checked in {checked:?}; made in {made:?}, {share:.2} bytes for a byte",
        text.len()
    );
    let mut edits = Edits { text, document };
    println!("microseconds, median (99th of a hundred):");
    println!("put a character {}", edits.many(0, b"7")?);
    println!("take one        {}", edits.many(1, b"")?);
    println!("paste 1 KiB     {}", edits.many(0, &[b' '; 1024])?);
    println!("a quote         {}", edits.quotes()?);
    println!("[ in front      {}", edits.brackets()?);
    edits.document.verdict()?;
    Ok(())
}
