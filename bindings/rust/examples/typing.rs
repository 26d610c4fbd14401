//! Types into the middle of a file, and prints what each key costs with the verdict on the whole text:
//! `cargo run --release --example typing FILE`. Without FILE it types into 64 MB of records.

use jx::{Document, Settings};
use std::error::Error;
use std::time::Instant;
use std::{ascii, env, fs};

fn main() -> Result<(), Box<dyn Error>> {
    let record = "{\"id\":1,\"tags\":[\"é\",null]},\n";
    let text = match env::args_os().nth(1) {
        Some(file) => fs::read(file)?,
        None => format!("[{}0]", record.repeat(2_300_000)).into_bytes(),
    };
    let started = Instant::now();
    let mut document = Document::new(&text, Settings::default())?;
    let said = told(&mut document);
    println!(
        "{} bytes read in {:?}: {said}",
        text.len(),
        started.elapsed()
    );

    // At the end of a line, behind a comma.
    let half = text.len() / 2;
    let line = text[half..].iter().position(|byte| *byte == b'\n');
    let keys = "[1, {\"a\": \"é\"}],".bytes();
    for (place, key) in (half + line.unwrap_or(0)..).zip(keys) {
        let started = Instant::now();
        document.edit(place..place, &[key])?;
        let said = told(&mut document);
        println!(
            "{} at {place} in {:?}: {said}",
            ascii::escape_default(key),
            started.elapsed()
        );
    }
    Ok(())
}

fn told(document: &mut Document) -> String {
    match document.verdict() {
        Ok(()) => "accepted".to_owned(),
        Err(fault) => fault.to_string(),
    }
}
