//! Writes the elements of an array, or the values of an object's members, each compact on a line of its own, while it reads standard
//! input: `zstd -dc dump.json.zst | cargo run --release --example each /rows`.

use std::env;
use std::error::Error;
use std::io::{self, BufWriter, Write};

fn main() -> Result<(), Box<dyn Error>> {
    let pointer = env::args().nth(1).unwrap_or_default();
    let mut out = BufWriter::new(io::stdout().lock());
    for value in jx::each(io::stdin().lock(), &pointer, jx::DEPTH)? {
        match value {
            Ok(value) => {
                out.write_all(&value)?;
                out.write_all(b"\n")?;
            }
            Err(error) => {
                // The output that was due is written, and stays.
                out.flush()?;
                return Err(error.into());
            }
        }
    }
    out.flush()?;
    Ok(())
}
