//! serde FILE: whether serde_json accepts a text, after a UTF-8 check, into a value that keeps nothing. For tools/measure.

fn main() {
    let path = std::env::args().nth(1).expect("a file");
    let bytes = std::fs::read(path).expect("a file that can be read");
    let text = std::str::from_utf8(&bytes);
    let accepted = text.is_ok_and(|text| serde_json::from_str::<serde::de::IgnoredAny>(text).is_ok());
    std::process::exit(i32::from(!accepted));
}
