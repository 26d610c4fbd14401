//! The sentences of the table, which are those of `jx explain`.

use jx::{check, Fault, Refusal, Settings};

fn spelt(text: &str) -> Vec<u8> {
    let mut parts = text.split("\\x");
    let mut bytes = parts.next().unwrap().as_bytes().to_vec();
    for part in parts {
        bytes.push(u8::from_str_radix(&part[..2], 16).unwrap());
        bytes.extend_from_slice(&part.as_bytes()[2..]);
    }
    bytes
}

/// What is said of a text that is refused.
fn said(text: &[u8], settings: Settings) -> String {
    match check(text, settings) {
        Err(Fault::Refused(refusal)) => refusal.sentence(text, settings),
        other => format!("{other:?}"),
    }
}

#[test]
fn sentences_say_what_may_stand_there() {
    let mut count = 0;
    for row in include_str!("../sentences").lines() {
        if let Some((text, wanted)) = row.split_once('\t').filter(|_| !row.starts_with('#')) {
            assert_eq!(said(&spelt(text), Settings::default()), wanted, "{text}");
            count += 1;
        }
    }
    assert!(count > 30);
}

#[test]
fn settings_count() {
    assert_eq!(said(b"[[[", 2.into()), "more than 2 containers open");
    let ignored = Settings {
        ignore_mark: true,
        unique_names: true,
        ..Settings::default()
    };
    assert_eq!(
        said(b"\xEF\xBB1", ignored),
        "a byte order mark is begun and not ended"
    );
    assert_eq!(
        said(b"\xEF\xBB", ignored),
        "the text ends inside a byte order mark"
    );
    assert_eq!(
        said(b"{\"a\":1,\"a\":2}", ignored),
        "the name \"a\" was used at line 1, column 2"
    );
    assert_eq!(
        Refusal::Stopped { at: 9 }.sentence(b"[1", ignored),
        "stopped at 9"
    );
}

#[test]
fn a_long_name_is_said_in_full() {
    let name = "n".repeat(1000);
    let unique = Settings {
        unique_names: true,
        ..Settings::default()
    };
    assert_eq!(
        said(
            format!("{{\"{name}\":1,\n\"{name}\":2}}").as_bytes(),
            unique
        ),
        format!("the name \"{name}\" was used at line 1, column 2")
    );
}
