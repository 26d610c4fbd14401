//! Values of a container: each cut of short texts, readers that give little, fail, or end, and what is refused.

use jx::{each, Each, EachError, FindError, Refusal, Settings};
use std::io::{self, Read, Write};

/// A text, a pointer, the values that are due, and what the end tells, at a depth of 3.
type Row = (
    &'static [u8],
    &'static str,
    &'static [&'static str],
    Option<FindError>,
);

const ROWS: &[Row] = &[
    (b"[1, 2 ,3]", "", &["1", "2", "3"], None),
    (
        b" {\"a\" : [ true ], \"b\": {}} ",
        "",
        &["[true]", "{}"],
        None,
    ),
    (
        b"{\"a\" : [ true, \"x y\" ]}",
        "/a",
        &["true", "\"x y\""],
        None,
    ),
    (b"[]", "", &[], None),
    (
        b"[1,2,3x",
        "",
        &["1", "2"],
        Some(FindError::Refused(Refusal::Stopped { at: 6 })),
    ),
    (
        b"[1,2 ",
        "",
        &["1"],
        Some(FindError::Refused(Refusal::Truncated)),
    ),
    (
        b"[1,[[[]]]]",
        "",
        &["1"],
        Some(FindError::Refused(Refusal::TooDeep { at: 5 })),
    ),
    (
        b"{\"a\":[1],\"\\u0061\":[2]}",
        "/a",
        &["1"],
        Some(FindError::NameRepeated { token: 0 }),
    ),
    (
        b"{\"a\":7}",
        "/a",
        &[],
        Some(FindError::NotAContainer { token: 1 }),
    ),
    (b"[[1]]", "/1", &[], Some(FindError::PastEnd { token: 0 })),
    (
        b"{\"a\":[1]}",
        "/b",
        &[],
        Some(FindError::NoSuchMember { token: 0 }),
    ),
];

/// The values as lines.
fn lines_of(values: &[&str]) -> Vec<u8> {
    values
        .iter()
        .flat_map(|value| [value, "\n"].concat().into_bytes())
        .collect()
}

fn why(told: Result<(), EachError>) -> Option<FindError> {
    match told {
        Ok(()) => None,
        Err(EachError::Find(error)) => Some(error),
        Err(error) => panic!("{error}"),
    }
}

/// Gives so many bytes a read, and is interrupted before each.
struct Slowly<'a> {
    input: &'a [u8],
    most: usize,
    is_interrupted: bool,
}

impl Read for Slowly<'_> {
    fn read(&mut self, room: &mut [u8]) -> io::Result<usize> {
        self.is_interrupted = !self.is_interrupted;
        if self.is_interrupted {
            return Err(io::ErrorKind::Interrupted.into());
        }
        let most = self.most.min(room.len());
        self.input.read(&mut room[..most])
    }
}

#[test]
fn each_cut_gives_the_same_values() {
    for (text, pointer, values, told) in ROWS {
        for cut in 0..=text.len() {
            let mut stream = Each::new(pointer, 3).unwrap();
            stream.feed(&text[..cut]).unwrap();
            let mut lines = stream.take().unwrap();
            stream.feed(&text[cut..]).unwrap();
            lines.extend(stream.take().unwrap());
            assert_eq!(stream.take().unwrap(), b"");
            assert_eq!(lines, lines_of(values), "{text:?} cut at {cut}");
            assert_eq!(&why(stream.end()), told);
        }
        for most in [1, 2, 7] {
            let slowly = Slowly {
                input: text,
                most,
                is_interrupted: false,
            };
            let mut given = each(slowly, pointer, 3).unwrap();
            for value in *values {
                assert_eq!(given.next().unwrap().unwrap(), value.as_bytes());
            }
            let last = given.next();
            assert_eq!(last.is_none(), told.is_none());
            assert_eq!(&why(last.map_or(Ok(()), |it| it.map(|_| ()))), told);
            assert!(given.next().is_none());
        }
    }
}

#[test]
fn a_failing_reader_is_told_behind_its_values() {
    struct Failing;
    impl Read for Failing {
        fn read(&mut self, _: &mut [u8]) -> io::Result<usize> {
            Err(io::Error::other("gone"))
        }
    }
    let mut given = each((&b"[[7], 8"[..]).chain(Failing), "", jx::DEPTH).unwrap();
    assert_eq!(given.next().unwrap().unwrap(), b"[7]");
    assert_eq!(given.next().unwrap().unwrap_err().to_string(), "gone");
    assert!(given.next().is_none());
}

#[test]
fn what_is_refused_is_told() {
    let unique = Settings {
        unique_names: true,
        ..Settings::default()
    };
    assert!(matches!(
        Each::new("", unique),
        Err(EachError::NoUniqueNames)
    ));
    for (pointer, told) in [
        ("rows", FindError::NoSlash),
        ("/rows/~2", FindError::BadEscape { at: 6 }),
    ] {
        match each(io::empty(), pointer, jx::DEPTH) {
            Err(EachError::Find(error)) => assert_eq!(error, told),
            other => panic!("{other:?}"),
        }
    }
    assert_eq!(
        io::Error::from(EachError::OutOfMemory).kind(),
        io::ErrorKind::OutOfMemory
    );
}

#[test]
fn a_stream_takes_what_is_written_to_it_on_another_thread() {
    let mut stream = Each::new("/x", 2).unwrap();
    stream.write_all(b"{\"x\":[0").unwrap();
    let told = std::thread::spawn(move || {
        io::copy(&mut &b",1".repeat(100_000)[..], &mut stream).unwrap();
        stream.write_all(b"]}").unwrap();
        let lines = stream.take().unwrap();
        (lines.len(), stream.end().is_ok())
    });
    assert_eq!(told.join().unwrap(), (2 * 100_001, true));
}
