//! Saved indexes: values and parts beside plain readings of the text, and texts, indexes and readers that are wrong.

use jx::{
    find_all, save, save_with_names, Fault, File, FileError, FindError, IndexFault, ReadAt,
    Refusal, SaveError,
};
use std::cell::RefCell;
use std::io;

/// The index of a text, with tables of its names or without.
fn index_of(text: &[u8], chunk: usize, has_names: bool) -> Vec<u8> {
    if has_names {
        save_with_names(text, jx::DEPTH, chunk).unwrap()
    } else {
        save(text, jx::DEPTH, chunk).unwrap()
    }
}

/// A text of many chunks of 64 bytes: an object with an array of numbered records in it.
fn text() -> Vec<u8> {
    let mut text = b"{\"meta\": {\"a/b\": 1}, \"rows\": [".to_vec();
    for n in 0..500 {
        let comma = if n == 0 { "" } else { ", " };
        text.extend(format!("{comma}{{\"id\": {n}, \"name\": \"n{n}\"}}").bytes());
    }
    text.extend(b"], \"same\": 1, \"same\": 2}");
    text
}

const POINTERS: &[&str] = &[
    "",
    "/meta/a~1b",
    "/rows",
    "/rows/0",
    "/rows/499/name",
    "/rows/250/id",
    "/rows/500",
    "/rows/-",
    "/rows/x",
    "/same",
    "/none",
    "/meta/a~1b/c",
    "x",
    "/~2",
];

#[test]
fn pointers_lead_where_they_do_in_all_of_the_text() {
    let text = text();
    for (chunk, has_names) in [
        (64, false),
        (64, true),
        (256, false),
        (256, true),
        (32768, true),
    ] {
        let index = index_of(&text, chunk, has_names);
        let mut file = File::open(&text, &index).unwrap();
        let wanted = find_all(&text, POINTERS, jx::DEPTH).unwrap();
        assert_eq!(file.find_all(POINTERS).unwrap(), wanted);
        for (pointer, wanted) in POINTERS.iter().zip(wanted) {
            match wanted {
                Ok(found) => {
                    assert_eq!(file.get(pointer).unwrap(), &text[found.span.clone()]);
                    assert_eq!(file.find(pointer).unwrap(), found);
                }
                Err(wanted) => {
                    assert!(
                        matches!(file.get(pointer), Err(FileError::Find(told)) if told == wanted)
                    );
                }
            }
        }
    }
}

/// Counts its reads.
struct Counting(Vec<u8>, RefCell<usize>);

impl ReadAt for Counting {
    fn size(&self) -> io::Result<u64> {
        self.0.size()
    }

    fn read_exact_at(&self, buffer: &mut [u8], from: u64) -> io::Result<()> {
        *self.1.borrow_mut() += 1;
        self.0.read_exact_at(buffer, from)
    }
}

#[test]
fn by_tables_few_chunks_of_an_object_are_read() {
    let members: Vec<String> = (0..3000)
        .map(|n| format!("\"member {n}\": [\"a value\", {n}]"))
        .collect();
    let text = format!("{{{}}}", members.join(", ")).into_bytes();
    let reads = |has_names: bool, member: usize| {
        let source = Counting(text.clone(), RefCell::new(0));
        let mut file = File::open(&source, &index_of(&text, 64, has_names)).unwrap();
        let value = file.get(&format!("/member {member}/1")).unwrap();
        assert_eq!(value, member.to_string().as_bytes());
        source.1.take()
    };
    for member in [0, 1234, 2999] {
        assert!(reads(true, member) < 12);
        assert!(reads(false, member) >= text.len() / 64);
    }
}

#[test]
fn parts_have_all_children() {
    let text = text();
    let index = save_with_names(&text[..], jx::DEPTH, 64).unwrap();
    let mut file = File::open(text.as_slice(), &index).unwrap();
    let rows = file.find("/rows").unwrap().span;
    for count in [1, 2, 7, 8, 500, jx::PARTS_MAX] {
        let parts = file.split(rows.clone(), count).unwrap();
        assert!(parts.len() <= count);
        assert_eq!(parts.first().unwrap().children.start, 0);
        assert_eq!(parts.last().unwrap().children.end, 500);
        for pair in parts.windows(2) {
            assert_eq!(pair[0].children.end, pair[1].children.start);
            assert_eq!(pair[0].span.end + 1, pair[1].span.start);
            assert!(pair[0].number < pair[1].number);
        }
        for part in parts {
            let mut all = b"[".to_vec();
            all.extend(file.read(part.span.clone()).unwrap());
            all.push(b']');
            assert_eq!(
                jx::each(&all[..], "", jx::DEPTH).unwrap().count(),
                part.children.len()
            );
        }
    }
    for (span, count) in [
        (0..0, 1),
        (5..text.len() + 1, 1),
        (rows.clone(), 0),
        (rows, jx::PARTS_MAX + 1),
    ] {
        assert!(matches!(
            file.split(span, count),
            Err(FileError::OutOfBounds)
        ));
    }
    assert!(matches!(
        file.read(0..text.len() + 1),
        Err(FileError::OutOfBounds)
    ));
    assert_eq!(file.read(9..9).unwrap(), b"");
}

#[test]
fn changed_texts_are_told() {
    let text = text();
    for at in (0..text.len()).step_by(7) {
        let index = index_of(&text, 64, at % 2 == 1);
        let mut other = text.clone();
        other[at] ^= 1;
        let mut file = File::open(other, &index).unwrap();
        match file.get("/rows/250") {
            Ok(bytes) => assert_eq!(bytes, br#"{"id": 250, "name": "n250"}"#),
            Err(FileError::Changed(span)) => assert!(span.contains(&at) && span.len() <= 64),
            Err(error) => panic!("{error}"),
        }
    }
}

#[test]
fn wrong_indexes_are_told() {
    let text = text();
    let index = save(&text[..], jx::DEPTH, 64).unwrap();
    let fault = |index: &[u8]| match File::open(&text, index) {
        Err(FileError::Index(fault)) => fault,
        other => panic!("{other:?}"),
    };
    assert_eq!(fault(b"{}"), IndexFault::NotAnIndex);
    assert_eq!(fault(&index[..40]), IndexFault::CutShort);
    assert_eq!(fault(&index[..index.len() - 1]), IndexFault::CutShort);
    let mut other = index.clone();
    other.push(0);
    assert_eq!(fault(&other), IndexFault::Longer);
    other.pop();
    other[7] += 1;
    assert_eq!(fault(&other), IndexFault::OtherVersion);
    other[7] -= 1;
    other[80] ^= 1;
    assert_eq!(fault(&other), IndexFault::Damaged);
    let named = save_with_names(&text[..], jx::DEPTH, 64).unwrap();
    assert_eq!(named[..index.len()], index);
    assert_eq!(fault(&named[..index.len() + 7]), IndexFault::Longer);
    assert_eq!(fault(&named[..index.len() + 9]), IndexFault::CutShort);
    assert_eq!(fault(&named[..named.len() - 1]), IndexFault::CutShort);
    other = named.clone();
    other[named.len() - 1] ^= 1;
    assert_eq!(fault(&other), IndexFault::Damaged);
    other = named;
    other.push(0);
    assert_eq!(fault(&other), IndexFault::Longer);
    assert!(matches!(
        File::open(&text[1..], &index),
        Err(FileError::OtherSize)
    ));
}

/// Fails from some read on.
struct Failing(Vec<u8>, RefCell<usize>);

impl ReadAt for Failing {
    fn size(&self) -> io::Result<u64> {
        self.0.size()
    }

    fn read_exact_at(&self, buffer: &mut [u8], from: u64) -> io::Result<()> {
        let mut left = self.1.borrow_mut();
        if *left == 0 {
            return Err(io::Error::other("gone"));
        }
        *left -= 1;
        self.0.read_exact_at(buffer, from)
    }
}

#[test]
fn reads_that_fail_are_told_and_it_goes_on() {
    let text = text();
    let index = save(&text[..], jx::DEPTH, 64).unwrap();
    for granted in 0..3 {
        let mut file = File::open(Failing(text.clone(), RefCell::new(granted)), &index).unwrap();
        assert!(
            matches!(file.get("/rows/250/name"), Err(FileError::Read(error)) if error.to_string() == "gone")
        );
        assert!(matches!(file.find(""), Err(FileError::Read(_))));
    }
    let mut file = File::open(Failing(text, RefCell::new(1000)), &index).unwrap();
    assert_eq!(file.get("/rows/250/name").unwrap(), b"\"n250\"");
}

#[test]
fn what_is_no_text_has_no_index() {
    let refused = |text: &[u8]| match save(text, 2, 64) {
        Err(SaveError::Fault(Fault::Refused(refusal))) => refusal,
        other => panic!("{other:?}"),
    };
    assert_eq!(refused(b"[1,]"), Refusal::Stopped { at: 3 });
    assert_eq!(refused(b"[1,"), Refusal::Truncated);
    assert_eq!(refused(b""), Refusal::Truncated);
    assert_eq!(refused(b"[[[]]]"), Refusal::TooDeep { at: 2 });
    assert!(matches!(save(&b"1"[..], 2, 65), Err(SaveError::NotAChunk)));
    assert!(matches!(
        save_with_names(&b"1"[..], 2, 65),
        Err(SaveError::NotAChunk)
    ));
    assert!(matches!(
        save_with_names(&b"{\"a\": 1,}"[..], 2, 64),
        Err(SaveError::Fault(Fault::Refused(Refusal::Stopped { at: 8 })))
    ));
    let unique = jx::Settings {
        unique_names: true,
        ..jx::Settings::default()
    };
    assert!(matches!(
        save(&b"1"[..], unique, 64),
        Err(SaveError::NoUniqueNames)
    ));
    let mut file = File::open(&b"1"[..], &save(&b"1"[..], 0, 64).unwrap()).unwrap();
    assert!(matches!(
        file.find("/a"),
        Err(FileError::Find(FindError::NotAContainer { token: 0 }))
    ));
}

#[cfg(unix)]
#[test]
fn files_are_read_at_offsets() {
    let path = std::env::temp_dir().join(format!("jx-saved-{}", std::process::id()));
    std::fs::write(&path, text()).unwrap();
    let index = save(std::fs::File::open(&path).unwrap(), jx::DEPTH, 64).unwrap();
    let mut file = File::open(std::fs::File::open(&path).unwrap(), &index).unwrap();
    std::fs::remove_file(&path).unwrap();
    assert_eq!(file.get("/rows/7/name").unwrap(), b"\"n7\"");
}
