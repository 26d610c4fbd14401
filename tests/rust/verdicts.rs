//! Reads the texts of the table, each beginning of them, and each of these in slices of one byte.

use jx::{
    check, elements, Document, EditError, ElementVerdict, Fault, FindError, NoUniqueNames,
    OpenError, Reader, Refusal, Run, RunError, Settings,
};

struct Row {
    line: usize,
    wanted: Result<(), Refusal>,
    depth: u16,
    text: Vec<u8>,
}

fn spelt(text: &str) -> Vec<u8> {
    let mut parts = text.split("\\x");
    let mut bytes = parts.next().unwrap().as_bytes().to_vec();
    for part in parts {
        bytes.push(u8::from_str_radix(&part[..2], 16).unwrap());
        bytes.extend_from_slice(&part.as_bytes()[2..]);
    }
    bytes
}

fn table() -> Vec<Row> {
    let lines = include_str!("../verdicts");
    let rows = lines
        .lines()
        .enumerate()
        .filter(|(_, row)| !row.starts_with('#'));
    rows.map(|(number, row)| {
        let words: Vec<&str> = row.splitn(4, ' ').collect();
        let at = words[1].parse().unwrap();
        let wanted = match words[0] {
            "accepted" => Ok(()),
            "stopped" => Err(Refusal::Stopped { at }),
            "truncated" => Err(Refusal::Truncated),
            "too_deep" => Err(Refusal::TooDeep { at }),
            word => panic!("no verdict: {word}"),
        };
        Row {
            line: number + 1,
            wanted,
            depth: words[2].parse().unwrap(),
            text: spelt(words[3]),
        }
    })
    .collect()
}

/// What bytes come to where no memory is wanting.
fn judged(text: &[u8], settings: impl Into<Settings>) -> Result<(), Refusal> {
    check(text, settings).map_err(|fault| match fault {
        Fault::Refused(refusal) => refusal,
        Fault::OutOfMemory => panic!("out of memory"),
    })
}

/// The bytes of a text without the blanks outside of its strings.
fn without_blanks(text: &[u8]) -> Vec<u8> {
    let (mut is_inside, mut is_escaped) = (false, false);
    let mut form = text.to_vec();
    form.retain(|byte| {
        let is_kept = is_inside || !b" \t\n\r".contains(byte);
        is_inside ^= *byte == b'"' && !is_escaped;
        is_escaped = is_inside && *byte == b'\\' && !is_escaped;
        is_kept
    });
    form
}

#[test]
fn compact_forms() {
    for row in table() {
        for end in 0..=row.text.len() {
            let text = &row.text[..end];
            let wanted = judged(text, row.depth).map(|()| without_blanks(text));
            let form = jx::compact(text, row.depth);
            assert_eq!(form, wanted.map_err(Fault::from), "line {}", row.line);
            if let Ok(form) = form {
                assert_eq!(jx::compact(&form, row.depth), Ok(form), "line {}", row.line);
            }
        }
    }
    let marked = Settings {
        ignore_mark: true,
        ..Settings::default()
    };
    assert_eq!(
        jx::compact(b"\xEF\xBB\xBF [ 1 ]", marked),
        Ok(b"[1]".to_vec())
    );
    let unique = Settings {
        unique_names: true,
        ..Settings::default()
    };
    let refusal = Refusal::RepeatedName { at: 8 };
    assert_eq!(
        jx::compact(b"{\"a\": 1,\"a\": 2}", unique),
        Err(refusal.into())
    );
}

#[test]
fn verdicts() {
    for one in table() {
        assert_eq!(
            judged(&one.text, one.depth),
            one.wanted,
            "line {}",
            one.line
        );
    }
}

#[test]
fn slices_of_one_byte_come_to_the_same() {
    for one in table() {
        let mut reader = Reader::new(one.depth).unwrap();
        for end in 0..=one.text.len() {
            let whole = judged(&one.text[..end], one.depth);
            assert_eq!(reader.verdict(), whole, "line {}, {end} bytes", one.line);
            match one.wanted {
                Err(Refusal::Stopped { at } | Refusal::TooDeep { at }) if end > at => {
                    assert_eq!(whole, one.wanted, "line {}, {end} bytes", one.line);
                }
                _ => assert!(
                    matches!(whole, Ok(()) | Err(Refusal::Truncated)),
                    "line {}, {end} bytes",
                    one.line
                ),
            }
            if let Some(byte) = one.text.get(end) {
                reader.feed(&[*byte]).unwrap();
            }
        }
    }
}

/// A text typed at its end and at its start, a byte at a time, and then taken out.
#[test]
fn documents_come_to_the_same() {
    for one in table() {
        let mut document = Document::new(b"", one.depth).unwrap();
        let mut kept = Vec::new();
        let half = one.text.len() / 2;
        let (front, back) = one.text.split_at(half);
        let typed = back.iter().enumerate();
        let put = front.iter().rev().map(|byte| (0, byte));
        for (at, byte) in typed.chain(put) {
            document.edit(at..at, &[*byte]).unwrap();
            kept.insert(at, *byte);
            let wanted = check(&kept, one.depth);
            assert_eq!(document.verdict(), wanted, "line {}, {kept:?}", one.line);
        }
        assert_eq!(document.copy(..).unwrap(), one.text, "line {}", one.line);
        while let Some(last) = kept.pop() {
            assert_eq!(document.copy(kept.len()..).unwrap(), [last]);
            document.edit(kept.len().., b"").unwrap();
            let wanted = check(&kept, one.depth);
            assert_eq!(document.verdict(), wanted, "line {}, {kept:?}", one.line);
        }
        assert!(document.is_empty());
    }
}

#[test]
fn documents_refuse_what_they_cannot_do() {
    let unique = Settings {
        unique_names: true,
        ..Settings::default()
    };
    let refused = Document::new(b"1", unique).map(|_| ());
    assert_eq!(refused, Err(OpenError::NoUniqueNames));
    let mut document = Document::new(b"[1]", Settings::default()).unwrap();
    #[allow(clippy::reversed_empty_ranges)]
    for range in [2..1, 0..4, 4..4, usize::MAX..usize::MAX, 3..0] {
        let told = Err(EditError::OutOfBounds);
        assert_eq!(document.edit(range.clone(), b"7"), told);
        assert_eq!(document.copy(range).map(|_| ()), told);
    }
    assert_eq!(
        document.edit(..=usize::MAX, b""),
        Err(EditError::OutOfBounds)
    );
    assert_eq!(document.copy(1..=1).unwrap(), b"1");
    assert_eq!(document.len(), 3);
}

#[test]
fn documents_go_to_other_threads_and_are_freed() {
    let text = format!("[{}0]", "[1,2],".repeat(20_000));
    for _ in 0..50 {
        let mut document = Document::new(text.as_bytes(), jx::DEPTH).unwrap();
        let worker = std::thread::spawn(move || {
            document.edit(50_000..50_000, b" ").unwrap();
            (document.verdict(), document)
        });
        let (verdict, document) = worker.join().unwrap();
        assert_eq!(verdict, Ok(()));
        assert_eq!(document.len(), text.len() + 1);
    }
}

#[test]
fn a_reader_starts_again() {
    let mut reader = Reader::new(0).unwrap();
    for one in table() {
        reader.start(one.depth).unwrap();
        reader.feed(&one.text).unwrap();
        assert_eq!(reader.verdict(), one.wanted, "line {}", one.line);
    }
}

#[test]
fn deep_texts() {
    let mut text = vec![b'['; 65535];
    text.resize(131_070, b']');
    assert_eq!(judged(&text, u16::MAX), Ok(()));
    assert_eq!(
        judged(&text, u16::MAX - 1),
        Err(Refusal::TooDeep { at: 65534 })
    );
}

#[test]
fn each_row_stands_in_its_parent() {
    for one in table() {
        let Ok(all) = jx::rows(&one.text, one.depth) else {
            assert!(one.wanted.is_err(), "line {}", one.line);
            continue;
        };
        assert_eq!(one.wanted, Ok(()), "line {}", one.line);
        assert_eq!(all[0].parent, None, "line {}", one.line);
        for (number, row) in all.iter().enumerate().skip(1) {
            let parent = row.parent.unwrap();
            let outer = &all[parent].span;
            assert!(
                parent < number && outer.start < row.span.start && row.span.end < outer.end,
                "line {}, row {number}",
                one.line
            );
        }
    }
}

/// What bytes come to as an element that stands from an offset on.
fn wanted(bytes: &[u8], depth: u16, start: usize) -> ElementVerdict {
    match judged(bytes, depth) {
        Ok(()) if b"0123456789el".contains(bytes.last().unwrap()) => ElementVerdict::MayBeCut,
        Ok(()) => ElementVerdict::Accepted,
        Err(Refusal::Truncated) => ElementVerdict::Refused(Refusal::Truncated),
        Err(Refusal::Stopped { at }) => {
            ElementVerdict::Refused(Refusal::Stopped { at: start + at })
        }
        Err(Refusal::TooDeep { at }) => {
            ElementVerdict::Refused(Refusal::TooDeep { at: start + at })
        }
        Err(Refusal::RepeatedName { .. }) => panic!("any names are accepted"),
    }
}

#[test]
fn each_beginning_is_an_element() {
    for one in table() {
        for end in 1..=one.text.len() {
            let mut sequence = b"1\x1E\x1E".to_vec();
            sequence.extend_from_slice(&one.text[..end]);
            sequence.extend_from_slice(b"\x1E\"a\"");
            let all = elements(&sequence, one.depth).unwrap();
            let found: Vec<_> = all.iter().map(|e| (e.span.clone(), e.verdict)).collect();
            let last = 3 + end;
            let all_wanted = [
                (0..1, ElementVerdict::Unmarked),
                (3..last, wanted(&one.text[..end], one.depth, 3)),
                (last + 1..last + 4, ElementVerdict::Accepted),
            ];
            assert_eq!(found, all_wanted, "line {}, {end} bytes", one.line);
        }
    }
}

#[test]
fn sequences_without_elements() {
    assert_eq!(elements(b"", jx::DEPTH), Ok(Vec::new()));
    assert_eq!(elements(b"\x1E\x1E", jx::DEPTH), Ok(Vec::new()));
}

const MARK: [u8; 3] = [0xEF, 0xBB, 0xBF];

/// What bytes come to where a byte order mark is ignored, by what `check` tells of those behind it.
fn behind_mark(text: &[u8], depth: u16) -> Result<(), Refusal> {
    let agreed = text.iter().zip(MARK).take_while(|(a, b)| **a == *b).count();
    let count = match agreed {
        1 | 2 if agreed == text.len() => return Err(Refusal::Truncated),
        1 | 2 => return Err(Refusal::Stopped { at: agreed }),
        count => count,
    };
    judged(&text[count..], depth).map_err(|refusal| match refusal {
        Refusal::Stopped { at } => Refusal::Stopped { at: count + at },
        Refusal::TooDeep { at } => Refusal::TooDeep { at: count + at },
        other => other,
    })
}

#[test]
fn marks_may_be_cut() {
    for one in table() {
        let settings = Settings {
            depth: one.depth,
            ignore_mark: true,
            unique_names: false,
        };
        for text in [one.text.clone(), [&MARK, &one.text[..]].concat()] {
            let mut reader = Reader::new(settings).unwrap();
            for end in 0..=text.len() {
                let wanted = behind_mark(&text[..end], one.depth);
                assert_eq!(judged(&text[..end], settings), wanted, "line {}", one.line);
                assert_eq!(reader.verdict(), wanted, "line {}, {end} bytes", one.line);
                if let Some(byte) = text.get(end) {
                    reader.feed(&[*byte]).unwrap();
                }
            }
        }
    }
}

#[test]
fn a_depth_stands_for_settings() {
    for one in table() {
        let settings = Settings {
            depth: one.depth,
            ..Settings::default()
        };
        assert_eq!(Settings::from(one.depth), settings);
        assert_eq!(Settings::from(&settings), settings);
        assert_eq!(judged(&one.text, settings), one.wanted, "line {}", one.line);
        assert_eq!(
            jx::rows(&one.text, settings),
            jx::rows(&one.text, one.depth)
        );
        assert_eq!(
            jx::find(&one.text, "", settings),
            jx::find(&one.text, "", one.depth)
        );
        let reader = Reader::new(settings).unwrap();
        assert_eq!(reader.verdict(), Err(Refusal::Truncated));
    }
}

#[test]
fn many_pointers_are_answered_as_one() {
    let spelt = [
        "", "/a", "/a/1", "/a/2", "/a/-", "/a/01", "/b", "/b/x", "/c", "a", "/~2",
    ];
    for text in [
        &br#"{"a":[1,true],"b":null,"b":0}"#[..],
        b"{\"a\":[",
        b"nulx",
    ] {
        for unique_names in [false, true] {
            let settings = Settings {
                unique_names,
                ..Settings::default()
            };
            for count in [0, 1, 2, 16, 17, 40] {
                let pointers: Vec<&str> = spelt.iter().copied().cycle().take(count).collect();
                let told = jx::find_all(text, &pointers, settings).unwrap();
                let alone = pointers.iter().map(|one| jx::find(text, one, settings));
                assert_eq!(told, alone.collect::<Vec<_>>(), "{count} pointers");
            }
        }
    }
}

#[test]
fn names_are_compared_by_value() {
    let settings = Settings {
        ignore_mark: true,
        unique_names: true,
        ..Settings::default()
    };
    let repeated = Refusal::RepeatedName { at: 10 };
    let text = b"\xEF\xBB\xBF{\"a\":1,\"\\u0061\":2}";
    assert_eq!(check(text, settings), Err(Fault::Refused(repeated)));
    assert_eq!(jx::rows(text, settings), Err(Fault::Refused(repeated)));
    assert_eq!(
        jx::find(text, "/a", settings),
        Err(FindError::Refused(repeated))
    );
    assert_eq!(Reader::new(settings).map(|_| ()), Err(NoUniqueNames));
    let text = b"\xEF\xBB\xBF[{\"a\":1},{\"a\":2}]";
    assert_eq!(check(text, settings), Ok(()));
    assert_eq!(jx::rows(text, settings).unwrap()[0].span, 3..20);
    assert_eq!(jx::find(text, "/1/a", settings).unwrap().span, 17..18);
}

#[test]
fn a_mark_alone_is_no_element() {
    let settings = Settings {
        ignore_mark: true,
        unique_names: true,
        ..Settings::default()
    };
    let sequence = b"\xEF\xBB\xBF\x1E{\"a\":1,\"a\":2}\n\x1E[]";
    let all = elements(sequence, settings).unwrap();
    let found: Vec<_> = all.iter().map(|e| (e.span.clone(), e.verdict)).collect();
    let repeated = ElementVerdict::Refused(Refusal::RepeatedName { at: 11 });
    assert_eq!(
        found,
        [(4..18, repeated), (19..21, ElementVerdict::Accepted)]
    );
    assert_eq!(elements(sequence, jx::DEPTH).unwrap().len(), 3);
}

#[test]
fn runs_of_two_parts_come_to_the_verdict_of_the_whole() {
    for one in table() {
        let size = one.text.len();
        for cut in 0..=size {
            let part = |from, part| Run::of(part, Some(from), one.depth).unwrap();
            let right = part(cut as u64, &one.text[cut..]);
            let sent = Run::try_from(right.as_bytes()).unwrap();
            assert_eq!(sent, right);
            let whole = part(0, &one.text[..cut]).join(&sent).unwrap();
            assert_eq!(
                whole.verdict(0..size),
                Ok(one.wanted),
                "line {}, {cut}",
                one.line
            );
        }
    }
}

#[test]
fn runs_that_do_not_meet_are_told() {
    let run = |part: &[u8], from, depth| Run::of(part, from, depth).unwrap();
    let left = run(b"[1,", Some(0), 512);
    assert_eq!(
        left.join(&run(b"2]", Some(4), 512)),
        Err(RunError::NotNeighbours)
    );
    assert_eq!(
        left.join(&run(b"2]", None, 512)),
        Err(RunError::NotNeighbours)
    );
    assert_eq!(
        left.join(&run(b"2]", Some(3), 3)),
        Err(RunError::OtherDepth)
    );
    assert_eq!(left.verdict(0..4), Err(RunError::NotNeighbours));
    assert_eq!(left.verdict(0..3), Ok(Err(Refusal::Truncated)));
    assert_eq!(
        Run::of(b"12", Some(u64::MAX - 1), 512),
        Err(RunError::TooManyBytes)
    );
    assert_eq!(
        Run::of(b"", Some(u64::MAX), 512),
        Err(RunError::TooManyBytes)
    );
    for end in 0..left.as_bytes().len() {
        let cut = Run::try_from(&left.as_bytes()[..end]);
        assert_eq!(cut, Err(RunError::NotARun), "{end} bytes");
    }
}

#[test]
fn a_run_with_more_bytes_than_are_tried_first_is_whole() {
    let deep = "[".repeat(60_000) + &"]".repeat(60_000);
    let part = |range: std::ops::Range<usize>| {
        Run::of(
            deep[range.clone()].as_bytes(),
            Some(range.start as u64),
            60_000,
        )
        .unwrap()
    };
    let left = part(0..90_000);
    let right = part(90_000..120_000);
    assert!(right.as_bytes().len() > 100_000);
    assert_eq!(left.join(&right).unwrap().verdict(0..120_000), Ok(Ok(())));
}
