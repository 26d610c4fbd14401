//! JSON Lines: each cut of short inputs by a plain splitter, and readers that give little, fail, or end.

use jx::{
    check, lines, BadLines, Fault, Line, LineCounts, LineError, LineVerdict, Lines, Settings,
};
use std::io::{self, Read};

const INPUTS: &[&[u8]] = &[
    b"",
    b"\n",
    b"1",
    b"1\r\n\n2\n",
    b"{\"a\":1}\n[\n]\n",
    b"true\nnul\n \t\nnull",
    b"[[[]]]\n[[]]\n\"\xC3\xA9\"\n\"\xC3\n",
    b"\xEF\xBB\xBF{}\n\xEF\xBB\xBF{}\n",
    b"\xEF\xBB",
];

/// What a line of these bytes comes to that stands from an offset on.
fn verdict_of(bytes: &[u8], at: usize, is_ended: bool, settings: Settings) -> LineVerdict {
    use jx::Refusal::{Stopped, TooDeep};
    if bytes.iter().all(|byte| b" \t\r\n".contains(byte)) {
        return LineVerdict::Blank;
    }
    // The first line may be a part of a mark that is ignored.
    let settings = Settings {
        ignore_mark: settings.ignore_mark && at == 0,
        ..settings
    };
    match check(bytes, settings) {
        Ok(()) if !is_ended && b"0123456789el".contains(&bytes[bytes.len() - 1]) => {
            LineVerdict::MayBeCut
        }
        Ok(()) => LineVerdict::Accepted,
        Err(Fault::Refused(Stopped { at: inside })) => {
            LineVerdict::Refused(Stopped { at: at + inside })
        }
        Err(Fault::Refused(TooDeep { at: inside })) => {
            LineVerdict::Refused(TooDeep { at: at + inside })
        }
        Err(Fault::Refused(refusal)) => LineVerdict::Refused(refusal),
        Err(Fault::OutOfMemory) => panic!("out of memory"),
    }
}

fn wanted(input: &[u8], settings: Settings) -> (Vec<Line>, LineCounts) {
    let has_mark = settings.ignore_mark && input.starts_with(b"\xEF\xBB\xBF");
    let mut start = if has_mark { 3 } else { 0 };
    let (mut bad, mut counts) = (Vec::new(), LineCounts::default());
    for number in 1.. {
        if start >= input.len() {
            break;
        }
        let feed = input[start..].iter().position(|byte| *byte == b'\n');
        let end = feed.map_or(input.len(), |length| start + length);
        let verdict = verdict_of(&input[start..end], start, feed.is_some(), settings);
        match verdict {
            LineVerdict::Accepted => counts.accepted += 1,
            LineVerdict::Blank => counts.blank += 1,
            LineVerdict::Refused(_) | LineVerdict::MayBeCut => counts.refused += 1,
        }
        if verdict != LineVerdict::Accepted {
            bad.push(Line {
                number,
                span: start..end,
                verdict,
            });
        }
        start = end + 1;
    }
    (bad, counts)
}

/// Gives so many bytes a read, and is interrupted before each.
struct Slowly<'a> {
    input: &'a [u8],
    most: usize,
    is_interrupted: bool,
}

impl Read for Slowly<'_> {
    fn read(&mut self, room: &mut [u8]) -> io::Result<usize> {
        self.is_interrupted = !self.is_interrupted;
        if self.is_interrupted {
            return Err(io::ErrorKind::Interrupted.into());
        }
        let most = self.most.min(room.len());
        self.input.read(&mut room[..most])
    }
}

#[test]
fn each_cut_comes_to_the_same() {
    for input in INPUTS {
        for depth in [0, 2, 512] {
            for ignore_mark in [false, true] {
                let settings = Settings {
                    depth,
                    ignore_mark,
                    unique_names: false,
                };
                let wants = wanted(input, settings);
                assert_eq!(lines(input, settings).unwrap(), wants);
                for cut in 0..=input.len() {
                    let mut reader = Lines::new(settings).unwrap();
                    reader.feed(&input[..cut]).unwrap();
                    let mut bad = reader.take().unwrap();
                    reader.feed(&input[cut..]).unwrap();
                    bad.extend(reader.take().unwrap());
                    let (last, counts) = reader.end().unwrap();
                    bad.extend(last);
                    assert_eq!((bad, counts), wants, "{input:?} cut at {cut}");
                }
                for most in [1, 2, 7] {
                    let slowly = Slowly {
                        input,
                        most,
                        is_interrupted: false,
                    };
                    let mut told = BadLines::new(slowly, settings).unwrap();
                    let bad: Vec<Line> = told.by_ref().map(Result::unwrap).collect();
                    assert_eq!((bad, told.counts().unwrap()), wants);
                    assert!(told.next().is_none());
                }
            }
        }
    }
}

#[test]
fn a_failing_reader_is_told_behind_its_lines() {
    struct Failing;
    impl Read for Failing {
        fn read(&mut self, _: &mut [u8]) -> io::Result<usize> {
            Err(io::Error::other("gone"))
        }
    }
    let mut bad = BadLines::new((&b"nul\n["[..]).chain(Failing), jx::DEPTH).unwrap();
    assert_eq!(bad.next().unwrap().unwrap().to_string(), "1 0..3 truncated");
    assert_eq!(bad.next().unwrap().unwrap_err().to_string(), "gone");
    assert!(bad.next().is_none());
}

#[test]
fn what_is_refused_is_told() {
    let unique = Settings {
        unique_names: true,
        ..Settings::default()
    };
    assert_eq!(Lines::new(unique).unwrap_err(), LineError::NoUniqueNames);
    assert_eq!(
        io::Error::from(LineError::OutOfMemory).kind(),
        io::ErrorKind::OutOfMemory
    );
}

#[test]
fn a_reader_goes_to_another_thread() {
    let mut reader = Lines::new(1).unwrap();
    reader.feed(b"[\n").unwrap();
    let told = std::thread::spawn(move || {
        reader.feed(&b"\n".repeat(100_000)).unwrap();
        reader.take().unwrap().len()
    });
    assert_eq!(told.join().unwrap(), 100_001);
}
