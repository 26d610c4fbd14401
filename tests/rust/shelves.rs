//! A shelf, by eight threads at once: each puts an index of a text of its own there, while all look.

use jx::{FindError, Index, PutError, Settings, Shelf, ShelfReader};
use std::sync::Barrier;
use std::thread;

const THREADS: usize = 8;
const LOOKS: usize = 400;

fn text_of(number: usize) -> Vec<u8> {
    format!(r#"{{"me":{number},"list":[null,{{"deep":{number}}}]}}"#).into_bytes()
}

fn index_of(text: &[u8]) -> Index<'_> {
    Index::new(text, Settings::default()).expect("a text")
}

/// The number of the text whose index stands there; all answers are those of it.
fn look(reader: &ShelfReader<'_>) -> Option<usize> {
    let text = reader.text()?;
    let me = reader.find("/me")?.expect("a member");
    let number: usize = std::str::from_utf8(me.bytes).unwrap().parse().unwrap();
    assert_eq!(text, text_of(number));
    let deep = reader.find("/list/1/deep")?.expect("a member");
    assert_eq!(deep.bytes, me.bytes);
    assert_eq!(
        reader.find("/list/2"),
        Some(Err(FindError::PastEnd { token: 1 }))
    );
    assert_eq!(reader.row(0).map(|row| row.span), Some(0..text.len()));
    assert_eq!(reader.row(6), None);
    Some(number)
}

/// Looks for a while before anything is put: which index was seen, if one was.
fn look_before(reader: &ShelfReader<'_>, number: usize) -> Option<usize> {
    let mut seen = None;
    for _ in 0..number * 10 {
        let now = look(reader);
        assert!(seen.is_none() || seen == now);
        seen = now;
    }
    seen
}

#[test]
fn all_threads_see_one_index() {
    for round in 0..20 {
        let texts: Vec<Vec<u8>> = (0..THREADS).map(text_of).collect();
        let shelf = Shelf::new().expect("memory");
        let begin = Barrier::new(THREADS);
        let told: Vec<(bool, usize)> = thread::scope(|scope| {
            let threads: Vec<_> = (0..THREADS)
                .map(|number| {
                    let text = &texts[(number + round) % THREADS];
                    let (reader, begin) = (shelf.reader().expect("memory"), &begin);
                    scope.spawn(move || {
                        begin.wait();
                        let before = look_before(&reader, number);
                        let put = reader.put(index_of(text));
                        assert!(put.is_ok() || matches!(&put, Err(PutError::Taken(back)) if back.text() == &text[..]));
                        assert!(put.is_err() || before.is_none());
                        let seen = look(&reader).expect("an index");
                        assert!(before.is_none() || before == Some(seen));
                        for _ in 0..LOOKS {
                            assert_eq!(look(&reader), Some(seen));
                        }
                        (put.is_ok(), seen)
                    })
                })
                .collect();
            threads
                .into_iter()
                .map(|thread| thread.join().expect("no wrong answer"))
                .collect()
        });
        assert_eq!(told.iter().filter(|(put, _)| *put).count(), 1);
        assert!(told.iter().all(|(_, seen)| *seen == told[0].1));
    }
}

#[test]
fn a_reader_outlives_its_shelf() {
    let text = text_of(7);
    let shelf = Shelf::new().expect("memory");
    let (reader, other) = (shelf.reader().unwrap(), shelf.reader().unwrap());
    assert_eq!(look(&reader), None);
    assert!(shelf.put(index_of(&text)).is_ok());
    drop(shelf);
    assert_eq!(look(&reader), Some(7));
    drop(reader);
    assert_eq!(
        thread::scope(|scope| scope.spawn(move || look(&other)).join().unwrap()),
        Some(7)
    );
}

#[test]
fn a_shelf_is_shared_and_sent() {
    fn shared<T: Send + Sync>() {}
    fn sent<T: Send>() {}
    shared::<Shelf<'static>>();
    sent::<ShelfReader<'static>>();
}
