//! How what is to be written is lent, taken and written.
mod support;

use bullmyrtle::{Connection, Framing, Refusal, Settings};
use std::io::{self, ErrorKind, Write};
use support::lines;

#[test]
fn what_was_written_is_not_lent_again() {
    for size in 1.. {
        let mut connection = lines();
        connection.notify("a", None).unwrap();
        connection.notify("b", None).unwrap();
        let whole = b"{\"jsonrpc\":\"2.0\",\"method\":\"a\"}\n{\"jsonrpc\":\"2.0\",\"method\":\"b\"}\n";
        let mut came = Vec::new();
        while !connection.output().is_empty() {
            let count = connection.output().len().min(size);
            came.extend_from_slice(&connection.output()[..count]);
            assert_eq!(connection.written(count), Ok(()));
            assert_eq!(connection.pending(), whole.len() - came.len());
        }
        assert_eq!(came, whole);
        assert_eq!(connection.pending(), 0);
        assert!(connection.take_bytes().is_empty());
        if size > whole.len() {
            break;
        }
    }
}

#[test]
fn what_is_lent_stays_the_same_until_it_is_written() {
    let mut connection = lines();
    assert_eq!(connection.output(), b"");
    connection.notify("a", None).unwrap();
    let lent = connection.output().to_vec();
    assert_eq!(lent, b"{\"jsonrpc\":\"2.0\",\"method\":\"a\"}\n");
    connection.notify("b", None).unwrap();
    assert_eq!(connection.output(), lent);
    assert_eq!(connection.written(lent.len() + 1), Err(Refusal::Settings));
    assert_eq!(connection.written(0), Ok(()));
    assert!(connection.output().starts_with(&lent));
    assert_eq!(connection.written(lent.len()), Ok(()));
    assert_eq!(connection.output(), b"{\"jsonrpc\":\"2.0\",\"method\":\"b\"}\n");
}

#[test]
fn contents_are_taken_whole() {
    let mut connection = Connection::new(Settings::new().framing(Framing::Contents)).unwrap();
    for method in ["a", "longer", "last"] {
        connection.notify(method, None).unwrap();
    }
    let first = br#"{"jsonrpc":"2.0","method":"a"}"#;
    assert_eq!(connection.pending(), first.len());
    assert_eq!(connection.output(), first);
    assert_eq!(connection.written(first.len() - 1), Err(Refusal::Settings));
    assert_eq!(connection.output(), first);
    assert_eq!(connection.written(first.len()), Ok(()));
    assert_eq!(connection.take_bytes(), br#"{"jsonrpc":"2.0","method":"longer"}"#);
    let mut wide = Vec::new();
    assert_eq!(connection.write_to(&mut wide).unwrap(), wide.len());
    assert_eq!(wide, br#"{"jsonrpc":"2.0","method":"last"}"#);
    assert_eq!(connection.take_bytes(), b"");
}

#[test]
fn a_writer_of_contents_takes_each_as_a_whole() {
    let mut connection = Connection::new(Settings::new().framing(Framing::Contents)).unwrap();
    connection.notify("a", None).unwrap();
    let text = br#"{"jsonrpc":"2.0","method":"a"}"#;
    let mut narrow = [0; 7];
    assert_eq!(connection.write_to(narrow.as_mut_slice()).unwrap_err().kind(), ErrorKind::WriteZero);
    assert_eq!(connection.take_bytes(), text);
}

#[test]
fn little_is_held_once_all_is_taken() {
    let text = format!("[\"{}\"]", "x".repeat(4_000_000));
    for framing in [Framing::Frames, Framing::Lines, Framing::Contents] {
        let mut connection = Connection::new(Settings::new().framing(framing)).unwrap();
        assert_eq!(connection.held(), 0);
        for _ in 0..3 {
            connection.notify("a", &text).unwrap();
            // (a text of contents counts once it is lent)
            assert!(!connection.output().is_empty());
            assert!(connection.pending() > text.len() && connection.held() >= connection.pending());
            assert!(connection.take_bytes().len() > text.len());
            assert!(connection.held() <= 73_728 + 4_096, "{}", connection.held());
        }
    }
}

/// A writer that takes at most so many bytes at once, and fails each second time.
struct Narrow {
    came: Vec<u8>,
    most: usize,
    turn: usize,
    flushed: usize,
}

impl Write for Narrow {
    fn write(&mut self, bytes: &[u8]) -> io::Result<usize> {
        self.turn += 1;
        match self.turn % 3 {
            0 => Err(ErrorKind::WouldBlock.into()),
            1 => Err(ErrorKind::Interrupted.into()),
            _ => {
                let count = bytes.len().min(self.most);
                self.came.extend_from_slice(&bytes[..count]);
                Ok(count)
            }
        }
    }

    fn flush(&mut self) -> io::Result<()> {
        self.flushed += 1;
        Ok(())
    }
}

#[test]
fn a_writer_that_fails_loses_nothing() {
    for framing in [Framing::Frames, Framing::Lines] {
        let settings = Settings::new().framing(framing);
        let (mut narrow, mut wide) = (Connection::new(settings).unwrap(), Connection::new(settings).unwrap());
        let mut wanted = Vec::new();
        for it in [&mut narrow, &mut wide] {
            it.notify("a", &format!("[\"{}\"]", "x".repeat(70_000))).unwrap();
            it.notify("b", None).unwrap();
        }
        assert_eq!(wide.write_to(&mut wanted).unwrap(), wanted.len());
        let mut writer = Narrow { came: Vec::new(), most: 1_000, turn: 0, flushed: 0 };
        let mut failures = 0;
        loop {
            match narrow.write_to(&mut writer) {
                Ok(_) => break,
                Err(why) => assert_eq!(why.kind(), ErrorKind::WouldBlock),
            }
            failures += 1;
            assert_eq!(narrow.pending() + writer.came.len(), wanted.len());
        }
        assert!(failures > 50 && writer.flushed == 1);
        assert_eq!(writer.came, wanted);
        assert_eq!(narrow.pending(), 0);
    }
}

#[test]
fn what_a_writer_left_is_taken_first() {
    let mut connection = lines();
    connection.notify("a", None).unwrap();
    let mut writer = Narrow { came: Vec::new(), most: 5, turn: 1, flushed: 0 };
    assert!(connection.write_to(&mut writer).is_err());
    connection.notify("b", None).unwrap();
    writer.came.extend(connection.take_bytes());
    assert_eq!(writer.came, b"{\"jsonrpc\":\"2.0\",\"method\":\"a\"}\n{\"jsonrpc\":\"2.0\",\"method\":\"b\"}\n");
}

#[test]
fn a_writer_that_takes_nothing_is_an_error() {
    let mut connection = lines();
    connection.notify("a", None).unwrap();
    let none: &mut [u8] = &mut [];
    assert_eq!(connection.write_to(none).unwrap_err().kind(), ErrorKind::WriteZero);
}
