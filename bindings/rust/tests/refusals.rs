//! Each refusal by its name, and that nothing is changed by it.
mod support;

use bullmyrtle::{Connection, Ended, Framing, Outgoing, Refusal, Settings, NOBODY};
use support::{asked, events, feed, lines, written};

/// Does something that is refused, and looks for anything that it has changed.
fn refused<T: std::fmt::Debug>(
    connection: &mut Connection,
    why: Refusal,
    action: impl FnOnce(&mut Connection) -> Result<T, Refusal>,
) {
    let before = (connection.report(), connection.pending(), connection.is_done());
    assert_eq!(action(connection).expect_err("it is refused"), why);
    assert_eq!((connection.report(), connection.pending(), connection.is_done()), before);
    assert_eq!(connection.events().expect("memory"), []);
}

#[test]
fn numbers_that_are_not_open() {
    let mut connection = asked();
    for number in [0, 2, u64::MAX] {
        refused(&mut connection, Refusal::NotOpen, |it| it.answer(number, "1"));
        refused(&mut connection, Refusal::NotOpen, |it| it.close(number));
        refused(&mut connection, Refusal::NotOpen, |it| it.fail(number, 1, "m", None));
        refused(&mut connection, Refusal::NotOpen, |it| it.cancel(number));
    }
    refused(&mut connection, Refusal::NotOpen, |it| it.call(2, "m", None));
    refused(&mut connection, Refusal::NotOpen, |it| it.call_batch(2, &[Outgoing::new("m", None)]));
    connection.answer(1, "1").unwrap();
    refused(&mut connection, Refusal::NotOpen, |it| it.answer(1, "1"));
}

#[test]
fn keys_that_do_not_wait() {
    let mut connection = lines();
    for key in [0, 1, u64::MAX] {
        refused(&mut connection, Refusal::NotWaiting, |it| it.withdraw(key));
    }
    let key = connection.call(NOBODY, "a", None).unwrap();
    connection.withdraw(key).unwrap();
    refused(&mut connection, Refusal::NotWaiting, |it| it.withdraw(key));
    let mut without_cancels = Connection::new(Settings::new()).unwrap();
    let key = without_cancels.call(NOBODY, "a", None).unwrap();
    refused(&mut without_cancels, Refusal::NotWaiting, |it| it.withdraw(key));
}

#[test]
fn an_input_that_is_over() {
    let mut connection = asked();
    connection.end(Ended::Closed).unwrap();
    refused_after_end(&mut connection);
    assert_eq!(events(&mut connection).len(), 0);
    refused(&mut connection, Refusal::Over, |it| it.call(NOBODY, "a", None));
    refused(&mut connection, Refusal::Over, |it| it.call_batch(1, &[Outgoing::new("a", None)]));
    connection.answer(1, "1").unwrap();
    assert_eq!(written(&mut connection).len(), 1);
    assert!(connection.is_done());
}

fn refused_after_end(connection: &mut Connection) {
    assert_eq!(connection.events().unwrap().len(), 1, "the end");
    refused(connection, Refusal::Over, |it| it.feed(b"{}\n"));
    refused(connection, Refusal::Over, |it| it.end(Ended::Closed));
    refused(connection, Refusal::Over, |it| it.end(Ended::ReadFailed));
}

#[test]
fn texts_that_are_no_json() {
    let mut connection = asked();
    let deep = "[".repeat(121) + &"]".repeat(121);
    for text in ["", " ", "{", "1 2", "nul", "\"", "01", deep.as_str()] {
        refused(&mut connection, Refusal::NotJson, |it| it.answer(1, text));
        refused(&mut connection, Refusal::NotJson, |it| it.fail(1, 1, "m", text));
        refused(&mut connection, Refusal::NotJson, |it| it.call(1, "m", text));
        refused(&mut connection, Refusal::NotJson, |it| it.notify("m", text));
    }
    refused(&mut connection, Refusal::NotJson, |it| it.answer(1, b"\"\xff\""));
    // (params are an array or an object, and a request isn't closed without an answer)
    refused(&mut connection, Refusal::NotJson, |it| it.call(1, "m", "5"));
    refused(&mut connection, Refusal::NotJson, |it| it.notify("m", "\"text\""));
    refused(&mut connection, Refusal::NotJson, |it| it.call_batch(1, &[Outgoing::new("a", "1")]));
    refused(&mut connection, Refusal::NotJson, |it| it.close(1));
    let whole = "[".repeat(120) + &"]".repeat(120);
    assert_eq!(connection.answer(1, &whole), Ok(()));
}

#[test]
fn names_that_are_no_text() {
    let mut connection = asked();
    refused(&mut connection, Refusal::NotText, |it| it.call(1, b"\xff", None));
    refused(&mut connection, Refusal::NotText, |it| it.notify(b"\xc3", "{}"));
    refused(&mut connection, Refusal::NotText, |it| it.fail(1, 1, b"\xed\xa0\x80", None));
    refused(&mut connection, Refusal::NotText, |it| {
        it.call_batch(1, &[Outgoing::new("a", "1"), Outgoing::new(b"\xff", None)])
    });
}

#[test]
fn settings_that_there_are_not() {
    for settings in [
        Settings::new().content(0),
        Settings::new().content(2_147_483_648),
        Settings::new().content(u32::MAX),
        Settings::new().calls(0),
    ] {
        assert_eq!(Connection::new(settings).expect_err("no such settings"), Refusal::Settings);
    }
    for most in [1, 16_777_216, 16_777_217, 2_147_483_647] {
        let settings = Settings::new().content(most).calls(u64::MAX).framing(Framing::Contents);
        assert!(Connection::new(settings).is_ok());
    }
}

#[test]
fn a_batch_of_no_calls() {
    refused(&mut lines(), Refusal::Empty, |it| it.call_batch(NOBODY, &[]));
}

/// `checks/rust_crate.py` runs it where each request for more than 100,000 bytes is refused.
#[test]
#[ignore = "it wants memory to be refused"]
fn memory_that_is_refused() {
    static LARGE: [u8; 300_000] = [b' '; 300_000];
    let mut connection = lines();
    refused(&mut connection, Refusal::NoMemory, |it| it.feed(&LARGE));
    feed(&mut connection, r#"{"jsonrpc":"2.0","method":"m","id":7}"#);
    assert_eq!(events(&mut connection).len(), 1);
    refused(&mut connection, Refusal::NoMemory, |it| it.call(1, "m", &LARGE));
    connection.answer(1, "1").unwrap();
    assert_eq!(written(&mut connection), [r#"{"id":7,"jsonrpc":"2.0","result":1}"#]);
}
