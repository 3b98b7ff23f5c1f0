//! Cancels by their name, broken input that is told, and where a fault lies. What is expected is what
//! docs/connection.md says.
mod support;

use bullmyrtle::{Cancels, Close, Connection, Defect, Ended, Event, Framing, Refusal, Settings, NOBODY};
use support::{events, feed, written};

const MCP_CANCEL: &str =
    r#"{"jsonrpc":"2.0","method":"notifications/cancelled","params":{"requestId":7,"reason":"late"}}"#;
const LSP_CANCEL: &str = r#"{"jsonrpc":"2.0","method":"$/cancelRequest","params":{"id":7}}"#;

/// A connection with these cancels, whose contents are lines, and the open request 1 with the id 7.
fn asked_with(cancels: impl Into<Cancels>) -> Connection {
    let settings = Settings::new().framing(Framing::Lines).cancels(cancels);
    let mut connection = Connection::new(settings).expect("such settings");
    feed(&mut connection, r#"{"jsonrpc":"2.0","method":"m","id":7}"#);
    assert_eq!(events(&mut connection).len(), 1);
    connection
}

#[test]
fn a_cancel_of_mcp_leaves_the_request_without_an_answer() {
    let mut connection = asked_with(Cancels::Mcp);
    feed(&mut connection, MCP_CANCEL);
    assert_eq!(events(&mut connection), [Event::Cancelled { number: 1 }]);
    connection.cancel(1).unwrap();
    assert_eq!(connection.pending(), 0);
    assert_eq!((connection.report().open, connection.report().answers_written), (0, 0));
    assert_eq!(connection.cancel(1), Err(Refusal::NotOpen));
}

#[test]
fn a_cancelled_request_of_mcp_may_be_answered() {
    let mut connection = asked_with(Cancels::Mcp);
    feed(&mut connection, MCP_CANCEL);
    assert_eq!(events(&mut connection).len(), 1);
    connection.answer(1, "true").unwrap();
    assert_eq!(written(&mut connection), [r#"{"id":7,"jsonrpc":"2.0","result":true}"#]);
}

#[test]
fn a_request_that_was_not_cancelled_is_answered_as_cancelled() {
    let mut connection = asked_with(Cancels::Mcp);
    connection.cancel(1).unwrap();
    let answer = r#"{"error":{"code":-32800,"message":"Request cancelled"},"id":7,"jsonrpc":"2.0"}"#;
    assert_eq!(written(&mut connection), [answer]);
}

#[test]
fn cancels_are_those_of_the_setting() {
    for (cancels, content, is_cancel) in [
        (Cancels::None, LSP_CANCEL, false),
        (Cancels::None, MCP_CANCEL, false),
        (Cancels::Lsp, LSP_CANCEL, true),
        (Cancels::Lsp, MCP_CANCEL, false),
        (Cancels::Mcp, LSP_CANCEL, false),
        (Cancels::Mcp, MCP_CANCEL, true),
    ] {
        let mut connection = asked_with(cancels);
        feed(&mut connection, content);
        let told = events(&mut connection);
        assert_eq!(told == [Event::Cancelled { number: 1 }], is_cancel, "{cancels:?}, {content}");
        assert_eq!(told.len(), 1);
    }
    assert_eq!((Cancels::from(true), Cancels::from(false)), (Cancels::Lsp, Cancels::None));
}

#[test]
fn a_withdrawn_call_waits_no_longer_with_mcp() {
    let mut connection = asked_with(Cancels::Mcp);
    assert_eq!(connection.call(NOBODY, "a", None), Ok(1));
    connection.withdraw(1).unwrap();
    assert_eq!(connection.withdraw(1), Err(Refusal::NotWaiting));
    let cancel = r#"{"jsonrpc":"2.0","method":"notifications/cancelled","params":{"requestId":1}}"#;
    assert_eq!(written(&mut connection), [r#"{"id":1,"jsonrpc":"2.0","method":"a"}"#, cancel]);
    feed(&mut connection, r#"{"jsonrpc":"2.0","id":1,"result":3}"#);
    assert_eq!(events(&mut connection), []);
    assert_eq!((connection.report().waiting, connection.report().ignored), (0, 1));
    connection.end(Ended::Closed).unwrap();
    assert_eq!(events(&mut connection), [Event::Over(Close::Clean)]);
}

#[test]
fn broken_input_is_told_where_it_is_asked_for() {
    let contents = b"[1,{\"jsonrpc\":\"2.0\",\"method\":\"n\"},2]\n{\"a\n\xff\n";
    let wanted = [
        Event::Broken { place: 0, start: contents[..36].to_vec(), defect: Defect::Invalid { first: 0, count: 2 } },
        Event::Notification { number: 1, method: "n".into(), params: None },
        Event::Broken { place: 37, start: b"{\"a".to_vec(), defect: Defect::Unreadable },
        Event::Broken { place: 41, start: b"\xff".to_vec(), defect: Defect::Unreadable },
    ];
    let settings = Settings::new().framing(Framing::Lines);
    let mut connection = Connection::new(settings.broken(true)).unwrap();
    connection.feed(contents).unwrap();
    assert_eq!(events(&mut connection), wanted);
    let report = connection.report();
    assert_eq!((report.unreadable, report.invalid), (2, 2));
    // the same without it: the same answers, and no such event
    let mut other = Connection::new(settings).unwrap();
    other.feed(contents).unwrap();
    assert_eq!(events(&mut other), [wanted[1].clone()]);
    connection.close(1).unwrap();
    other.close(1).unwrap();
    assert_eq!(written(&mut other), written(&mut connection));
}

#[test]
fn a_batch_has_at_most_so_many_entries() {
    let array = |count: usize| [b"[1", b",1".repeat(count - 1).as_slice(), b"]\n"].concat();
    let settings = Settings::new().framing(Framing::Lines);
    for (settings, count, invalid) in [
        (settings.entries(2), 2, 2),
        (settings.entries(2), 3, 1),
        (settings.entries(1), 2, 1),
        (settings, 100_000, 100_000),
        (settings, 100_001, 1),
        (settings.entries(u32::MAX), 100_001, 100_001),
    ] {
        let mut connection = Connection::new(settings).unwrap();
        connection.feed(&array(count)).unwrap();
        assert_eq!(events(&mut connection), []);
        assert_eq!(connection.report().invalid, invalid, "{count} entries");
    }
    assert_eq!(Connection::new(settings.entries(0)).err(), Some(Refusal::Settings));
}

#[test]
fn params_that_are_null_are_told_where_it_is_asked_for() {
    let settings = Settings::new().framing(Framing::Lines);
    for (settings, params) in [(settings, None), (settings.null_params(true), Some("null".to_string()))] {
        let mut connection = Connection::new(settings).unwrap();
        connection.feed(b"{\"jsonrpc\":\"2.0\",\"method\":\"n\",\"params\":null}\n").unwrap();
        assert_eq!(events(&mut connection), [Event::Notification { number: 1, method: "n".into(), params }]);
    }
}

#[test]
fn at_most_64_bytes_of_a_broken_content_are_told() {
    let mut connection = Connection::new(Settings::new().framing(Framing::Contents).broken(true)).unwrap();
    let content: Vec<u8> = (0..=255).collect();
    connection.feed(b"[]").unwrap();
    connection.feed(&content).unwrap();
    let wanted = [
        Event::Broken { place: 0, start: b"[]".to_vec(), defect: Defect::Invalid { first: 0, count: 1 } },
        Event::Broken { place: 2, start: content[..64].to_vec(), defect: Defect::Unreadable },
    ];
    assert_eq!(events(&mut connection), wanted);
}

#[test]
fn the_place_of_a_fault_is_that_of_its_frame() {
    let mut connection = Connection::new(Settings::new()).unwrap();
    connection.feed(b"Content-Length: 2\r\n\r\n[]Content-Length: 3\r\n\r\n[").unwrap();
    assert_eq!(connection.fault_place(), None);
    connection.end(Ended::Closed).unwrap();
    assert_eq!(connection.fault_place(), Some(23));
    assert_eq!(events(&mut connection), [Event::Over(Close::Truncated)]);
    let mut connection = Connection::new(Settings::new().framing(Framing::Lines).content(4)).unwrap();
    connection.feed(b"[]\n[]  \n[1,2]\n").unwrap();
    assert_eq!(connection.fault_place(), Some(8));
    connection.feed(b"[]\n").unwrap();
    assert_eq!(connection.fault_place(), Some(8));
    assert_eq!(events(&mut connection), [Event::Over(Close::TooLarge)]);
}
