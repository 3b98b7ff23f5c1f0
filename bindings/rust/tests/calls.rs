//! Each call on its way where it succeeds. What is expected is what docs/connection.md says.
mod support;

use bullmyrtle::{
    Close, Connection, Ended, ErrorObject, ErrorRef, Event, EventRef, Framing, Order, Outgoing, Report, Settings,
    NOBODY,
};
use support::{asked, events, feed, lines, written};

#[test]
fn a_request_is_told_and_answered() {
    let mut connection = lines();
    feed(&mut connection, r#"{"jsonrpc":"2.0","method":"m","params":{"a": 1.50},"id":"x"}"#);
    let wanted =
        Event::Request { number: 1, id: r#""x""#.into(), method: "m".into(), params: Some(r#"{"a":1.50}"#.into()) };
    assert_eq!(events(&mut connection), [wanted]);
    connection.answer(1, &String::from("[null, true]")).unwrap();
    assert_eq!(written(&mut connection), [r#"{"id":"x","jsonrpc":"2.0","result":[null,true]}"#]);
}

#[test]
fn a_notification_is_told_and_closed() {
    let mut connection = lines();
    feed(&mut connection, r#"{"jsonrpc":"2.0","method":"n"}"#);
    assert_eq!(events(&mut connection), [Event::Notification { number: 1, method: "n".into(), params: None }]);
    assert_eq!(connection.report().open, 1);
    connection.close(1).unwrap();
    assert_eq!(connection.report().open, 0);
    assert_eq!(connection.pending(), 0);
}

#[test]
fn a_request_is_failed_with_and_without_data() {
    let mut connection = asked();
    connection.fail(1, -32602, "no \"such\" params", None).unwrap();
    assert_eq!(
        written(&mut connection),
        [r#"{"error":{"code":-32602,"message":"no \"such\" params"},"id":7,"jsonrpc":"2.0"}"#]
    );
    let mut connection = asked();
    connection.fail(1, i64::MIN, b"m", b"{\"a\": []}").unwrap();
    assert_eq!(
        written(&mut connection),
        [r#"{"error":{"code":-9223372036854775808,"data":{"a":[]},"message":"m"},"id":7,"jsonrpc":"2.0"}"#]
    );
}

#[test]
fn a_call_is_made_and_its_reply_told() {
    let mut connection = asked();
    assert_eq!(connection.call(NOBODY, "a", None), Ok(1));
    assert_eq!(connection.call(1, String::from("b"), "[1, 2]"), Ok(2));
    let calls = [r#"{"id":1,"jsonrpc":"2.0","method":"a"}"#, r#"{"id":2,"jsonrpc":"2.0","method":"b","params":[1,2]}"#];
    assert_eq!(written(&mut connection), calls);
    feed(&mut connection, r#"{"jsonrpc":"2.0","id":2,"result":{"b": 1}}"#);
    feed(&mut connection, r#"{"jsonrpc":"2.0","id":1,"error":{"code":5,"message":"no","data":[1]}}"#);
    let error = ErrorObject { code: 5, message: "no".into(), data: Some("[1]".into()) };
    assert_eq!(error.to_string(), "no (5)");
    let told =
        [Event::Replied { key: 2, reply: Ok(r#"{"b":1}"#.into()) }, Event::Replied { key: 1, reply: Err(error) }];
    assert_eq!(events(&mut connection), told);
}

#[test]
fn a_batch_is_one_array_and_gives_its_keys() {
    let mut connection = lines();
    let text = String::from(r#"["x"]"#);
    let keys = connection.call_batch(NOBODY, &[Outgoing::new("a", None), Outgoing::new("b", &text)]).unwrap();
    assert_eq!(keys, 1..3);
    let array = r#"[{"id":1,"jsonrpc":"2.0","method":"a"},{"id":2,"jsonrpc":"2.0","method":"b","params":["x"]}]"#;
    assert_eq!(written(&mut connection), [array]);
    assert_eq!(connection.call_batch(NOBODY, &[Outgoing::new(b"c", b"{}")]), Ok(3..4));
}

#[test]
fn notifications_go_out_even_after_the_end() {
    let mut connection = lines();
    connection.notify("a", r#"{"b":null}"#).unwrap();
    connection.end(Ended::Closed).unwrap();
    assert_eq!(events(&mut connection), [Event::Over(Close::Clean)]);
    connection.notify("c", None).unwrap();
    let wanted = [r#"{"jsonrpc":"2.0","method":"a","params":{"b":null}}"#, r#"{"jsonrpc":"2.0","method":"c"}"#];
    assert_eq!(written(&mut connection), wanted);
}

#[test]
fn a_call_is_withdrawn_and_still_replied_to() {
    let mut connection = lines();
    let key = connection.call(NOBODY, "a", None).unwrap();
    connection.withdraw(key).unwrap();
    let wanted = [
        r#"{"id":1,"jsonrpc":"2.0","method":"a"}"#,
        r#"{"jsonrpc":"2.0","method":"$/cancelRequest","params":{"id":1}}"#,
    ];
    assert_eq!(written(&mut connection), wanted);
    feed(&mut connection, r#"{"jsonrpc":"2.0","id":1,"result":0}"#);
    assert_eq!(events(&mut connection), [Event::Replied { key, reply: Ok("0".into()) }]);
}

#[test]
fn a_cancel_is_told_and_answered_and_withdraws() {
    let mut connection = asked();
    connection.call(1, "ask", None).unwrap();
    feed(&mut connection, r#"{"jsonrpc":"2.0","method":"$/cancelRequest","params":{"id":7}}"#);
    assert_eq!(events(&mut connection), [Event::Cancelled { number: 1 }]);
    connection.cancel(1).unwrap();
    let wanted = [
        r#"{"id":1,"jsonrpc":"2.0","method":"ask"}"#,
        r#"{"jsonrpc":"2.0","method":"$/cancelRequest","params":{"id":1}}"#,
        r#"{"error":{"code":-32800,"message":"Request cancelled"},"id":7,"jsonrpc":"2.0"}"#,
    ];
    assert_eq!(written(&mut connection), wanted);
}

#[test]
fn the_end_tells_what_is_unanswered() {
    let mut connection = lines();
    connection.call(NOBODY, "a", None).unwrap();
    connection.call(NOBODY, "b", None).unwrap();
    connection.end(Ended::ReadFailed).unwrap();
    let told = [Event::Unanswered { key: 1 }, Event::Unanswered { key: 2 }, Event::Over(Close::Read)];
    assert_eq!(events(&mut connection), told);
    assert!(!connection.is_done(), "the calls aren't taken yet");
    assert_eq!(written(&mut connection).len(), 2);
    assert!(connection.is_done());
}

#[test]
fn broken_input_ends_by_its_name() {
    let many = "a:b\r\n".repeat(1_000);
    let frames: [(&str, Close); 7] = [
        ("Content-Length: 2\n\n{}", Close::BadHead),
        ("Content-Length: x\r\n\r\n", Close::BadLength),
        ("Content-Length: 2\r\nContent-Length: 2\r\n\r\n{}", Close::TwoLengths),
        ("Content-Length: 101\r\n\r\n", Close::TooLarge),
        ("Host: x\r\n\r\n", Close::NoLength),
        (&many, Close::HeadTooLong),
        ("Content-Length: 5\r\n\r\n{", Close::Truncated),
    ];
    for (input, close) in frames {
        let mut connection = Connection::new(Settings::new().content(100)).unwrap();
        connection.feed(input.as_bytes()).unwrap();
        connection.end(Ended::Closed).unwrap();
        assert_eq!(events(&mut connection), [Event::Over(close)], "{input:?}");
    }
}

#[test]
fn more_calls_than_the_setting_are_the_end() {
    let mut connection = Connection::new(Settings::new().framing(Framing::Lines).calls(1)).unwrap();
    feed(&mut connection, r#"{"jsonrpc":"2.0","method":"a"}"#);
    feed(&mut connection, r#"{"jsonrpc":"2.0","method":"b"}"#);
    let told = events(&mut connection);
    assert_eq!(told.len(), 2);
    assert_eq!(told[1], Event::Over(Close::Full));
}

#[test]
fn answers_wait_for_earlier_ones_where_the_order_says_so() {
    let requests = [
        r#"{"jsonrpc":"2.0","method":"a","id":1}"#,
        r#"[{"jsonrpc":"2.0","method":"b","id":2},{"jsonrpc":"2.0","method":"n"}]"#,
    ];
    for (order, out_of_turn) in [(Order::AsAnswered, 1), (Order::AsCame, 0)] {
        let mut connection = Connection::new(Settings::new().framing(Framing::Lines).order(order)).unwrap();
        requests.iter().for_each(|it| feed(&mut connection, it));
        assert_eq!(events(&mut connection).len(), 3);
        connection.answer(2, "2").unwrap();
        connection.close(3).unwrap();
        assert_eq!(written(&mut connection).len(), out_of_turn);
        connection.answer(1, "1").unwrap();
        assert_eq!(written(&mut connection).len(), 2 - out_of_turn);
    }
}

#[test]
fn a_large_event_is_told() {
    let long = "x".repeat(3_000_000);
    let content = format!(r#"{{"jsonrpc":"2.0","method":"m","params":["{long}"],"id":1}}"#);
    let mut connection = lines();
    feed(&mut connection, &content);
    feed(&mut connection, r#"{"jsonrpc":"2.0","method":"n"}"#);
    let told = events(&mut connection);
    assert_eq!(told.len(), 2);
    let params = format!("[\"{long}\"]");
    assert!(matches!(&told[0], Event::Request { params: Some(it), .. } if *it == params));
    assert_eq!(told[1], Event::Notification { number: 2, method: "n".into(), params: None });
}

#[test]
fn events_at_once_and_borrowed_ones_are_those_one_by_one() {
    let input = [
        "[5,{\"\u{e9}",
        r#"{"jsonrpc":"2.0","method":"m","params":["a",{"b":1.50}],"id":"i\u0001\"d"}"#,
        "5",
        "broken",
        r#"[{"jsonrpc":"2.0","method":"","id":0},{"jsonrpc":"2.0","method":"$/cancelRequest","params":{"id":0}}]"#,
        r#"{"jsonrpc":"2.0","id":1,"error":{"code":-9223372036854775808,"message":"gone","data":[null]}}"#,
        r#"{"jsonrpc":"2.0","method":"\u00fc \ud83d\ude00","id":-7}"#,
    ];
    let broken = || Connection::new(Settings::new().framing(Framing::Lines).cancels(true).broken(true)).unwrap();
    let (mut one, mut many, mut lending) = (broken(), broken(), broken());
    for it in [&mut one, &mut many, &mut lending] {
        it.call(NOBODY, "a", None).unwrap();
        it.call(NOBODY, "b", None).unwrap();
        input.iter().for_each(|content| feed(it, content));
        it.end(Ended::Closed).unwrap();
    }
    let told: Vec<Event> = std::iter::from_fn(|| one.next_event().unwrap()).collect();
    assert_eq!(many.events().unwrap(), told);
    assert_eq!(many.take_bytes(), one.output());
    // (three broken, a request, one in a batch and its cancel, an error, a request, a call without a reply, the end)
    assert_eq!(told.len(), 10);
    assert!(matches!(&told[7], Event::Request { method, .. } if method == "ü 😀"));
    for (at, event) in told.iter().enumerate() {
        let borrowed = lending.next_event_ref().unwrap().unwrap();
        if at == 6 {
            let error = ErrorRef { code: i64::MIN, message: "gone", data: Some("[null]") };
            assert_eq!(borrowed, EventRef::Replied { key: 1, reply: Err(error) });
        }
        assert_eq!(borrowed.to_owned(), *event);
    }
    assert_eq!(lending.next_event_ref(), Ok(None));
    let answers = ["Parse error", "Invalid Request", "Parse error"];
    for (line, message) in written(&mut one).iter().skip(2).zip(answers) {
        assert!(line.contains(message), "{line}");
    }
}

#[test]
fn a_report_counts_what_happened() {
    let mut connection = lines();
    assert_eq!(connection.report(), Report::default());
    let input = [
        r#"{"jsonrpc":"2.0","method":"a","id":1}"#,
        r#"{"jsonrpc":"2.0","method":"n"}"#,
        "broken",
        "[1,2]",
        r#"{"jsonrpc":"2.0","id":9,"result":1}"#,
    ];
    input.iter().for_each(|it| feed(&mut connection, it));
    connection.call(NOBODY, "x", None).unwrap();
    assert_eq!(events(&mut connection).len(), 2);
    connection.answer(1, "1").unwrap();
    let wanted = Report {
        calls: 2,
        requests: 1,
        open: 1,
        waiting: 1,
        own_calls: 1,
        answers_written: 3,
        unreadable: 1,
        invalid: 2,
        ignored: 1,
    };
    assert_eq!(connection.report(), wanted);
    assert!(format!("{connection:?}").contains("answers_written: 3"));
}
