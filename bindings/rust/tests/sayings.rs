//! Several things to say in one call.
mod support;

use bullmyrtle::{Outgoing, Refusal, Sayings, NOBODY};
use support::{asked, lines, written};

#[test]
fn each_saying_is_said_by_itself() {
    let (mut connection, mut sayings) = (asked(), Sayings::new());
    sayings.notify("a", None);
    sayings.close(1);
    sayings.call(1, "b", "[1]");
    sayings.call_batch(NOBODY, &[Outgoing::new("c", None), Outgoing::new("d", "{}")]);
    sayings.withdraw(1);
    sayings.withdraw(1);
    sayings.fail(1, -7, "no", "[null]");
    sayings.answer(1, "1");
    sayings.cancel(9);
    sayings.notify(b"\xff", None);
    connection.say_all(&mut sayings);
    let wanted = [
        Ok(0),
        Err(Refusal::NotJson),
        Ok(1),
        Ok(2),
        Ok(0),
        Err(Refusal::NotWaiting),
        Ok(0),
        Err(Refusal::NotOpen),
        Err(Refusal::NotOpen),
        Err(Refusal::NotText),
    ];
    assert_eq!(sayings.outcomes().collect::<Vec<_>>(), wanted);
    assert_eq!((sayings.len(), sayings.refused()), (10, 5));
    let lines = [
        r#"{"jsonrpc":"2.0","method":"a"}"#,
        r#"{"id":1,"jsonrpc":"2.0","method":"b","params":[1]}"#,
        r#"[{"id":2,"jsonrpc":"2.0","method":"c"},{"id":3,"jsonrpc":"2.0","method":"d","params":{}}]"#,
        r#"{"jsonrpc":"2.0","method":"$/cancelRequest","params":{"id":1}}"#,
        r#"{"error":{"code":-7,"data":[null],"message":"no"},"id":7,"jsonrpc":"2.0"}"#,
    ];
    assert_eq!(written(&mut connection), lines);
    sayings.clear();
    connection.say_all(&mut sayings);
    assert_eq!((sayings.is_empty(), sayings.refused(), connection.pending()), (true, 0, 0));
}

#[test]
fn what_is_said_comes_behind_what_was_pending() {
    let (mut connection, mut sayings) = (lines(), Sayings::new());
    connection.notify("before", None).expect("it is text");
    sayings.notify("\u{1}", None);
    connection.say_all(&mut sayings);
    let lines = [r#"{"jsonrpc":"2.0","method":"before"}"#, r#"{"jsonrpc":"2.0","method":"\u0001"}"#];
    assert_eq!(written(&mut connection), lines);
}
