//! Connections go from thread to thread, end while much is open, and speak with one another.
mod support;

use bullmyrtle::{Close, Connection, Ended, Event, Framing, Outgoing, Settings, NOBODY};
use std::sync::{Arc, Mutex};
use std::thread;
use support::{asked, feed, lines};

fn is_send<T: Send>() {}

#[test]
fn connections_are_send() {
    is_send::<Connection>();
    let mut connection = asked();
    let connection = thread::spawn(move || {
        connection.answer(1, "1").unwrap();
        connection
    });
    assert_eq!(connection.join().unwrap().report().answers_written, 1);
}

/// What a session of one connection writes.
fn session(requests: u64) -> Vec<u8> {
    let (mut connection, mut output) = (lines(), Vec::new());
    for id in 0..requests {
        feed(&mut connection, &format!(r#"{{"jsonrpc":"2.0","method":"m","params":[{id}],"id":{id}}}"#));
        for event in connection.events().unwrap() {
            if let Event::Request { number, params, .. } = event {
                connection.call(number, "ask", None).unwrap();
                connection.answer(number, params.as_deref()).unwrap();
            }
        }
        connection.write_to(&mut output).unwrap();
    }
    output
}

#[test]
fn eight_threads_write_what_one_does() {
    let alone = session(2_000);
    let threads: Vec<_> = (0..8).map(|_| thread::spawn(|| session(2_000))).collect();
    for it in threads {
        assert_eq!(it.join().unwrap(), alone);
    }
}

#[test]
fn one_connection_is_shared_by_a_mutex() {
    let shared = Arc::new(Mutex::new(lines()));
    let threads: Vec<_> = (0..8)
        .map(|_| {
            let shared = Arc::clone(&shared);
            let call = move |_| shared.lock().unwrap().call(NOBODY, "a", None).unwrap();
            thread::spawn(move || (0..100).map(call).collect::<Vec<u64>>())
        })
        .collect();
    let mut keys: Vec<u64> = threads.into_iter().flat_map(|it| it.join().unwrap()).collect();
    keys.sort_unstable();
    assert_eq!(keys, (1..=800).collect::<Vec<_>>());
}

#[test]
fn a_connection_is_dropped_while_much_is_open() {
    for _ in 0..100 {
        let mut connection = asked();
        feed(&mut connection, r#"[{"jsonrpc":"2.0","method":"a","id":1},{"jsonrpc":"2.0","method":"n"}]"#);
        connection.feed(b"{\"jsonrpc\":\"2.0\",\"meth").unwrap();
        connection.call_batch(1, &[Outgoing::new("a", None), Outgoing::new("b", None)]).unwrap();
        assert!(connection.next_event().unwrap().is_some());
        assert!(connection.pending() > 0);
    }
}

/// Hands what one has written to the other, in pieces of so many bytes.
fn hand_over(from: &mut Connection, to: &mut Connection, piece: usize) -> usize {
    let bytes = from.take_bytes();
    bytes.chunks(piece).for_each(|it| to.feed(it).unwrap());
    bytes.len()
}

#[test]
fn two_connections_back_to_back() {
    for (framing, piece) in [(Framing::Frames, 7), (Framing::Lines, 1), (Framing::Contents, usize::MAX)] {
        let settings = Settings::new().framing(framing).cancels(true);
        let (mut client, mut server) = (Connection::new(settings).unwrap(), Connection::new(settings).unwrap());
        let keys: Vec<u64> = (0..50).map(|it| client.call(NOBODY, "ask", &format!("[{it}]")).unwrap()).collect();
        let mut replies = Vec::new();
        while hand_over(&mut client, &mut server, piece) + hand_over(&mut server, &mut client, piece) > 0 {
            for event in server.events().unwrap() {
                match event {
                    // (the server asks back with the params, and answers with the reply)
                    Event::Request { number, params, .. } => {
                        assert_eq!(server.call(number, "confirm", params.as_deref()), Ok(number));
                    }
                    Event::Replied { key, reply } => server.answer(key, &reply.unwrap()).unwrap(),
                    other => panic!("{other:?}"),
                }
            }
            for event in client.events().unwrap() {
                match event {
                    Event::Request { number, params, .. } => client.answer(number, params.as_deref()).unwrap(),
                    Event::Replied { key, reply } => replies.push((key, reply.unwrap())),
                    other => panic!("{other:?}"),
                }
            }
        }
        replies.sort_unstable();
        let wanted: Vec<_> = keys.iter().map(|it| (*it, format!("[{}]", it - 1))).collect();
        assert_eq!(replies, wanted);
        for it in [&mut client, &mut server] {
            it.end(Ended::Closed).unwrap();
            assert_eq!(it.events().unwrap(), [Event::Over(Close::Clean)]);
            assert!(it.is_done());
        }
    }
}
