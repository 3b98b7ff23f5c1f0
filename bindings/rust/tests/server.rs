//! Ends with threads: what is owed is answered, whatever a host does. What is expected is what docs/rust.md says.
use bullmyrtle::{codes, CallError, Close, Connection, ErrorObject, Incoming, Life, Outgoing, Server, Settings};
use std::collections::VecDeque;
use std::io::{self, Cursor, ErrorKind, Read, Write};
use std::os::unix::net::UnixStream;
use std::panic;
use std::sync::mpsc::{channel, Receiver};
use std::sync::{Arc, Mutex};
use std::thread;
use std::time::Duration;

const LONG: Duration = Duration::from_secs(60);

/// A server whose handler runs in a thread, and the end that calls it.
fn served(handler: impl FnMut(Incoming) + Send + 'static) -> (Server, thread::JoinHandle<bullmyrtle::End>) {
    let (server, client) = Connection::memory(Settings::lsp()).unwrap();
    (client, thread::spawn(move || server.serve(handler)))
}

fn code(response: Result<String, CallError>) -> i64 {
    match response {
        Err(CallError::Response(error)) => error.code,
        other => panic!("{other:?}"),
    }
}

/// The next message, which is a request.
fn request_of(server: &Server) -> bullmyrtle::Request {
    match server.next() {
        Some(Incoming::Request(it)) => it,
        other => panic!("{other:?}"),
    }
}

/// Panics of handlers are part of these tests, and aren't shown.
fn quietly() {
    panic::set_hook(Box::new(|_| {}));
}

#[test]
fn a_request_is_answered_from_another_thread_and_out_of_turn() {
    let (sender, later) = channel();
    let (client, _) = served(move |it| match it {
        Incoming::Request(it) if it.method() == "late" => sender.send(it.into_responder()).unwrap(),
        Incoming::Request(it) => it.answer("[1]").unwrap(),
        Incoming::Notification(_) => {}
    });
    let late = client.call("late", None);
    assert_eq!(client.call("soon", None).wait().unwrap(), "[1]");
    thread::spawn(move || later.recv().unwrap().answer("2").unwrap());
    assert_eq!(late.wait().unwrap(), "2");
}

#[test]
fn a_request_that_is_dropped_is_answered() {
    let (client, _) = served(drop);
    assert_eq!(code(client.call("a", None).wait()), codes::INTERNAL_ERROR);
}

#[test]
fn a_result_that_is_no_json_is_refused_and_answered() {
    let (client, _) = served(|it| {
        if let Incoming::Request(it) = it {
            assert_eq!(it.answer("{"), Err(bullmyrtle::Refusal::NotJson));
        }
    });
    assert_eq!(code(client.call("a", None).wait()), codes::INTERNAL_ERROR);
}

#[test]
fn a_handler_that_panics_is_answered_and_the_session_goes_on() {
    quietly();
    let (client, _) = served(|it| match it {
        Incoming::Request(it) if it.method() == "panic" => panic!("on purpose"),
        Incoming::Notification(_) => panic!("on purpose"),
        Incoming::Request(it) => it.answer("1").unwrap(),
    });
    assert_eq!(code(client.call("panic", None).wait()), codes::INTERNAL_ERROR);
    client.notify("panic", None).unwrap();
    assert_eq!(client.call("a", None).wait().unwrap(), "1");
}

#[test]
fn a_thread_that_panics_with_a_responder_has_it_answered() {
    quietly();
    let (client, _) = served(|it| {
        if let Incoming::Request(it) = it {
            thread::spawn(move || {
                let _held = it;
                panic!("on purpose")
            });
        }
    });
    assert_eq!(code(client.call("a", None).wait()), codes::INTERNAL_ERROR);
}

#[test]
fn errors_have_their_code_message_and_data() {
    let (client, _) = served(|it| match it {
        Incoming::Request(it) => it.into_responder().fail_with(5, "no", r#"{"a":1}"#),
        Incoming::Notification(_) => {}
    });
    let error = ErrorObject { code: 5, message: "no".into(), data: Some(r#"{"a":1}"#.into()) };
    assert_eq!(client.call("a", None).wait(), Err(CallError::Response(error)));
}

#[test]
fn a_method_that_nobody_knows_is_refused_by_its_name() {
    let (client, _) = served(Incoming::refuse);
    let error = ErrorObject::new(codes::METHOD_NOT_FOUND, "Method not found: nonsense");
    assert_eq!(client.call("nonsense", None).wait(), Err(CallError::Response(error)));
}

#[test]
fn a_cancel_reaches_the_token_and_the_call_on_its_behalf() {
    let (server, client) = Connection::memory(Settings::lsp()).unwrap();
    let reply = client.call("slow", None);
    let request = request_of(&server);
    let responder = request.into_responder();
    let back = responder.call("back", None);
    let asked = request_of(&client);
    assert!(!responder.token().is_cancelled());
    reply.cancel();
    assert!(responder.token().sleep(LONG), "the cancel wakes it");
    responder.cancel();
    assert_eq!(code(reply.wait()), codes::REQUEST_CANCELLED);
    assert!(matches!(back.wait(), Err(CallError::Closed(None))));
    assert!(asked.token().sleep(LONG), "what was called on its behalf is cancelled too");
}

#[test]
fn a_reply_that_is_dropped_cancels_and_one_that_is_detached_does_not() {
    let (server, client) = Connection::memory(Settings::lsp()).unwrap();
    drop(client.call("dropped", None));
    client.call("detached", None).detach();
    assert_eq!(client.waiting(), 0);
    client.notify("last", None).unwrap();
    let mut taken: Vec<Incoming> = (0..3).filter_map(|_| server.next()).collect();
    assert!(matches!(taken.pop(), Some(Incoming::Notification(_))));
    let tokens: Vec<bool> = taken
        .iter()
        .map(|it| matches!(it, Incoming::Request(it) if it.token().sleep(Duration::from_millis(1))))
        .collect();
    assert_eq!(tokens, [true, false]);
}

#[test]
fn an_unanswered_cancelled_request_is_answered_as_cancelled() {
    let (server, client) = Connection::memory(Settings::lsp()).unwrap();
    let reply = client.call("a", None);
    let request = request_of(&server);
    reply.cancel();
    assert!(request.token().sleep(LONG));
    drop(request);
    assert_eq!(code(reply.wait()), codes::REQUEST_CANCELLED);
}

#[test]
fn in_mcp_a_cancelled_request_has_no_response() {
    let (server, client) = Connection::memory(Settings::mcp()).unwrap();
    let reply = client.call("a", None);
    reply.cancel();
    assert_eq!(reply.wait(), Err(CallError::Cancelled));
    let request = request_of(&server);
    assert!(request.token().sleep(LONG));
    request.into_responder().cancel();
    assert_eq!(server.open(), 0);
}

#[test]
fn a_batch_is_answered_one_by_one() {
    let (client, _) = served(|it| match it {
        Incoming::Request(it) => {
            let params = it.params().unwrap_or("null").to_string();
            it.answer(&params).unwrap();
        }
        Incoming::Notification(_) => {}
    });
    let replies = client.call_batch(&[Outgoing::new("a", "[1]"), Outgoing::new("b", "[2]")]).unwrap();
    let found: Vec<_> = replies.into_iter().map(|it| it.wait().unwrap()).collect();
    assert_eq!(found, ["[1]", "[2]"]);
    assert!(client.call_batch(&[]).is_err());
}

#[test]
fn what_cannot_be_sent_is_the_replys() {
    let (_server, client) = Connection::memory(Settings::lsp()).unwrap();
    assert!(matches!(client.call("a", "5").wait(), Err(CallError::Refused(bullmyrtle::Refusal::NotJson))));
    assert_eq!(client.notify("a", "x"), Err(bullmyrtle::Refusal::NotJson));
    client.stop();
    assert!(matches!(client.call("a", None).wait(), Err(CallError::Refused(bullmyrtle::Refusal::Over))));
}

#[test]
fn settings_that_are_not_for_streams_are_refused() {
    let settings = Settings::new().framing(bullmyrtle::Framing::Contents);
    assert_eq!(Connection::memory(settings).unwrap_err().kind(), ErrorKind::InvalidInput);
}

// The end

/// Written bytes, which stay there for the test.
#[derive(Clone, Default)]
struct Kept(Arc<Mutex<Vec<u8>>>);

impl Write for Kept {
    fn write(&mut self, bytes: &[u8]) -> io::Result<usize> {
        self.0.lock().unwrap().extend(bytes);
        Ok(bytes.len())
    }

    fn flush(&mut self) -> io::Result<()> {
        Ok(())
    }
}

#[test]
fn what_is_owed_is_written_after_the_input_is_over() {
    let (kept, (sender, later)) = (Kept::default(), channel());
    let input = Cursor::new("{\"jsonrpc\":\"2.0\",\"method\":\"a\",\"id\":1}\n");
    let server = Server::over(input, kept.clone(), Settings::mcp()).unwrap();
    thread::spawn(move || {
        let request: bullmyrtle::Responder = later.recv().unwrap();
        thread::sleep(Duration::from_millis(30));
        request.answer("true").unwrap();
    });
    let end = server.serve(move |it| match it {
        Incoming::Request(it) => sender.send(it.into_responder()).unwrap(),
        Incoming::Notification(_) => {}
    });
    assert!(end.is_clean() && end.reason == Close::Clean && end.place.is_none());
    assert_eq!(&*kept.0.lock().unwrap(), b"{\"id\":1,\"jsonrpc\":\"2.0\",\"result\":true}\n");
}

#[test]
fn the_end_has_its_reason_and_place() {
    let input = Cursor::new("Content-Length: 2\r\n\r\n[]no header\r\n\r\n");
    let end = Server::over(input, Kept::default(), Settings::lsp()).unwrap().serve(drop);
    assert_eq!((end.reason, end.place, end.error), (Close::BadHead, Some(23), None));
    assert_eq!(end.to_string(), "a header line isn't a field, at byte 23");
    assert!(!end.is_clean());
}

struct Failing;

impl Read for Failing {
    fn read(&mut self, _: &mut [u8]) -> io::Result<usize> {
        Err(ErrorKind::ConnectionReset.into())
    }
}

impl Write for Failing {
    fn write(&mut self, _: &[u8]) -> io::Result<usize> {
        Err(ErrorKind::BrokenPipe.into())
    }

    fn flush(&mut self) -> io::Result<()> {
        Ok(())
    }
}

#[test]
fn a_reader_that_fails_ends_the_session() {
    let server = Server::over(Failing, Kept::default(), Settings::lsp()).unwrap();
    let reply = server.call("a", None);
    let end = server.serve(drop);
    assert_eq!((end.reason, end.error), (Close::Read, Some(ErrorKind::ConnectionReset)));
    // (the call may have come before the end, or after it)
    assert!(matches!(reply.wait(), Err(CallError::Closed(_) | CallError::Refused(_))));
}

#[test]
fn a_writer_that_fails_ends_the_session() {
    let (input, _open) = UnixStream::pair().unwrap();
    let server = Server::over(input, Failing, Settings::lsp()).unwrap();
    let reply = server.call("a", None);
    let end = match reply.wait() {
        Err(CallError::Closed(Some(end))) => end,
        other => panic!("{other:?}"),
    };
    assert_eq!((end.reason, end.error), (Close::Clean, Some(ErrorKind::BrokenPipe)));
    assert!(!end.is_clean());
    assert_eq!(server.serve(drop), end);
}

struct Panicking;

impl Read for Panicking {
    fn read(&mut self, _: &mut [u8]) -> io::Result<usize> {
        panic!("on purpose")
    }
}

impl Write for Panicking {
    fn write(&mut self, _: &[u8]) -> io::Result<usize> {
        panic!("on purpose")
    }

    fn flush(&mut self) -> io::Result<()> {
        Ok(())
    }
}

#[test]
fn streams_that_panic_end_the_session() {
    quietly();
    let end = Server::over(Panicking, Kept::default(), Settings::lsp()).unwrap().serve(drop);
    assert_eq!((end.reason, end.error), (Close::Read, Some(ErrorKind::Other)));
    let (input, _open) = UnixStream::pair().unwrap();
    let server = Server::over(input, Panicking, Settings::lsp()).unwrap();
    assert!(matches!(server.call("a", None).wait(), Err(CallError::Closed(Some(_)))));
}

#[test]
fn an_answer_after_the_end_is_dropped() {
    let (server, client) = Connection::memory(Settings::lsp()).unwrap();
    client.call("a", None).detach();
    let request = request_of(&server);
    drop(client);
    drop(server);
    assert_eq!(request.answer("1"), Ok(()));
}

#[test]
fn a_responder_that_is_forgotten_keeps_nobody_from_stopping() {
    let (server, client) = Connection::memory(Settings::lsp()).unwrap();
    let reply = client.call("a", None);
    std::mem::forget(server.next());
    server.stop();
    server.finish();
    assert!(matches!(reply.wait(), Err(CallError::Closed(_))));
}

/// A reader that has bytes for ever, and counts them.
struct Endless(Arc<Mutex<usize>>);

impl Read for Endless {
    fn read(&mut self, room: &mut [u8]) -> io::Result<usize> {
        let line = b"{\"jsonrpc\":\"2.0\",\"method\":\"a\",\"id\":1}\n";
        room[..line.len()].copy_from_slice(line);
        *self.0.lock().unwrap() += 1;
        Ok(line.len())
    }
}

/// A writer that stalls until it is let go.
struct Stalled(Receiver<()>);

impl Write for Stalled {
    fn write(&mut self, bytes: &[u8]) -> io::Result<usize> {
        let _ = self.0.recv();
        Ok(bytes.len())
    }

    fn flush(&mut self) -> io::Result<()> {
        Ok(())
    }
}

#[test]
fn a_writer_that_stalls_stops_the_reader() {
    let (read, (release, stalled)) = (Arc::new(Mutex::new(0)), channel());
    let server = Server::over(Endless(Arc::clone(&read)), Stalled(stalled), Settings::mcp()).unwrap();
    let peer = server.peer().clone();
    let serving = thread::spawn(move || {
        server.serve(|it| match it {
            Incoming::Request(it) => it.answer(&format!("\"{}\"", "x".repeat(10_000))).unwrap(),
            Incoming::Notification(_) => {}
        })
    });
    // (it stops where a MiB waits, which is 105 answers; what was read and not taken is at most 1,001 more, and then no
    // more is read however long one waits)
    let mut last = 0;
    loop {
        thread::sleep(Duration::from_millis(200));
        let now = *read.lock().unwrap();
        if now == last && now > 0 {
            break;
        }
        last = now;
    }
    assert!(last < 3_000, "{last} were read");
    peer.stop();
    drop(release);
    serving.join().unwrap();
}

#[test]
fn messages_that_nobody_takes_stop_the_reader() {
    let read = Arc::new(Mutex::new(0));
    let server = Server::over(Endless(Arc::clone(&read)), Kept::default(), Settings::mcp()).unwrap();
    while *read.lock().unwrap() < 1_001 {
        thread::yield_now();
    }
    thread::sleep(Duration::from_millis(50));
    assert_eq!(*read.lock().unwrap(), 1_001);
    assert!(server.next().is_some());
}

// Many at once

/// A stream that reads and writes at most so many bytes at once.
struct Narrow(UnixStream, usize);

impl Read for Narrow {
    fn read(&mut self, room: &mut [u8]) -> io::Result<usize> {
        let most = room.len().min(self.1);
        self.0.read(&mut room[..most])
    }
}

impl Write for Narrow {
    fn write(&mut self, bytes: &[u8]) -> io::Result<usize> {
        self.0.write(&bytes[..bytes.len().min(self.1)])
    }

    fn flush(&mut self) -> io::Result<()> {
        Ok(())
    }
}

fn narrow_pair(most: usize) -> (Server, Server) {
    let (one, other) = UnixStream::pair().unwrap();
    let [one, other] = [one, other]
        .map(|it| Server::over(Narrow(it.try_clone().unwrap(), most), Narrow(it, most), Settings::lsp()).unwrap());
    (one, other)
}

/// Answers requests with their params, while so many of its own are on their way. Gives the server back, which is to
/// live as long as the other side waits for what it hasn't written yet.
fn call_many(server: Server, count: usize) -> thread::JoinHandle<Server> {
    thread::spawn(move || {
        let peer = server.peer().clone();
        let calling = thread::spawn(move || {
            let replies: VecDeque<_> = (0..count).map(|it| peer.call("echo", &format!("[{it}]"))).collect();
            for (at, reply) in replies.into_iter().enumerate() {
                let found = reply.wait_timeout(LONG).expect("a response").unwrap();
                assert_eq!(found, format!("[{at}]"));
            }
        });
        let mut answered = 0;
        while answered < count {
            if let Some(Incoming::Request(it)) = server.next() {
                let params = it.params().unwrap().to_string();
                it.answer(&params).unwrap();
                answered += 1;
            }
        }
        calling.join().unwrap();
        assert_eq!((server.open(), server.waiting()), (0, 0));
        server
    })
}

#[test]
fn ten_thousand_requests_at_once_both_ways() {
    for most in [1 << 16, 1 << 10] {
        let (one, other) = narrow_pair(most);
        let both = [call_many(one, 10_000), call_many(other, 10_000)];
        let ended: Vec<Server> = both.into_iter().map(|it| it.join().unwrap()).collect();
        drop(ended);
    }
}

#[test]
fn cancels_race_answers() {
    let (client, _) = served(|it| match it {
        Incoming::Request(it) => {
            let nap = if it.method() == "long" { LONG } else { Duration::from_micros(50) };
            let request = it.into_responder();
            thread::spawn(move || {
                if request.token().sleep(nap) {
                    request.cancel();
                } else {
                    request.answer("1").unwrap();
                }
            });
        }
        Incoming::Notification(_) => {}
    });
    let mut found = [0; 2];
    for at in 0..1_000 {
        // (a quarter is answered before its cancel, a quarter can't be, and the others race)
        let reply = client.call(if at % 4 == 1 { "long" } else { "a" }, None);
        match at % 4 {
            0 => (0..).take_while(|_| client.waiting() > 0).for_each(|_| thread::yield_now()),
            2 => thread::sleep(Duration::from_micros(at % 97)),
            _ => {}
        }
        reply.cancel();
        match reply.wait_timeout(LONG).expect("a response") {
            Ok(result) => {
                assert_eq!(result, "1");
                found[0] += 1;
            }
            other => {
                assert_eq!(code(other), codes::REQUEST_CANCELLED);
                found[1] += 1;
            }
        }
    }
    assert!(found.iter().all(|it| *it >= 250), "{found:?}");
    assert_eq!(client.waiting(), 0);
}

// The life of a language server

#[test]
fn a_life_has_its_answers_and_its_status() {
    let (server, client) = Connection::memory(Settings::lsp()).unwrap();
    let mut life = Life::with(|params| format!(r#"{{"given":{params}}}"#));
    let serving = thread::spawn(move || {
        for it in &server {
            if let Some(Incoming::Request(it)) = life.admit(it) {
                it.answer(r#""handled""#).unwrap();
            }
        }
        life.is_shut_down()
    });
    assert_eq!(code(client.call("a", None).wait()), -32002);
    client.notify("a", None).unwrap();
    assert_eq!(client.call("initialize", r#"{"a":1}"#).wait().unwrap(), r#"{"given":{"a":1}}"#);
    assert_eq!(code(client.call("initialize", None).wait()), -32600);
    assert_eq!(client.call("a", None).wait().unwrap(), r#""handled""#);
    assert_eq!(client.call("shutdown", None).wait().unwrap(), "null");
    assert_eq!(code(client.call("a", None).wait()), -32600);
    client.notify("exit", None).unwrap();
    client.stop();
    client.finish();
    assert!(serving.join().unwrap());
}

#[test]
fn an_initialize_that_is_refused_may_come_again() {
    let (server, client) = Connection::memory(Settings::lsp()).unwrap();
    let mut life = Life::new(r#"{"capabilities":{}}"#);
    thread::spawn(move || (&server).into_iter().for_each(|it| assert!(life.admit(it).is_none())));
    for params in [None, Some("[]"), Some("[{}]")] {
        let refused = Err(CallError::Response(ErrorObject::new(-32602, "params: expected an object")));
        assert_eq!(client.call("initialize", params).wait(), refused, "{params:?}");
        assert_eq!(code(client.call("shutdown", None).wait()), -32002, "{params:?}");
    }
    assert_eq!(client.call("initialize", "{}").wait().unwrap(), r#"{"capabilities":{}}"#);
    assert_eq!(client.call("shutdown", None).wait().unwrap(), "null");
}

#[test]
fn an_exit_without_a_shutdown_is_none() {
    for says in [&["exit"][..], &["initialized", "exit"], &[]] {
        let (server, client) = Connection::memory(Settings::lsp()).unwrap();
        says.iter().for_each(|it| client.notify(it, None).unwrap());
        client.stop();
        client.finish();
        let mut life = Life::new("{}");
        (&server).into_iter().for_each(|it| assert!(life.admit(it).is_none()));
        assert!(!life.is_shut_down());
    }
}
