//! Servers and clients on tokio: order, bounds, cancels and ends. What is expected is what docs/rust.md says.
use bullmyrtle::tasks::{serve, Answer, Call, Context, Router, Serving};
use bullmyrtle::{codes, CallError, Close, ErrorObject, Life, Peer, Settings};
use serde::{Deserialize, Serialize};
use std::future::Future;
use std::io;
use std::pin::Pin;
use std::sync::atomic::{AtomicUsize, Ordering};
use std::sync::{Arc, Mutex};
use std::task::{self, Poll};
use std::time::Duration;
use tokio::io::{duplex, split, AsyncRead, AsyncReadExt, AsyncWrite, AsyncWriteExt, ReadBuf};
use tokio::runtime::{Builder, Runtime};
use tokio::sync::Notify;
use tokio::task::yield_now;
use tokio::time::{sleep, timeout};
use tower_service::Service;

type Failed = Result<(), ErrorObject>;
const LONG: Duration = Duration::from_secs(120);

/// A runtime with so many workers.
fn runtime(workers: usize) -> Runtime {
    Builder::new_multi_thread().worker_threads(workers).enable_all().build().unwrap()
}

/// Two sessions that are joined by buffers of so many bytes, and the peers that speak for them.
fn joined<A, B>(one: A, other: B, buffer: usize) -> (Serving<A>, Serving<B>) {
    let (left, right) = duplex(buffer);
    let ((reader, writer), (input, output)) = (split(left), split(right));
    let one = serve(one, reader, writer, Settings::lsp()).unwrap();
    (one, serve(other, input, output, Settings::lsp()).unwrap())
}

/// Spawns a server of a router, and gives the end that calls it.
fn called<S: Clone + Send + 'static>(router: Router<S>) -> Peer {
    let (server, client) = joined(router, Router::new(()), 1 << 16);
    let peer = client.peer();
    tokio::spawn(server);
    tokio::spawn(client);
    peer
}

fn error(response: Result<String, CallError>) -> ErrorObject {
    match response {
        Err(CallError::Response(error)) => error,
        other => panic!("{other:?}"),
    }
}

/// Numbers that look random, the same for the same seed.
struct Chance(u64);

impl Chance {
    fn below(&mut self, bound: u64) -> u64 {
        self.0 = self.0.wrapping_mul(6_364_136_223_846_793_005).wrapping_add(1_442_695_040_888_963_407);
        (self.0 >> 33) % bound
    }
}

// Order

type Text = Arc<Mutex<String>>;

#[derive(Serialize, Deserialize, Clone)]
struct Change {
    at: usize,
    text: String,
    pauses: u64,
}

/// A change that is made late: an `.await` comes before it, and one in its midst.
async fn change(text: Context<Text>, it: Change) {
    pause(it.pauses).await;
    let end = text.lock().unwrap().split_off(it.at);
    pause(it.pauses).await;
    let mut text = text.lock().unwrap();
    text.push_str(&it.text);
    text.push_str(&end);
    let length = text.len();
    text.replace_range(..length.saturating_sub(60), "");
}

async fn pause(times: u64) {
    for _ in 0..times {
        yield_now().await;
    }
}

/// A hover sees the text when it begins, and answers later.
async fn hover(text: Context<Text>, (pauses,): (u64,)) -> Result<String, ErrorObject> {
    let seen = text.lock().unwrap().clone();
    pause(pauses).await;
    Ok(seen)
}

fn editing() -> Router<Text> {
    Router::new(Text::default()).notification("textDocument/didChange", change).request("textDocument/hover", hover)
}

/// How many of so many hovers, between changes, saw another text than that of their place in the stream.
async fn wrong_hovers(editor: Peer, count: usize) -> usize {
    let (mut chance, mut text, mut wrong) = (Chance(1), String::new(), 0);
    let mut waiting = Vec::new();
    for _ in 0..count {
        if chance.below(2) == 0 {
            let letter = char::from(b'a' + chance.below(26) as u8);
            let it = Change {
                at: chance.below(text.len() as u64 + 1) as usize,
                text: letter.into(),
                pauses: chance.below(3),
            };
            text.insert(it.at, letter);
            text.replace_range(..text.len().saturating_sub(60), "");
            editor.notify_as("textDocument/didChange", &it).unwrap();
        } else {
            let reply = editor.call_as::<String>("textDocument/hover", &[chance.below(4)]);
            waiting.push((text.clone(), reply));
        }
        if waiting.len() == 500 {
            wrong += count_wrong(&mut waiting).await;
        }
    }
    wrong + count_wrong(&mut waiting).await
}

async fn count_wrong(waiting: &mut Vec<(String, bullmyrtle::ReplyAs<String>)>) -> usize {
    let mut wrong = 0;
    for (wanted, reply) in waiting.drain(..) {
        // (without order a change may be made where its place isn't there, which is wrong as well)
        wrong += usize::from(timeout(LONG, reply).await.expect("a response").map_or(true, |it| it != wanted));
    }
    wrong
}

#[test]
fn each_hover_sees_the_document_of_its_place_in_the_stream() {
    for workers in [1, 8] {
        runtime(workers).block_on(async {
            assert_eq!(wrong_hovers(called(editing()), 200_000).await, 0, "with {workers} workers");
        });
    }
}

/// A router whose calls are tasks of their own, as where no order is kept.
struct Unordered(Router<Text>);

impl Service<Call> for Unordered {
    type Response = Answer;
    type Error = ErrorObject;
    type Future = Pin<Box<dyn Future<Output = Result<Answer, ErrorObject>> + Send>>;

    fn poll_ready(&mut self, context: &mut task::Context<'_>) -> Poll<Result<(), ErrorObject>> {
        self.0.poll_ready(context)
    }

    fn call(&mut self, call: Call) -> Self::Future {
        let is_request = call.is_request();
        let task = tokio::spawn(self.0.call(call));
        let end = async { task.await.unwrap_or_else(|_| Err(ErrorObject::new(0, "panicked"))) };
        if is_request {
            return Box::pin(end);
        }
        Box::pin(async { Ok(Answer::aside(async { drop(end.await) })) })
    }
}

#[test]
fn without_order_a_hover_sees_another_document() {
    std::panic::set_hook(Box::new(|_| {}));
    runtime(8).block_on(async {
        let (server, client) = joined(Unordered(editing()), Router::new(()), 1 << 16);
        let peer = client.peer();
        tokio::spawn(server);
        tokio::spawn(client);
        assert!(wrong_hovers(peer, 20_000).await > 0);
    });
}

#[tokio::test]
async fn handlers_begin_in_the_order_of_the_stream() {
    type Begun = Arc<Mutex<Vec<u64>>>;
    async fn note(begun: Context<Begun>, (number,): (u64,)) {
        begun.lock().unwrap().push(number);
        sleep(Duration::from_millis(1)).await;
    }
    async fn ask(begun: Context<Begun>, (number,): (u64,)) -> Failed {
        begun.lock().unwrap().push(number);
        sleep(Duration::from_millis(1)).await;
        Ok(())
    }
    let begun = Begun::default();
    let router = Router::new(Arc::clone(&begun)).notification("first", note).notification_aside("aside", note);
    let peer = called(router.request("ask", ask));
    let mut replies = Vec::new();
    for number in 0..99 {
        match number % 3 {
            0 => peer.notify_as("first", &[number]).unwrap(),
            1 => peer.notify_as("aside", &[number]).unwrap(),
            _ => replies.push(peer.call_as::<()>("ask", &[number])),
        }
    }
    for it in replies {
        it.await.unwrap();
    }
    assert_eq!(*begun.lock().unwrap(), (0..99).collect::<Vec<_>>());
}

#[tokio::test]
async fn at_most_so_many_run_side_by_side() {
    type Counts = Arc<(AtomicUsize, AtomicUsize)>;
    async fn work(counts: Context<Counts>, (): ()) -> Failed {
        let now = counts.0.fetch_add(1, Ordering::SeqCst) + 1;
        counts.1.fetch_max(now, Ordering::SeqCst);
        sleep(Duration::from_millis(1)).await;
        counts.0.fetch_sub(1, Ordering::SeqCst);
        Ok(())
    }
    let counts = Counts::default();
    let (server, client) = joined(Router::new(Arc::clone(&counts)).request("work", work), Router::new(()), 1 << 16);
    let peer = client.peer();
    tokio::spawn(server.at_once(7));
    tokio::spawn(client);
    let replies: Vec<_> = (0..100).map(|_| peer.call("work", None)).collect();
    for it in replies {
        it.await.unwrap();
    }
    assert_eq!(counts.1.load(Ordering::SeqCst), 7);
}

// What is answered

#[derive(Deserialize)]
struct Place {
    #[allow(dead_code)]
    position: Position,
}

#[derive(Deserialize)]
struct Position {
    #[allow(dead_code)]
    line: u32,
}

#[tokio::test]
async fn params_that_do_not_fit_are_told_with_their_place() {
    let peer = called(Router::new(()).request("ask", |_, _: Place| async { Ok(1) }));
    for (params, message) in [
        (Some(r#"{"position":{"line":"x"}}"#), r#"params.position.line: invalid type: string "x", expected u32"#),
        (Some(r#"{"position":{}}"#), "params.position: missing field `line`"),
        (None, "params: invalid type: null, expected struct Place"),
    ] {
        let found = error(peer.call("ask", params).await);
        assert_eq!((found.code, found.message.as_str()), (codes::INVALID_PARAMS, message));
    }
    assert_eq!(peer.call("ask", r#"{"position":{"line":1,"more":2}}"#).await.unwrap(), "1");
    assert!(matches!(
        peer.call_as::<String>("ask", &serde_json::json!({"position": {"line": 1}})).await,
        Err(CallError::Result(it)) if it == "result: invalid type: integer `1`, expected a string"
    ));
}

#[tokio::test]
async fn handlers_that_panic_are_answered_and_the_session_goes_on() {
    std::panic::set_hook(Box::new(|_| {}));
    async fn late(_: Context<()>, (): ()) -> Failed {
        yield_now().await;
        panic!("on purpose")
    }
    async fn soon() -> Failed {
        panic!("on purpose")
    }
    async fn note(_: Context<()>, (): ()) {
        yield_now().await;
        panic!("on purpose")
    }
    let router = Router::new(()).request("late", late).notification("note", note).notification_aside("aside", note);
    let router = router.request("soon", |_: Context<()>, (): ()| soon());
    let peer = called(router.request("well", |_, (): ()| async { Ok("well") }));
    for _ in 0..3 {
        assert_eq!(error(peer.call("late", None).await).code, codes::INTERNAL_ERROR);
        assert_eq!(error(peer.call("soon", None).await).code, codes::INTERNAL_ERROR);
        peer.notify("note", None).unwrap();
        peer.notify("aside", None).unwrap();
        assert_eq!(peer.call("well", None).await.unwrap(), r#""well""#);
    }
}

#[tokio::test]
async fn a_service_that_panics_before_its_future_is_answered() {
    std::panic::set_hook(Box::new(|_| {}));
    let peer = called(Router::lsp((), Life::with(|_| panic!("on purpose"))));
    for _ in 0..3 {
        assert_eq!(error(peer.call("initialize", "{}").await).code, codes::INTERNAL_ERROR);
        assert_eq!(error(peer.call("shutdown", None).await).code, codes::SERVER_NOT_INITIALIZED);
    }
}

#[tokio::test]
async fn a_method_that_nobody_knows_is_refused_and_a_kind_that_it_is_not() {
    let router = Router::new(()).notification("note", |_, (): ()| async {});
    let peer = called(router);
    assert_eq!(error(peer.call("nope", None).await).code, codes::METHOD_NOT_FOUND);
    assert_eq!(error(peer.call("note", None).await).code, codes::METHOD_NOT_FOUND);
    peer.notify("nope", None).unwrap();
    assert_eq!(error(peer.call("nope", None).await).message, "Method not found: nope");
}

#[tokio::test]
async fn a_request_that_takes_longer_than_its_limit_fails() {
    let router = Router::new(()).request("free", |_, (): ()| async {
        sleep(Duration::from_millis(40)).await;
        Ok(1)
    });
    let router = router.limit(Duration::from_millis(10)).request("limited", |_, (): ()| async {
        std::future::pending::<()>().await;
        Ok(1)
    });
    let peer = called(router);
    let found = error(peer.call("limited", None).await);
    assert_eq!(found, ErrorObject::new(-32803, "Request failed: it took longer than 0.01 seconds"));
    assert_eq!(peer.call("free", None).await.unwrap(), "1");
}

// Cancels

#[tokio::test]
async fn a_cancel_drops_the_handler_or_signals_it() {
    struct Told(Arc<Notify>);
    impl Drop for Told {
        fn drop(&mut self) {
            self.0.notify_one();
        }
    }
    async fn wait(dropped: Context<Arc<Notify>>, (): ()) -> Result<&'static str, ErrorObject> {
        let _guard = Told(Arc::clone(&dropped));
        dropped.token().expect("it is a request").cancelled().await;
        Ok("signalled")
    }
    for drops in [true, false] {
        let dropped = Arc::new(Notify::new());
        let router = Router::new(Arc::clone(&dropped)).request("wait", wait);
        let (server, client) = joined(router, Router::new(()), 1 << 16);
        let peer = client.peer();
        tokio::spawn(server.cancels_drop(drops));
        tokio::spawn(client);
        let reply = peer.call("wait", None);
        yield_now().await;
        reply.cancel();
        timeout(LONG, dropped.notified()).await.unwrap();
        match reply.await {
            Ok(it) => assert!(!drops && it == r#""signalled""#),
            other => assert_eq!(error(other).code, codes::REQUEST_CANCELLED),
        }
        // (a future that is dropped cancels too)
        assert!(timeout(Duration::from_millis(20), peer.call("wait", None)).await.is_err());
        timeout(LONG, dropped.notified()).await.unwrap();
        assert_eq!(peer.waiting(), 0);
    }
}

#[tokio::test]
async fn a_call_on_a_requests_behalf_is_withdrawn_with_it() {
    let router =
        Router::new(()).request("ask", |it: Context<()>, (): ()| async move { Ok(it.call("back", None).await?) });
    let (cancelled, sent) = (Arc::new(Notify::new()), Arc::new(Notify::new()));
    let asked = Router::new((Arc::clone(&cancelled), Arc::clone(&sent)));
    let asked = asked.request("back", |it: Context<(Arc<Notify>, Arc<Notify>)>, (): ()| async move {
        it.state.1.notify_one();
        it.token().expect("it is a request").cancelled().await;
        it.state.0.notify_one();
        Ok(())
    });
    let (server, client) = joined(router, asked, 1 << 16);
    let peer = client.peer();
    tokio::spawn(server);
    tokio::spawn(client.cancels_drop(false));
    let reply = peer.call("ask", None);
    timeout(LONG, sent.notified()).await.unwrap();
    reply.cancel();
    timeout(LONG, cancelled.notified()).await.unwrap();
    assert_eq!(error(reply.await).code, codes::REQUEST_CANCELLED);
}

#[test]
fn cancels_race_answers() {
    runtime(4).block_on(async {
        let nap = |_, (turns,): (u64,)| async move {
            pause(turns).await;
            Ok(turns)
        };
        let never = |_, _: Vec<u64>| std::future::pending::<Failed>();
        let router = Router::new(()).request("nap", nap).request("never", never);
        let (mut chance, mut found, peer) = (Chance(3), [0; 2], called(router));
        for at in 0..3_000 {
            // (a third is answered before its cancel, a third can't be, and a third races)
            let turns = if at % 3 == 0 { 0 } else { chance.below(200) };
            let reply = peer.call_as::<u64>(if at % 3 == 1 { "never" } else { "nap" }, &[turns]).into_reply();
            if at % 3 == 0 {
                while peer.waiting() > 0 {
                    yield_now().await;
                }
            }
            pause(chance.below(60)).await;
            reply.cancel();
            match timeout(LONG, reply).await.expect("a response") {
                Ok(it) => {
                    assert_eq!(it, turns.to_string());
                    found[0] += 1;
                }
                other => {
                    assert_eq!(error(other).code, codes::REQUEST_CANCELLED);
                    found[1] += 1;
                }
            }
        }
        assert!(found.iter().all(|it| *it >= 1_000), "{found:?}");
        assert_eq!(peer.waiting(), 0);
    });
}

// Many at once

#[test]
fn ten_thousand_requests_at_once_both_ways() {
    for buffer in [1 << 16, 1 << 10] {
        runtime(4).block_on(async move {
            let echo = || Router::new(()).request("echo", |_, it: Vec<u64>| async { Ok(it) });
            let (one, other) = joined(echo(), echo(), buffer);
            let peers = [one.peer(), other.peer()];
            tokio::spawn(one);
            tokio::spawn(other);
            let calls = peers.clone().map(|peer| {
                tokio::spawn(async move {
                    let replies: Vec<_> = (0..10_000_u64).map(|it| peer.call_as::<Vec<u64>>("echo", &[it])).collect();
                    for (at, reply) in replies.into_iter().enumerate() {
                        assert_eq!(timeout(LONG, reply).await.expect("a response").unwrap(), [at as u64]);
                    }
                })
            });
            for it in calls {
                it.await.unwrap();
            }
            for it in peers {
                // (what was answered last is closed a moment later)
                while it.open() > 0 {
                    yield_now().await;
                }
                assert_eq!(it.waiting(), 0);
            }
        });
    }
}

// What is dropped

/// A future that is dropped at its poll of this number.
struct DropAt<F>(Option<Pin<Box<F>>>, usize);

impl<F: Future> Future for DropAt<F> {
    type Output = Option<F::Output>;

    fn poll(mut self: Pin<&mut Self>, context: &mut task::Context<'_>) -> Poll<Self::Output> {
        if self.1 == 0 {
            self.0 = None;
        }
        self.1 = self.1.wrapping_sub(1);
        self.0.as_mut().map_or(Poll::Ready(None), |it| it.as_mut().poll(context).map(Some))
    }
}

async fn busy(held: Context<Arc<()>>, (turns,): (u64,)) -> Result<u64, ErrorObject> {
    pause(turns).await;
    let back: u64 = serde_json::from_str(&held.call("back", None).await?).unwrap();
    pause(turns).await;
    Ok(turns + back)
}

fn back() -> Router<()> {
    Router::new(()).request("back", |_, (): ()| async {
        yield_now().await;
        Ok(1)
    })
}

#[tokio::test]
async fn a_session_that_is_dropped_at_any_poll_leaves_nothing() {
    for at in 0.. {
        let held = Arc::new(());
        let router = Router::new(Arc::clone(&held)).request("busy", busy).notification("note", |_, (): ()| yield_now());
        let (server, client) = joined(router, back(), 256);
        let (peer, of_server) = (client.peer(), server.peer());
        let client = tokio::spawn(client);
        let mut replies: Vec<_> = (0..4).map(|it| peer.call_as::<u64>("busy", &[it])).collect();
        peer.notify("note", None).unwrap();
        replies.push(peer.call_as("busy", &[9]));
        let server = tokio::spawn(DropAt(Some(Box::pin(server)), at));
        let mut answered = 0;
        for reply in replies {
            match timeout(LONG, reply).await.expect("an end") {
                Ok(_) => answered += 1,
                Err(CallError::Closed(_) | CallError::Response(_) | CallError::Refused(_)) => {}
                other => panic!("{other:?}"),
            }
        }
        peer.stop();
        drop(timeout(LONG, client).await.unwrap());
        let ended = timeout(LONG, server).await.unwrap().unwrap();
        while Arc::strong_count(&held) > 1 {
            yield_now().await;
        }
        assert_eq!((of_server.waiting(), peer.waiting()), (0, 0));
        if ended.is_some() {
            assert_eq!(answered, 5);
            assert!(at > 5, "it was dropped at {at} polls");
            break;
        }
    }
}

/// A layer whose futures are dropped at the poll of this number, and fail then.
struct Dropping<S>(S, usize);

impl<S> Service<Call> for Dropping<S>
where
    S: Service<Call, Response = Answer, Error = ErrorObject>,
    S::Future: Send + 'static,
{
    type Response = Answer;
    type Error = ErrorObject;
    type Future = Pin<Box<dyn Future<Output = Result<Answer, ErrorObject>> + Send>>;

    fn poll_ready(&mut self, context: &mut task::Context<'_>) -> Poll<Result<(), ErrorObject>> {
        self.0.poll_ready(context)
    }

    fn call(&mut self, call: Call) -> Self::Future {
        let limited = DropAt(Some(Box::pin(self.0.call(call))), self.1);
        Box::pin(async { limited.await.unwrap_or_else(|| Err(ErrorObject::new(7, "dropped"))) })
    }
}

#[tokio::test]
async fn a_handler_that_is_dropped_at_any_poll_is_answered_through_a_layer() {
    for at in 0.. {
        let held = Arc::new(());
        let router = Router::new(Arc::clone(&held)).request("busy", busy);
        let (server, client) = joined(Dropping(router, at), back(), 1 << 16);
        let (peer, of_server) = (client.peer(), server.peer());
        tokio::spawn(server);
        tokio::spawn(client);
        let response = timeout(LONG, peer.call("busy", "[5]")).await.unwrap();
        while of_server.open() > 0 || of_server.waiting() > 0 || Arc::strong_count(&held) > 2 {
            yield_now().await;
        }
        match response {
            Ok(it) => {
                assert_eq!(it, "6");
                assert!(at >= 11, "it was dropped at {at} polls");
                break;
            }
            other => assert_eq!(error(other).code, 7),
        }
    }
}

#[tokio::test]
async fn a_reply_that_is_dropped_at_any_poll_is_forgotten() {
    let peer = called(Router::new(()).request("nap", |_, (): ()| async {
        sleep(Duration::from_millis(1)).await;
        Ok(1)
    }));
    for at in 0..4 {
        drop(timeout(LONG, DropAt(Some(Box::pin(peer.call("nap", None))), at)).await.unwrap());
        assert_eq!(peer.waiting(), 0);
    }
    assert_eq!(peer.call("nap", None).await.unwrap(), "1");
}

#[test]
fn a_runtime_that_shuts_down_midway_closes_what_waits() {
    let held = Arc::new(());
    let runtime = runtime(2);
    let (peer, reply) = runtime.block_on(async {
        let router = Router::new(Arc::clone(&held)).request("never", |it: Context<Arc<()>>, (): ()| async move {
            std::future::pending::<()>().await;
            drop(it);
            Ok(())
        });
        let peer = called(router);
        (peer.clone(), peer.call("never", None))
    });
    drop(runtime);
    assert!(matches!(reply.wait(), Err(CallError::Closed(_) | CallError::Response(_))));
    assert!(matches!(peer.call("never", None).wait(), Err(CallError::Refused(_))));
    assert_eq!(Arc::strong_count(&held), 1);
}

// Streams that fail

/// A stream of these reads and writes.
struct Odd {
    reads: io::ErrorKind,
    writes: Option<io::ErrorKind>,
}

impl AsyncRead for Odd {
    fn poll_read(self: Pin<&mut Self>, _: &mut task::Context<'_>, _: &mut ReadBuf<'_>) -> Poll<io::Result<()>> {
        match self.reads {
            io::ErrorKind::WouldBlock => Poll::Pending,
            kind => Poll::Ready(Err(kind.into())),
        }
    }
}

impl AsyncWrite for Odd {
    fn poll_write(self: Pin<&mut Self>, _: &mut task::Context<'_>, _: &[u8]) -> Poll<io::Result<usize>> {
        self.writes.map_or(Poll::Pending, |it| Poll::Ready(Err(it.into())))
    }

    fn poll_flush(self: Pin<&mut Self>, _: &mut task::Context<'_>) -> Poll<io::Result<()>> {
        Poll::Ready(Ok(()))
    }

    fn poll_shutdown(self: Pin<&mut Self>, _: &mut task::Context<'_>) -> Poll<io::Result<()>> {
        Poll::Ready(Ok(()))
    }
}

#[tokio::test]
async fn a_reader_or_a_writer_that_fails_ends_the_session() {
    let of_read = Odd { reads: io::ErrorKind::ConnectionReset, writes: None };
    let of_write = Odd { reads: io::ErrorKind::WouldBlock, writes: Some(io::ErrorKind::BrokenPipe) };
    for (odd, reason, kind) in
        [(of_read, Close::Read, io::ErrorKind::ConnectionReset), (of_write, Close::Clean, io::ErrorKind::BrokenPipe)]
    {
        let (reader, writer) = split(odd);
        let session = serve(Router::new(()), reader, writer, Settings::lsp()).unwrap();
        let peer = session.peer();
        // (a request needs a writer that fails; where the reader does, nothing is to be written)
        let reply = (reason == Close::Clean).then(|| peer.call("a", None));
        let end = timeout(LONG, session).await.expect("an end");
        assert_eq!((end.reason, end.error), (reason, Some(kind)));
        assert_eq!(peer.end(), Some(end));
        if let Some(reply) = reply {
            assert_eq!(reply.await, Err(CallError::Closed(Some(end))));
        }
    }
}

#[tokio::test]
async fn a_writer_that_stalls_stops_the_reader() {
    let (mut client, server) = duplex(1 << 10);
    let (reader, writer) = split(server);
    let begun = Arc::new(AtomicUsize::new(0));
    let router = Router::new(Arc::clone(&begun)).request("long", |it: Context<Arc<AtomicUsize>>, (): ()| async move {
        it.fetch_add(1, Ordering::SeqCst);
        Ok("x".repeat(100_000))
    });
    let session = tokio::spawn(serve(router, reader, writer, Settings::mcp()).unwrap());
    let line = b"{\"jsonrpc\":\"2.0\",\"method\":\"long\",\"id\":1}\n";
    let mut sent = 0;
    // (nobody reads: what may be written is bounded)
    while timeout(Duration::from_millis(300), client.write_all(line)).await.is_ok() {
        sent += 1;
    }
    // (1 MiB is eleven answers; what the streams hold, and one read of up to 64 KiB, is begun beside)
    assert!(begun.load(Ordering::SeqCst) < 1_650 && sent < 1_700, "{sent}");
    client.shutdown().await.unwrap();
    let reading = tokio::spawn(async move {
        let mut bytes = Vec::new();
        client.read_to_end(&mut bytes).await.map(|_| bytes.len())
    });
    let end = timeout(LONG, session).await.unwrap().unwrap();
    assert!(matches!(end.reason, Close::Clean), "{end}");
    assert!(reading.await.unwrap().unwrap() > begun.load(Ordering::SeqCst) * 100_000);
}

#[tokio::test]
async fn the_end_has_its_reason_and_place() {
    let input: &[u8] = b"Content-Length: 2\r\n\r\n[]no header\r\n\r\n";
    let end = serve(Router::new(()), input, tokio::io::sink(), Settings::lsp()).unwrap().await;
    assert_eq!((end.reason, end.place, end.error), (Close::BadHead, Some(23), None));
}

// The life of a language server

#[tokio::test]
async fn a_life_has_its_answers_and_ends_the_session() {
    let life = Life::with(|params| format!(r#"{{"given":{params}}}"#));
    let router = Router::lsp((), life).request("a", |_, (): ()| async { Ok("handled") });
    let (server, client) = joined(router, Router::new(()), 1 << 16);
    let peer = client.peer();
    let (server, _) = (tokio::spawn(server), tokio::spawn(client));
    assert_eq!(error(peer.call("a", None).await).code, -32002);
    assert_eq!(error(peer.call("initialize", None).await).message, "params: expected an object");
    assert_eq!(peer.call("initialize", r#"{"a":1}"#).await.unwrap(), r#"{"given":{"a":1}}"#);
    assert_eq!(error(peer.call("initialize", None).await).code, -32600);
    assert_eq!(peer.call("a", None).await.unwrap(), r#""handled""#);
    assert_eq!(peer.call("shutdown", None).await.unwrap(), "null");
    assert_eq!(error(peer.call("a", None).await).code, -32600);
    peer.notify("exit", None).unwrap();
    assert!(timeout(LONG, server).await.unwrap().unwrap().is_clean());
}
