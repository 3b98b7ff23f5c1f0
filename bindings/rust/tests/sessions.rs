//! Random sessions of two ends that call each other and cancel, on threads: each call ends, and nothing is kept of it.
//! The kinds of methods are those of the tests in Python and in Node.js.
use bullmyrtle::{codes, CallError, Connection, Incoming, Outgoing, Peer, Request, Response, Server, Settings};
use std::thread::{self, JoinHandle};
use std::time::Duration;

const SESSIONS: u64 = 10;
const CALLS: u64 = 100;
const KINDS: [&str; 10] = ["plain", "async", "thread", "later", "raises", "nope", "back", "deep", "batch", "stubborn"];
const LONG: Duration = Duration::from_secs(60);

/// Numbers that look random, the same for the same seed.
struct Chance(u64);

impl Chance {
    fn below(&mut self, bound: u64) -> u64 {
        self.0 = self.0.wrapping_mul(6_364_136_223_846_793_005).wrapping_add(1_442_695_040_888_963_407);
        (self.0 >> 33) % bound
    }
}

fn number_of(params: Option<&str>) -> i64 {
    params.and_then(|it| it.trim_matches(&['[', ']'][..]).parse().ok()).expect("a number")
}

/// What a method does that takes its time: it runs in a thread of its own.
fn work(request: Request) {
    let (method, number) = (request.method().to_string(), number_of(request.params()));
    let (own, params) = (format!("[{number}]"), format!("[{}]", number - 3));
    let responder = request.into_responder();
    let nap = |turns: i64| responder.token().sleep(Duration::from_millis(turns as u64));
    let result: Result<String, Response> = match method.as_str() {
        "async" | "later" if nap(number) => return responder.cancel(),
        "async" | "later" => Ok(own),
        "thread" if number % 2 == 0 => Ok(own),
        "thread" => responder.call("plain", &own).wait().map_err(Err),
        "raises" => return responder.fail(number, "raised"),
        "back" => responder.call("async", &own).wait().map_err(Err),
        "deep" => responder.call(if number > 3 { "deep" } else { "plain" }, &params).wait().map_err(Err),
        "batch" => {
            let calls = [("plain", &own), ("raises", &own), ("async", &own)].map(|it| Outgoing::new(it.0, it.1));
            let replies = responder.peer().call_batch(&calls).expect("the session goes on");
            let found: Vec<Response> = replies.into_iter().map(|it| it.wait()).collect();
            match &found[..] {
                [Ok(one), Err(CallError::Response(error)), Ok(other)] => Ok(format!("[{one},{},{other}]", error.code)),
                other => panic!("{other:?}"),
            }
        }
        // (a cancel wakes it, and it goes on)
        "stubborn" => {
            let _ = nap(10 * number);
            Ok(own)
        }
        _ => return responder.not_found(&method),
    };
    match result {
        Ok(text) => responder.answer(&text).expect("JSON"),
        Err(Err(CallError::Response(error))) => responder.fail(error.code, &error.message),
        // (its own call was closed or withdrawn with this request)
        Err(_) => responder.cancel(),
    }
}

fn expected(kind: &str, number: u64) -> String {
    match kind {
        // (it goes down by 3 until it is at most 3, and then once more)
        "deep" => format!("[{}]", (number - 1) as i64 % 3 - 2),
        "batch" => format!("[[{number}],{number},[{number}]]"),
        _ => format!("[{number}]"),
    }
}

/// Handles what comes, and says at the end how many threads have begun.
fn served(server: Server) -> JoinHandle<Server> {
    thread::spawn(move || {
        let mut threads = Vec::new();
        for it in &server {
            match it {
                Incoming::Request(it) if it.method() == "plain" => {
                    let params = it.params().expect("params").to_string();
                    it.answer(&params).expect("JSON");
                }
                Incoming::Request(it) => threads.push(thread::spawn(|| work(it))),
                Incoming::Notification(_) => {}
            }
        }
        threads.into_iter().for_each(|it| it.join().expect("no panic"));
        server
    })
}

/// Makes a call, and now and then cancels it; says whether it was answered.
fn one(peer: &Peer, mut chance: Chance) -> bool {
    let (kind, number) = (KINDS[chance.below(10) as usize], chance.below(11) + 1);
    thread::sleep(Duration::from_micros(chance.below(20_000)));
    let reply = peer.call(kind, &format!("[{number}]"));
    let patience = chance.below(100);
    if patience < 40 {
        thread::sleep(Duration::from_micros(chance.below(5_000)));
        if patience > 25 {
            return false;
        }
        reply.cancel();
    }
    match reply.wait_timeout(LONG).expect("a response") {
        Ok(it) => {
            assert_eq!(it, expected(kind, number), "{kind}");
            true
        }
        Err(CallError::Response(error)) => {
            let own = match kind {
                "raises" => number as i64,
                "nope" => codes::METHOD_NOT_FOUND,
                _ => codes::REQUEST_CANCELLED,
            };
            assert!(error.code == own || error.code == codes::REQUEST_CANCELLED && patience < 40, "{kind}: {error}");
            false
        }
        Err(other) => panic!("{kind}: {other}"),
    }
}

#[test]
fn random_sessions() {
    let mut answered = 0;
    for seed in 0..SESSIONS {
        let (one_end, other) = Connection::memory(Settings::lsp()).unwrap();
        let peers = [one_end.peer().clone(), other.peer().clone()];
        let serving = [served(one_end), served(other)];
        let calls: Vec<_> = (0..CALLS)
            .map(|at| {
                let (peer, chance) = (peers[(at % 2) as usize].clone(), Chance(seed * 1_000 + at));
                thread::spawn(move || usize::from(one(&peer, chance)))
            })
            .collect();
        answered += calls.into_iter().map(|it| it.join().unwrap()).sum::<usize>();
        let until = std::time::Instant::now() + LONG;
        for it in &peers {
            assert_eq!(it.call("plain", "[1]").wait().unwrap(), "[1]");
            while it.open() > 0 || it.waiting() > 0 {
                assert!(std::time::Instant::now() < until, "{it:?}");
                thread::sleep(Duration::from_millis(1));
            }
        }
        peers.iter().for_each(Peer::stop);
        serving.into_iter().for_each(|it| drop(it.join().unwrap()));
    }
    assert!(answered > 0);
}
