//! Random sessions of two ends that call each other and cancel, on tokio: each call ends, and nothing is kept of it.
//! The kinds of methods are those of the tests in Python and in Node.js.
use bullmyrtle::tasks::{serve, Context, Router};
use bullmyrtle::{codes, CallError, ErrorObject, Outgoing, Peer, Response, Settings};
use serde_json::{json, Value};
use std::time::Duration;
use tokio::io::{duplex, split};
use tokio::time::{sleep, timeout};

const SESSIONS: u64 = 15;
const CALLS: u64 = 150;
const KINDS: [&str; 10] = ["plain", "async", "thread", "later", "raises", "nope", "back", "deep", "batch", "stubborn"];
const LONG: Duration = Duration::from_secs(120);

type Answer = Result<Value, ErrorObject>;

/// Numbers that look random, the same for the same seed.
struct Chance(u64);

impl Chance {
    fn below(&mut self, bound: u64) -> u64 {
        self.0 = self.0.wrapping_mul(6_364_136_223_846_793_005).wrapping_add(1_442_695_040_888_963_407);
        (self.0 >> 33) % bound
    }
}

async fn nap(turns: i64) {
    sleep(Duration::from_millis(turns.unsigned_abs())).await;
}

async fn call(context: &Context<()>, method: &str, number: i64) -> Answer {
    let text = context.call(method, &format!("[{number}]")).await?;
    Ok(serde_json::from_str(&text).expect("JSON"))
}

async fn batch(context: Context<()>, (number,): (i64,)) -> Answer {
    let own = format!("[{number}]");
    let calls = [("plain", &own), ("raises", &own), ("async", &own)].map(|it| Outgoing::new(it.0, it.1));
    let replies = context.peer().call_batch(&calls).expect("the session goes on");
    let mut found = Vec::<Response>::new();
    for it in replies {
        found.push(it.await);
    }
    match &found[..] {
        [Ok(one), Err(CallError::Response(error)), Ok(other)] => {
            let read = |it: &str| serde_json::from_str::<Value>(it).expect("JSON");
            Ok(json!([read(one), error.code, read(other)]))
        }
        other => panic!("{other:?}"),
    }
}

fn router() -> Router<()> {
    Router::new(())
        .request("plain", |_, it: Value| async { Ok(it) })
        .request("async", |_, (it,): (i64,)| async move {
            nap(it).await;
            Ok(json!([it]))
        })
        .request("later", |_, (it,): (i64,)| async move {
            let late = tokio::spawn(nap(it));
            late.await.expect("no panic");
            Ok(json!([it]))
        })
        .request("thread", |context: Context<()>, (it,): (i64,)| async move {
            if it % 2 == 0 {
                return Ok(json!([it]));
            }
            // (a blocking call in a thread of its own)
            let reply = context.call("plain", &format!("[{it}]"));
            let waiting = tokio::task::spawn_blocking(|| reply.wait());
            Ok(serde_json::from_str(&waiting.await.expect("no panic")?).expect("JSON"))
        })
        .request("raises", |_, (it,): (i64,)| async move { Err::<(), _>(ErrorObject::new(it, "raised")) })
        .request("back", |context: Context<()>, (it,): (i64,)| async move { call(&context, "async", it).await })
        .request("deep", |context: Context<()>, (it,): (i64,)| async move {
            call(&context, if it > 3 { "deep" } else { "plain" }, it - 3).await
        })
        .request("batch", batch)
        .request("stubborn", |context: Context<()>, (it,): (i64,)| async move {
            let cancelled = context.token().expect("it is a request").cancelled();
            tokio::select! { () = cancelled => {}, () = nap(10 * it) => {} }
            Ok(json!([it]))
        })
}

fn expected(kind: &str, number: i64) -> String {
    match kind {
        // (it goes down by 3 until it is at most 3, and then once more)
        "deep" => format!("[{}]", (number - 1) % 3 - 2),
        "batch" => format!("[[{number}],{number},[{number}]]"),
        _ => format!("[{number}]"),
    }
}

/// Makes a call, and now and then cancels it in one way or the other; says whether it was answered.
async fn one(peer: Peer, mut chance: Chance) -> bool {
    let (kind, number) = (KINDS[chance.below(10) as usize], chance.below(11) as i64 + 1);
    sleep(Duration::from_micros(chance.below(20_000))).await;
    let mut reply = peer.call(kind, &format!("[{number}]"));
    let patience = chance.below(100);
    if patience < 40 {
        let waited = timeout(Duration::from_micros(chance.below(5_000)), &mut reply).await;
        match waited {
            // (the response has come before the cancel)
            Ok(response) => return is_answered(kind, number, response, true),
            Err(_) if patience > 25 => return false,
            Err(_) => reply.cancel(),
        }
    }
    is_answered(kind, number, timeout(LONG, reply).await.expect("a response"), patience < 40)
}

fn is_answered(kind: &str, number: i64, response: Response, may_be_cancelled: bool) -> bool {
    match response {
        Ok(it) => {
            assert_eq!(it, expected(kind, number), "{kind}");
            true
        }
        Err(CallError::Response(error)) => {
            let own = match kind {
                "raises" => number,
                "nope" => codes::METHOD_NOT_FOUND,
                _ => codes::REQUEST_CANCELLED,
            };
            let is_cancel = error.code == codes::REQUEST_CANCELLED && may_be_cancelled;
            assert!(is_cancel || error.code == own && own != codes::REQUEST_CANCELLED, "{kind}: {error}");
            false
        }
        Err(other) => panic!("{kind}: {other}"),
    }
}

async fn session(seed: u64, workers_drop: bool) -> usize {
    let (left, right) = duplex(1 << 12);
    let ends = [left, right].map(|it| {
        let (reader, writer) = split(it);
        serve(router(), reader, writer, Settings::lsp()).unwrap().cancels_drop(workers_drop).at_once(10_000)
    });
    let peers = [ends[0].peer(), ends[1].peer()];
    let serving = ends.map(tokio::spawn);
    let calls: Vec<_> =
        (0..CALLS).map(|at| tokio::spawn(one(peers[(at % 2) as usize].clone(), Chance(seed * 1_000 + at)))).collect();
    let mut answered = 0;
    for it in calls {
        answered += usize::from(it.await.unwrap());
    }
    for it in &peers {
        assert_eq!(timeout(LONG, it.call("plain", "[1]")).await.expect("a response").unwrap(), "[1]");
        let settled = async {
            while it.open() > 0 || it.waiting() > 0 {
                sleep(Duration::from_millis(1)).await;
            }
        };
        timeout(LONG, settled).await.unwrap_or_else(|_| panic!("{it:?}"));
    }
    peers.iter().for_each(Peer::stop);
    for it in serving {
        timeout(LONG, it).await.expect("an end").unwrap();
    }
    answered
}

#[test]
fn random_sessions() {
    for workers in [1, 4] {
        let runtime = tokio::runtime::Builder::new_multi_thread().worker_threads(workers).enable_all().build().unwrap();
        runtime.block_on(async {
            let mut answered = 0;
            for seed in 0..SESSIONS {
                answered += session(seed, seed % 2 == 0).await;
            }
            assert!(answered > SESSIONS as usize);
        });
    }
}
