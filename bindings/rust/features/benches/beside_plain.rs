//! A router beside a plain server that is made of serde_json and tokio alone: requests at once, and one after the other.
//!
//!     cargo bench --offline --features tokio
//!
//! Both have one method, `textDocument/hover`, with params and a result by type, over a Unix socket, in a runtime of one
//! thread. The plain one reads frames, has serde_json read each message and its params, answers in its loop, and knows
//! nothing else of JSON-RPC: no batches, no checks, no cancels, no order to keep, since nothing runs side by side. They
//! run in turn, and the least time of all turns counts.
use bullmyrtle::tasks::{serve, Context, Router};
use bullmyrtle::{ErrorObject, Settings};
use serde::{Deserialize, Serialize};
use serde_json::value::RawValue;
use serde_json::Value;
use std::io::{BufReader, Read, Write};
use std::os::unix::net::UnixStream;
use std::thread;
use std::time::Instant;
use tokio::io::{AsyncReadExt, AsyncWriteExt};

const AT_ONCE: usize = 20_000;
const PINGS: usize = 4_000;

#[derive(Serialize, Deserialize)]
struct Position {
    line: u32,
    character: u32,
}

#[derive(Deserialize)]
struct Document {
    uri: String,
}

#[derive(Deserialize)]
#[serde(rename_all = "camelCase")]
struct Params {
    text_document: Document,
    position: Position,
}

#[derive(Serialize)]
struct Hover {
    contents: String,
    start: Position,
}

fn hover(it: Params) -> Hover {
    Hover { contents: it.text_document.uri, start: it.position }
}

// Ours

async fn routed(_: Context<()>, it: Params) -> Result<Hover, ErrorObject> {
    Ok(hover(it))
}

async fn ours(stream: tokio::net::UnixStream) {
    let (reader, writer) = stream.into_split();
    let router = Router::new(()).request("textDocument/hover", routed);
    serve(router, reader, writer, Settings::lsp()).expect("such settings").await;
}

// The plain one

#[derive(Deserialize)]
struct Request<'a> {
    id: Value,
    method: String,
    #[serde(borrow)]
    params: &'a RawValue,
}

#[derive(Serialize)]
struct Response<R> {
    jsonrpc: &'static str,
    id: Value,
    result: R,
}

/// The length of the header at the start of some bytes, and that of the content behind it.
fn header(bytes: &[u8]) -> Option<(usize, usize)> {
    let end = bytes.windows(4).position(|it| it == b"\r\n\r\n")?;
    let text = std::str::from_utf8(&bytes[..end]).expect("a header");
    Some((end + 4, text.strip_prefix("Content-Length: ")?.parse().ok()?))
}

async fn plain(mut stream: tokio::net::UnixStream) {
    let (mut input, mut begun, mut output) = (Vec::with_capacity(1 << 16), 0, Vec::new());
    while let Ok(1..) = stream.read_buf(&mut input).await {
        while let Some((start, length)) = header(&input[begun..]) {
            let content = begun + start..begun + start + length;
            if content.end > input.len() {
                break;
            }
            let request: Request<'_> = serde_json::from_slice(&input[content.clone()]).expect("a request");
            assert_eq!(request.method, "textDocument/hover");
            let result = hover(serde_json::from_str(request.params.get()).expect("its params"));
            let answer = serde_json::to_vec(&Response { jsonrpc: "2.0", id: request.id, result }).expect("JSON");
            write!(output, "Content-Length: {}\r\n\r\n", answer.len()).expect("memory");
            output.extend(answer);
            begun = content.end;
        }
        input.drain(..begun);
        begun = 0;
        stream.write_all(&output).await.expect("a client");
        output.clear();
    }
}

// The client

fn request(id: usize) -> Vec<u8> {
    let at = format!(r#""position":{{"line":{id},"character":7}}"#);
    let params = format!(r#"{{"textDocument":{{"uri":"file:///home/somebody/project/src/main.rs"}},{at}}}"#);
    let text = format!(r#"{{"jsonrpc":"2.0","id":{id},"method":"textDocument/hover","params":{params}}}"#);
    format!("Content-Length: {}\r\n\r\n{text}", text.len()).into_bytes()
}

fn read_answer(reader: &mut impl Read) {
    let mut head = Vec::new();
    while !head.ends_with(b"\r\n\r\n") {
        let mut byte = [0];
        reader.read_exact(&mut byte).expect("a header");
        head.extend(byte);
    }
    let mut content = vec![0; header(&head).expect("a length").1];
    reader.read_exact(&mut content).expect("a content");
    assert!(content.windows(9).any(|it| it == b"\"result\":"));
}

/// Nanoseconds for a request, at once and one after the other.
fn measured<F: std::future::Future + 'static>(server: fn(tokio::net::UnixStream) -> F) -> [f64; 2] {
    let (client, theirs) = UnixStream::pair().expect("a socket");
    theirs.set_nonblocking(true).expect("a socket");
    let serving = thread::spawn(move || {
        let runtime = tokio::runtime::Builder::new_current_thread().enable_all().build().expect("a runtime");
        runtime.block_on(async { server(tokio::net::UnixStream::from_std(theirs).expect("a socket")).await });
    });
    let (mut writer, mut reader) = (client.try_clone().expect("a socket"), BufReader::with_capacity(1 << 16, client));
    for id in 0..500 {
        writer.write_all(&request(id)).expect("a server");
        read_answer(&mut reader);
    }
    let begun = Instant::now();
    for id in 0..PINGS {
        writer.write_all(&request(id)).expect("a server");
        read_answer(&mut reader);
    }
    let ping = begun.elapsed().as_nanos() as f64 / PINGS as f64;
    let all: Vec<u8> = (0..AT_ONCE).flat_map(request).collect();
    let mut other = writer.try_clone().expect("a socket");
    let begun = Instant::now();
    let writing = thread::spawn(move || other.write_all(&all).expect("a server"));
    (0..AT_ONCE).for_each(|_| read_answer(&mut reader));
    let at_once = begun.elapsed().as_nanos() as f64 / AT_ONCE as f64;
    writing.join().expect("no panic");
    writer.shutdown(std::net::Shutdown::Both).expect("a socket");
    serving.join().expect("no panic");
    [at_once, ping]
}

fn main() {
    let mut least = [[f64::MAX; 2]; 2];
    // (a number of turns may be given, as for a profile)
    let turns = std::env::args().find_map(|it| it.parse().ok()).unwrap_or(10);
    for _ in 0..turns {
        for (of, found) in least.iter_mut().zip([measured(ours), measured(plain)]) {
            of.iter_mut().zip(found).for_each(|(least, now)| *least = least.min(now));
        }
    }
    let [ours, plain] = least;
    println!(
        "at once: {:.2} us for a request, plain {:.2} us: {:.2} of its rate",
        ours[0] / 1e3,
        plain[0] / 1e3,
        plain[0] / ours[0]
    );
    println!("ping: {:.2} us, plain {:.2} us: {:.2} of its time", ours[1] / 1e3, plain[1] / 1e3, ours[1] / plain[1]);
}
