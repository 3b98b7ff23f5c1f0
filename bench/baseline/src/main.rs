//! A plain JSON-RPC 2.0 peer with six methods built in, as one writes it without proofs: buffered, one thread, `serde_json`.
//!
//! Its methods are those of `bench/baseline/methods.toml`. With the word `host` it has the methods of `bench/embedded/host.c`, and
//! answers each request as soon as it can. What is written is flushed whenever no input waits.
mod host;
mod message;
mod method;
mod peer;
mod side;

use host::Host;
use peer::Peer;
use side::Side;
use std::io::{self, BufRead, BufReader, BufWriter, Read};

fn main() -> io::Result<()> {
    let output = BufWriter::with_capacity(65_536, io::stdout().lock());
    match std::env::args().nth(1).as_deref() {
        Some("host") => serve(Host::new(output)),
        _ => serve(Peer::new(output)),
    }
}

fn serve(mut side: impl Side) -> io::Result<()> {
    let mut input = BufReader::with_capacity(65_536, io::stdin().lock());
    let mut line = Vec::new();
    let mut content = Vec::new();
    while let Some(length) = head(&mut input, &mut line)? {
        content.resize(length, 0);
        input.read_exact(&mut content)?;
        side.take(&content)?;
        if input.buffer().is_empty() {
            side.flush()?;
        }
    }
    side.end()
}

/// The length that a head gives, or none at the end of the input.
fn head(input: &mut impl BufRead, line: &mut Vec<u8>) -> io::Result<Option<usize>> {
    let mut length = None;
    loop {
        line.clear();
        if input.read_until(b'\n', line)? == 0 {
            return Ok(None);
        }
        let text = line.strip_suffix(b"\r\n").ok_or(io::ErrorKind::InvalidData)?;
        if text.is_empty() {
            return Ok(Some(length.ok_or(io::ErrorKind::InvalidData)?));
        }
        let text = std::str::from_utf8(text).map_err(|_| io::ErrorKind::InvalidData)?;
        let (name, value) = text.split_once(':').ok_or(io::ErrorKind::InvalidData)?;
        if name.eq_ignore_ascii_case("content-length") {
            length = Some(value.trim().parse().map_err(|_| io::ErrorKind::InvalidData)?);
        }
    }
}
