//! A language server on the standard streams. It has one method, `textDocument/definition`, whose answer is the place
//! itself: each word is defined where it stands.
//!
//!     cargo run --example goto_def
use bullmyrtle::{Connection, Ended, Event, Refusal, Settings};
use std::error::Error;
use std::fs::File;
use std::io::{self, Read};
use std::os::unix::io::AsFd;
use std::process::ExitCode;

/// Codes of errors, by JSON-RPC 2.0 (section 5.1) and LSP 3.17.
const INVALID_REQUEST: i64 = -32600;
const METHOD_NOT_FOUND: i64 = -32601;
const INVALID_PARAMS: i64 = -32602;
const NOT_INITIALIZED: i64 = -32002;

#[derive(Clone, Copy, PartialEq, Eq)]
enum Stage {
    New,
    Initialized,
    ShutDown,
    Exited,
}

struct Server {
    connection: Connection,
    stage: Stage,
}

fn main() -> Result<ExitCode, Box<dyn Error>> {
    let connection = Connection::new(Settings::new().cancels(true))?;
    let mut server = Server { connection, stage: Stage::New };
    // (`Stdout` is buffered by lines, and would cut a frame into two writes)
    let (mut input, mut output) = (io::stdin().lock(), File::from(io::stdout().as_fd().try_clone_to_owned()?));
    let mut bytes = [0; 65_536];
    let mut was_shut_down = false;
    while server.stage != Stage::Exited && !server.connection.is_done() {
        match input.read(&mut bytes) {
            Ok(0) => server.connection.end(Ended::Closed)?,
            Ok(count) => server.connection.feed(&bytes[..count])?,
            Err(why) if why.kind() == io::ErrorKind::Interrupted => {}
            Err(_) => server.connection.end(Ended::ReadFailed)?,
        }
        while let Some(event) = server.connection.next_event()? {
            server.hear(event)?;
            was_shut_down |= server.stage == Stage::ShutDown;
        }
        server.connection.write_to(&mut output)?;
    }
    Ok(if was_shut_down { ExitCode::SUCCESS } else { ExitCode::FAILURE })
}

impl Server {
    fn hear(&mut self, event: Event) -> Result<(), Refusal> {
        match event {
            Event::Request { number, method, params, .. } => self.answer(number, &method, params.as_deref()),
            Event::Notification { number, method, .. } => {
                if method == "exit" {
                    self.stage = Stage::Exited;
                }
                self.connection.close(number)
            }
            // (each request is answered at once, so no cancel reaches one; it makes no calls, and isn't told of broken input)
            _ => Ok(()),
        }
    }

    fn answer(&mut self, number: u64, method: &str, params: Option<&str>) -> Result<(), Refusal> {
        match (self.stage, method) {
            // (the params are compact, and what begins so is an object)
            (Stage::New, "initialize") if !params.unwrap_or("").starts_with('{') => {
                self.connection.fail(number, INVALID_PARAMS, "params: expected an object", None)
            }
            (Stage::New, "initialize") => {
                self.stage = Stage::Initialized;
                self.connection.answer(number, r#"{"capabilities":{"definitionProvider":true}}"#)
            }
            (Stage::New, _) => self.connection.fail(number, NOT_INITIALIZED, "not initialized", None),
            (Stage::Initialized, "textDocument/definition") => match params.and_then(definition) {
                Some(place) => self.connection.answer(number, &place),
                None => self.connection.fail(number, INVALID_PARAMS, "no place in a document", None),
            },
            (Stage::Initialized, "shutdown") => {
                self.stage = Stage::ShutDown;
                self.connection.answer(number, "null")
            }
            (Stage::Initialized, it) if it != "initialize" => {
                self.connection.fail(number, METHOD_NOT_FOUND, "no such method", None)
            }
            _ => self.connection.fail(number, INVALID_REQUEST, "not at this time", None),
        }
    }
}

/// The place that the params name, as a `Location`.
fn definition(params: &str) -> Option<String> {
    let uri = member(member(params, "textDocument")?, "uri")?;
    let place = member(params, "position")?;
    Some(format!(r#"{{"uri":{uri},"range":{{"start":{place},"end":{place}}}}}"#))
}

/// The text of a member's value, where the JSON is an object that has it. A server with more methods reads JSON by a
/// crate, as `serde_json`. This is short since the library tells JSON that is checked and has no blanks.
fn member<'a>(object: &'a str, name: &str) -> Option<&'a str> {
    let mut rest = object.strip_prefix('{')?;
    while !rest.starts_with('}') {
        let key = value_length(rest);
        let value = &rest[key + 1..];
        let length = value_length(value);
        if rest[1..key - 1] == *name {
            return Some(&value[..length]);
        }
        rest = value[length..].trim_start_matches(',');
    }
    None
}

/// How long the value is that a text begins with.
fn value_length(text: &str) -> usize {
    let (mut depth, mut is_string, mut is_escaped) = (0, false, false);
    for (at, byte) in text.bytes().enumerate() {
        match byte {
            _ if is_escaped => is_escaped = false,
            b'\\' => is_escaped = true,
            b'"' => is_string = !is_string,
            _ if is_string => {}
            b'[' | b'{' => depth += 1,
            b',' | b':' | b']' | b'}' if depth == 0 => return at,
            b']' | b'}' => depth -= 1,
            _ => {}
        }
    }
    text.len()
}
