//! The host that bench/run measures, over the crate in Rust: what host.c does beside it.
use bullmyrtle::{Connection, Ended, Event, Refusal, Settings};
use std::collections::HashMap;
use std::error::Error;
use std::fs::File;
use std::io::{self, Read};
use std::os::unix::io::AsFd;

struct Host {
    connection: Connection,
    /// By the keys of our calls, the requests on whose behalf they are.
    asked: HashMap<u64, u64>,
}

fn main() -> Result<(), Box<dyn Error>> {
    let connection = Connection::new(Settings::new().cancels(true))?;
    let mut host = Host { connection, asked: HashMap::new() };
    let (mut input, mut output) = (io::stdin().lock(), File::from(io::stdout().as_fd().try_clone_to_owned()?));
    let mut bytes = vec![0; 65_536];
    while !host.connection.is_done() {
        match input.read(&mut bytes)? {
            0 => host.connection.end(Ended::Closed)?,
            count => host.connection.feed(&bytes[..count])?,
        }
        while let Some(event) = host.connection.next_event()? {
            host.hear(event)?;
        }
        host.connection.write_to(&mut output)?;
    }
    Ok(())
}

impl Host {
    fn hear(&mut self, event: Event) -> Result<(), Refusal> {
        match event {
            Event::Request { number, method, params, .. } => self.called(number, &method, params.as_deref()),
            Event::Notification { number, .. } => self.connection.close(number),
            Event::Cancelled { number } => self.connection.cancel(number),
            Event::Replied { key, reply } => match (self.asked.remove(&key), reply) {
                (Some(number), Ok(result)) => self.connection.answer(number, &result),
                (Some(number), Err(it)) => self.connection.fail(number, it.code, it.message, it.data.as_deref()),
                (None, _) => Ok(()),
            },
            Event::Unanswered { key } => match self.asked.remove(&key) {
                Some(number) => self.connection.fail(number, -32000, "No reply", None),
                None => Ok(()),
            },
            Event::Over(_) | Event::Broken { .. } => Ok(()),
        }
    }

    fn called(&mut self, number: u64, method: &str, params: Option<&str>) -> Result<(), Refusal> {
        match method {
            "add" => match params.and_then(sum) {
                Some(sum) => self.connection.answer(number, &sum.to_string()),
                None => self.connection.fail(number, -32602, "Invalid params", None),
            },
            "give" => match params.and_then(repeated) {
                Some(array) => self.connection.answer(number, &array),
                None => self.connection.fail(number, -32602, "Invalid params", None),
            },
            "ask" => {
                let key = self.connection.call(number, "confirm", params)?;
                self.asked.insert(key, number);
                Ok(())
            }
            _ => self.connection.fail(number, -32601, "Method not found", None),
        }
    }
}

/// The sum of an array of whole numbers, which has no blanks.
fn sum(params: &str) -> Option<i64> {
    let items = params.strip_prefix('[')?.strip_suffix(']')?;
    let mut numbers = items.split(',').filter(|it| !it.is_empty());
    numbers.try_fold(0i64, |sum, it| sum.checked_add(it.parse().ok()?))
}

/// An array of so many times a value, by params `[N,VALUE]`, which have no blanks.
fn repeated(params: &str) -> Option<String> {
    let (count, item) = params.strip_prefix('[')?.strip_suffix(']')?.split_once(',')?;
    let count = count.parse().ok().filter(|&it: &usize| it > 0)?;
    Some(format!("[{}]", vec![item; count].join(",")))
}
