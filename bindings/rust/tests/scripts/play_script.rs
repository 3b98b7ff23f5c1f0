//! Plays a script for a connection through the crate in Rust: an action a line on the standard input, what it gives on
//! the standard output. The repository's `checks/support/connection_script.py` has the grammar.
use bullmyrtle::{Cancels, Connection, Defect, Ended, Event, Framing, Json, Order, Outgoing, Refusal, Settings};
use std::io::{self, BufRead, Write};
use std::process::exit;

/// A line that can't be read ends the program.
fn give_up<T>() -> T {
    exit(2)
}

struct Words<'a>(std::str::Split<'a, char>);

impl<'a> Words<'a> {
    fn next(&mut self) -> &'a str {
        self.0.next().filter(|it| !it.is_empty()).unwrap_or_else(give_up)
    }

    fn rest(&mut self) -> Vec<&'a str> {
        self.0.by_ref().collect()
    }

    fn end(mut self) {
        if self.0.next().is_some() {
            give_up()
        }
    }

    fn number(&mut self) -> u64 {
        number(self.next())
    }

    fn code(&mut self) -> i64 {
        let word = self.next();
        let digits = word.strip_prefix('-').unwrap_or(word);
        let is_decimal = digits.bytes().all(|it| it.is_ascii_digit()) && (word == "0" || !digits.starts_with('0'));
        word.parse().ok().filter(|_| is_decimal).unwrap_or_else(give_up)
    }

    fn bytes(&mut self) -> Vec<u8> {
        unhex(self.next())
    }

    fn bytes_or_none(&mut self) -> Option<Vec<u8>> {
        bytes_or_none(self.next())
    }

    fn one_of<T: Copy>(&mut self, named: &[(&str, T)]) -> T {
        let word = self.next();
        named.iter().find(|it| it.0 == word).map_or_else(give_up, |it| it.1)
    }
}

fn unhex(word: &str) -> Vec<u8> {
    if word == "." {
        return Vec::new();
    }
    let digit = |it: u8| match it {
        b'0'..=b'9' => it - b'0',
        b'a'..=b'f' => it - b'a' + 10,
        _ => give_up(),
    };
    if word.is_empty() || word.len() % 2 != 0 {
        give_up()
    }
    word.as_bytes().chunks(2).map(|it| digit(it[0]) * 16 + digit(it[1])).collect()
}

fn bytes_or_none(word: &str) -> Option<Vec<u8>> {
    if word == "-" {
        None
    } else {
        Some(unhex(word))
    }
}

fn hex(bytes: impl AsRef<[u8]>) -> String {
    match bytes.as_ref() {
        b"" => ".".into(),
        some => some.iter().map(|it| format!("{it:02x}")).collect(),
    }
}

/// Whether the first of the words is this one, and those behind it then.
fn takes<'a, 'b>(name: &str, words: &'a [&'b str]) -> (bool, &'a [&'b str]) {
    match words.split_first() {
        Some((first, behind)) if *first == name => (true, behind),
        _ => (false, words),
    }
}

fn number(word: &str) -> u64 {
    let is_decimal = word.bytes().all(|it| it.is_ascii_digit()) && (word == "0" || !word.starts_with('0'));
    word.parse().ok().filter(|_| is_decimal).unwrap_or_else(give_up)
}

/// How many entries a batch may have, by the word `entries=MOST`.
fn most_entries(word: &str) -> u32 {
    match word.strip_prefix("entries=").map(number) {
        None | Some(0) => give_up(),
        Some(most) => most.try_into().unwrap_or(u32::MAX),
    }
}

fn hex_or_none(text: &Option<String>) -> String {
    text.as_ref().map_or_else(|| "-".into(), hex)
}

fn json(bytes: &Option<Vec<u8>>) -> Json<'_> {
    match bytes {
        None => Json::from(None),
        Some(bytes) => Json::from(bytes),
    }
}

fn refused(why: Refusal) -> String {
    let name = match why {
        Refusal::NoMemory => "memory",
        Refusal::NotOpen => "not_open",
        Refusal::NotWaiting => "not_waiting",
        Refusal::Over => "over",
        Refusal::NotJson => "not_json",
        Refusal::NotText => "not_text",
        Refusal::Settings => "settings",
        Refusal::Empty => "empty",
        Refusal::Full => "full",
    };
    format!("refused {name}")
}

fn said(result: Result<(), Refusal>) -> String {
    result.map_or_else(refused, |()| "ok".into())
}

fn with_key(result: Result<u64, Refusal>) -> String {
    result.map_or_else(refused, |key| format!("key {key}"))
}

fn told(event: Event) -> String {
    match event {
        Event::Request { number, id, method, params } => {
            format!("call {number} {} {} {}", hex(method), hex_or_none(&params), hex(id))
        }
        Event::Notification { number, method, params } => {
            format!("call {number} {} {} -", hex(method), hex_or_none(&params))
        }
        Event::Cancelled { number } => format!("cancelled {number}"),
        Event::Replied { key, reply: Ok(result) } => format!("replied {key} result {}", hex(result)),
        Event::Replied { key, reply: Err(error) } => {
            format!("replied {key} error {} {} {}", error.code, hex(error.message), hex_or_none(&error.data))
        }
        Event::Unanswered { key } => format!("unanswered {key}"),
        Event::Over(close) => format!("over {close:?}"),
        Event::Broken { place, start, defect: Defect::Unreadable } => {
            format!("broken {place} unreadable {}", hex(start))
        }
        Event::Broken { place, start, defect: Defect::Invalid { first, count } } => {
            format!("broken {place} invalid {first} {count} {}", hex(start))
        }
    }
}

struct Player {
    connection: Option<Connection>,
    has_begun: bool,
}

impl Player {
    fn begin(&mut self, mut words: Words) -> String {
        let framing =
            words.one_of(&[("frames", Framing::Frames), ("lines", Framing::Lines), ("contents", Framing::Contents)]);
        let order = words.one_of(&[("as-answered", Order::AsAnswered), ("as-came", Order::AsCame)]);
        let cancels = words.one_of(&[("no-cancels", Cancels::None), ("cancels", Cancels::Lsp), ("mcp", Cancels::Mcp)]);
        let content = words.number().try_into().unwrap_or(u32::MAX);
        let calls = words.number();
        let more = words.rest();
        let (broken, more) = takes("broken", &more);
        let (null_params, more) = takes("nulls", more);
        let entries = match *more {
            [] => u32::MAX,
            [word] => most_entries(word),
            _ => give_up(),
        };
        self.has_begun = true;
        let settings = Settings::new().framing(framing).order(order).cancels(cancels).broken(broken);
        let settings = settings.content(content).calls(calls).entries(entries).null_params(null_params);
        match Connection::new(settings) {
            Ok(made) => {
                self.connection = Some(made);
                "ok".into()
            }
            Err(why) => {
                self.connection = None;
                refused(why)
            }
        }
    }

    fn play(&mut self, line: &str) -> String {
        let mut words = Words(line.split(' '));
        let action = words.next();
        if action == "settings" {
            return self.begin(words);
        }
        if !self.has_begun {
            give_up()
        }
        match &mut self.connection {
            Some(connection) => act(connection, action, words),
            None => "refused settings".into(),
        }
    }
}

fn act(connection: &mut Connection, action: &str, mut words: Words) -> String {
    let said = match action {
        "feed" => said(connection.feed(&words.bytes())),
        "end" => said(connection.end(words.one_of(&[("closed", Ended::Closed), ("failed", Ended::ReadFailed)]))),
        "next" => connection.next_event().map_or_else(refused, |it| it.map_or_else(|| "none".into(), told)),
        "call" => {
            let (number, method, params) = (words.number(), words.bytes(), words.bytes_or_none());
            with_key(connection.call(number, method, json(&params)))
        }
        "batch" => {
            let number = words.number();
            let parts = words.rest();
            if parts.len() % 2 != 0 {
                give_up()
            }
            let calls: Vec<_> = parts.chunks(2).map(|it| (unhex(it[0]), bytes_or_none(it[1]))).collect();
            let outgoing: Vec<_> = calls.iter().map(|it| Outgoing::new(&it.0, json(&it.1))).collect();
            with_key(connection.call_batch(number, &outgoing).map(|keys| {
                assert_eq!(keys.end - keys.start, calls.len() as u64);
                keys.start
            }))
        }
        "notify" => {
            let (method, params) = (words.bytes(), words.bytes_or_none());
            said(connection.notify(method, json(&params)))
        }
        "withdraw" => said(connection.withdraw(words.number())),
        "answer" => {
            let (number, result) = (words.number(), words.bytes_or_none());
            said(connection.answer(number, json(&result)))
        }
        "fail" => {
            let (number, code, message, data) = (words.number(), words.code(), words.bytes(), words.bytes_or_none());
            said(connection.fail(number, code, message, json(&data)))
        }
        "cancel" => said(connection.cancel(words.number())),
        "take" => {
            format!("bytes {}", hex(take(connection, words.number())))
        }
        "pending" => format!("pending {}", connection.pending()),
        "is_done" => connection.is_done().to_string(),
        "fault_place" => connection.fault_place().map_or_else(|| "none".into(), |it| format!("place {it}")),
        "report" => {
            let it = connection.report();
            let counts = [it.calls, it.requests, it.open, it.waiting, it.own_calls, it.answers_written];
            let others = [it.unreadable, it.invalid, it.ignored];
            counts.iter().chain(&others).fold("report".to_string(), |text, it| format!("{text} {it}"))
        }
        _ => give_up(),
    };
    words.end();
    said
}

/// At most so many bytes of what is to be written: none of a text that has more.
fn take(connection: &mut Connection, most: u64) -> Vec<u8> {
    let most = most.min(connection.pending() as u64) as usize;
    let mut taken = Vec::new();
    while taken.len() < most {
        let piece = connection.output();
        let count = piece.len().min(most - taken.len());
        let end = taken.len();
        taken.extend_from_slice(&piece[..count]);
        if connection.written(count).is_err() {
            taken.truncate(end);
            break;
        }
    }
    taken
}

fn main() -> io::Result<()> {
    let mut output = io::BufWriter::new(io::stdout().lock());
    let mut player = Player { connection: None, has_begun: false };
    for line in io::stdin().lock().lines() {
        let given = player.play(&line?);
        writeln!(output, "{given}")?;
    }
    output.flush()
}
