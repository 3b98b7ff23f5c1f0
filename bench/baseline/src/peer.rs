//! The peer: it numbers the calls that come, runs their methods, and answers in the order of arrival.
use crate::message::{answer, error_object, is_whole, notice, read_key, Entry, Key, Outcome};
use crate::method::{invalid_params, no_reply, Method, Started};
use crate::side::{write_frame, Side};
use serde_json::{json, Value};
use std::collections::{BTreeMap, BTreeSet, VecDeque};
use std::io::{self, Write};

/// What came in one content, and its answers so far, with a place for each entry that gets one.
struct Unit {
    is_batch: bool,
    answers: Vec<Option<Value>>,
    open: usize,
}

/// A method under way.
struct Run {
    method: Method,
    params: Value,
    /// The id of its request, its unit and its place there, unless it is a notification's.
    request: Option<(Value, u64, usize)>,
    has_started: bool,
    replies: Vec<Option<Outcome>>,
}

impl Run {
    fn has_all(&self) -> bool {
        self.replies.iter().all(Option::is_some)
    }
}

pub struct Peer<W> {
    output: W,
    text: Vec<u8>,
    units: VecDeque<Unit>,
    /// How many units have been answered and are gone.
    released: u64,
    numbers: u64,
    runs: BTreeMap<u64, Run>,
    ready: BTreeSet<u64>,
}

impl<W: Write> Side for Peer<W> {
    /// Takes a content, runs what can be run, and writes what is due.
    fn take(&mut self, content: &[u8]) -> io::Result<()> {
        match serde_json::from_slice(content) {
            Err(_) => self.units.push_back(answered(error_object(-32700, "Parse error"))),
            Ok(Value::Array(entries)) if entries.is_empty() => self.units.push_back(answered(invalid_request())),
            Ok(Value::Array(entries)) => self.take_unit(true, entries)?,
            Ok(entry) => self.take_unit(false, [entry])?,
        }
        self.settle()
    }

    /// The input is over: calls without a reply get none.
    fn end(&mut self) -> io::Result<()> {
        for (&number, run) in &mut self.runs {
            run.replies.iter_mut().filter(|it| it.is_none()).for_each(|it| *it = Some(Err(no_reply())));
            self.ready.insert(number);
        }
        self.settle()?;
        self.flush()
    }

    fn flush(&mut self) -> io::Result<()> {
        self.output.flush()
    }
}

impl<W: Write> Peer<W> {
    pub fn new(output: W) -> Self {
        let (units, runs, ready) = Default::default();
        Peer { output, text: Vec::new(), units, released: 0, numbers: 0, runs, ready }
    }

    fn take_unit(&mut self, is_batch: bool, entries: impl IntoIterator<Item = Value>) -> io::Result<()> {
        self.units.push_back(Unit { is_batch, answers: Vec::new(), open: 0 });
        for entry in entries {
            match Entry::read(entry, read_key) {
                Entry::Call { id, method, params } => self.take_call(id, &method, params)?,
                Entry::Reply(key, outcome) => self.take_reply(key, outcome),
                Entry::Stray => {}
                Entry::Invalid => self.last_unit().answers.push(Some(answer(Value::Null, Err(invalid_request())))),
            }
        }
        Ok(())
    }

    fn last_unit(&mut self) -> &mut Unit {
        self.units.back_mut().expect("the unit of the entry that is taken")
    }

    fn take_call(&mut self, id: Option<Value>, method: &str, params: Value) -> io::Result<()> {
        self.numbers += 1;
        let unit = self.released + self.units.len() as u64 - 1;
        let request = id.map(|id| {
            let unit_of_it = self.last_unit();
            unit_of_it.answers.push(None);
            unit_of_it.open += 1;
            (id, unit, unit_of_it.answers.len() - 1)
        });
        match Method::named(method) {
            None if request.is_none() && method == "$/cancelRequest" => self.cancel(&params)?,
            None => self.finish(request, Err(error_object(-32601, "Method not found"))),
            Some(_) if !is_whole(&params) => self.finish(request, Err(invalid_params())),
            Some(method) => {
                let replies = vec![None; method.calls()];
                self.runs.insert(self.numbers, Run { method, params, request, has_started: false, replies });
                self.ready.insert(self.numbers);
            }
        }
        Ok(())
    }

    fn take_reply(&mut self, (number, turn): Key, outcome: Outcome) {
        let Some(run) = self.runs.get_mut(&number) else {
            return;
        };
        if let Some(place @ None) = turn.checked_sub(1).and_then(|at| run.replies.get_mut(at)) {
            *place = Some(outcome);
            if run.has_started && run.has_all() {
                self.ready.insert(number);
            }
        }
    }

    /// Cancels each open request with the id that the params name, and withdraws what it waits for.
    fn cancel(&mut self, params: &Value) -> io::Result<()> {
        let id = match params.get("id") {
            Some(id) if params.is_object() && is_whole(params) && (id.is_string() || id.is_number()) => id,
            _ => return Ok(()),
        };
        let is_meant = |run: &Run| run.request.as_ref().is_some_and(|(it, ..)| it == id);
        let meant: Vec<u64> = self.runs.iter().filter(|(_, run)| is_meant(run)).map(|(&number, _)| number).collect();
        for number in meant {
            self.ready.remove(&number);
            let Some(run) = self.runs.remove(&number) else {
                continue;
            };
            for (at, reply) in run.replies.iter().enumerate() {
                if run.has_started && reply.is_none() {
                    self.write(&notice("$/cancelRequest", json!({"id": format!("{number}.{}", at + 1)})))?;
                }
            }
            self.finish(run.request, Err(error_object(-32800, "Request cancelled")));
        }
        Ok(())
    }

    fn finish(&mut self, request: Option<(Value, u64, usize)>, outcome: Outcome) {
        if let Some((id, unit, place)) = request {
            let unit = &mut self.units[(unit - self.released) as usize];
            unit.answers[place] = Some(answer(id, outcome));
            unit.open -= 1;
        }
    }

    /// Runs all methods that can go on, the first first, and writes what becomes due.
    fn settle(&mut self) -> io::Result<()> {
        self.release()?;
        while let Some(number) = self.ready.pop_first() {
            self.turn(number)?;
            self.release()?;
        }
        Ok(())
    }

    fn turn(&mut self, number: u64) -> io::Result<()> {
        let Some(mut run) = self.runs.remove(&number) else {
            return Ok(());
        };
        if !run.has_started {
            match run.method.start(number, &run.params) {
                Started::Ends(outcome) => {
                    self.finish(run.request, outcome);
                    return Ok(());
                }
                Started::Tells(message, outcome) => {
                    self.write(&message)?;
                    self.finish(run.request, outcome);
                    return Ok(());
                }
                Started::Waits(message) => self.write(&message)?,
            }
            run.has_started = true;
        }
        if run.has_all() {
            let outcome = run.method.finish(run.replies.into_iter().flatten().collect());
            self.finish(run.request, outcome);
        } else {
            self.runs.insert(number, run);
        }
        Ok(())
    }

    /// Writes the answers of the units that are done, up to the first that isn't.
    fn release(&mut self) -> io::Result<()> {
        while self.units.front().is_some_and(|it| it.open == 0) {
            let Some(unit) = self.units.pop_front() else {
                break;
            };
            self.released += 1;
            let mut answers = unit.answers.into_iter().flatten();
            match (unit.is_batch, answers.next()) {
                (_, None) => {}
                (false, Some(answer)) => self.write(&answer)?,
                (true, Some(first)) => self.write(&[first].into_iter().chain(answers).collect())?,
            }
        }
        Ok(())
    }

    fn write(&mut self, message: &Value) -> io::Result<()> {
        write_frame(&mut self.output, &mut self.text, message)
    }
}

fn answered(error: Value) -> Unit {
    Unit { is_batch: false, answers: vec![Some(answer(Value::Null, Err(error)))], open: 0 }
}

fn invalid_request() -> Value {
    error_object(-32600, "Invalid Request")
}
