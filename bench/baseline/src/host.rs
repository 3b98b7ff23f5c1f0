//! A host: three methods in its own code, `add`, `give` and `ask`, each request answered as soon as it can be.
use crate::message::{answer, call_with, error_object, notice, Entry, Outcome};
use crate::method::{invalid_params, no_reply};
use crate::side::{write_frame, Side};
use serde_json::{json, Value};
use std::collections::HashMap;
use std::io::{self, Write};

/// Where a request's answer goes: alone, or to a place in a batch.
#[derive(Clone, Copy)]
enum Place {
    Single,
    InBatch { batch: u64, at: usize },
}

/// A batch's answers so far, with a place for each entry that gets one.
struct Batch {
    answers: Vec<Option<Value>>,
    open: usize,
}

/// A request on whose behalf the other side was called.
struct Asked {
    id: Value,
    place: Place,
}

pub struct Host<W> {
    output: W,
    text: Vec<u8>,
    keys: u64,
    asked: HashMap<u64, Asked>,
    count: u64,
    batches: HashMap<u64, Batch>,
}

impl<W: Write> Side for Host<W> {
    fn take(&mut self, content: &[u8]) -> io::Result<()> {
        match serde_json::from_slice(content) {
            Err(_) => self.write(&refused(error_object(-32700, "Parse error"))),
            Ok(Value::Array(entries)) if !entries.is_empty() => self.take_batch(entries),
            Ok(entry) => self.take_entry(entry, |_| Place::Single),
        }
    }

    fn flush(&mut self) -> io::Result<()> {
        self.output.flush()
    }

    fn end(&mut self) -> io::Result<()> {
        let mut keys: Vec<u64> = self.asked.keys().copied().collect();
        keys.sort_unstable();
        for key in keys {
            self.take_reply(key, Err(no_reply()))?;
        }
        self.flush()
    }
}

impl<W: Write> Host<W> {
    pub fn new(output: W) -> Self {
        Host { output, text: Vec::new(), keys: 0, asked: HashMap::new(), count: 0, batches: HashMap::new() }
    }

    fn take_batch(&mut self, entries: Vec<Value>) -> io::Result<()> {
        self.count += 1;
        let batch = self.count;
        // (one more is open as long as entries are taken)
        self.batches.insert(batch, Batch { answers: Vec::new(), open: 1 });
        for entry in entries {
            self.take_entry(entry, |host| host.place_in(batch))?;
        }
        self.close(batch)
    }

    /// A place for one more answer of the batch.
    fn place_in(&mut self, batch: u64) -> Place {
        let it = self.batches.get_mut(&batch).expect("the batch that is taken");
        it.answers.push(None);
        it.open += 1;
        Place::InBatch { batch, at: it.answers.len() - 1 }
    }

    fn take_entry(&mut self, entry: Value, place: impl FnOnce(&mut Self) -> Place) -> io::Result<()> {
        match Entry::read(entry, Value::as_u64) {
            Entry::Call { id: Some(id), method, params } => {
                let place = place(self);
                self.start(id, place, &method, params)
            }
            Entry::Call { id: None, method, params } if method == "$/cancelRequest" => self.cancel(&params),
            Entry::Reply(key, outcome) => self.take_reply(key, outcome),
            Entry::Call { .. } | Entry::Stray => Ok(()),
            Entry::Invalid => {
                let place = place(self);
                self.give(place, refused(error_object(-32600, "Invalid Request")))
            }
        }
    }

    fn start(&mut self, id: Value, place: Place, method: &str, params: Value) -> io::Result<()> {
        match method {
            "add" => self.give(place, answer(id, sum(&params))),
            "give" => self.give(place, answer(id, repeated(&params))),
            "ask" => {
                self.keys += 1;
                self.asked.insert(self.keys, Asked { id, place });
                let params = if params.is_null() { None } else { Some(params) };
                self.write(&call_with(self.keys.into(), "confirm", params))
            }
            _ => self.give(place, answer(id, Err(error_object(-32601, "Method not found")))),
        }
    }

    fn take_reply(&mut self, key: u64, outcome: Outcome) -> io::Result<()> {
        match self.asked.remove(&key) {
            Some(Asked { id, place }) => self.give(place, answer(id, outcome)),
            None => Ok(()),
        }
    }

    /// Withdraws the calls of the requests with the id that the params name, and answers these.
    fn cancel(&mut self, params: &Value) -> io::Result<()> {
        let id = params.get("id").unwrap_or(&Value::Null);
        let mut keys: Vec<u64> = self.asked.iter().filter(|(_, it)| it.id == *id).map(|(&key, _)| key).collect();
        keys.sort_unstable();
        for key in keys {
            self.write(&notice("$/cancelRequest", json!({"id": key})))?;
            self.take_reply(key, Err(error_object(-32800, "Request cancelled")))?;
        }
        Ok(())
    }

    fn give(&mut self, place: Place, answer: Value) -> io::Result<()> {
        match place {
            Place::Single => self.write(&answer),
            Place::InBatch { batch, at } => {
                self.batches.get_mut(&batch).expect("the batch of an open request").answers[at] = Some(answer);
                self.close(batch)
            }
        }
    }

    /// One less is open in the batch. With the last its answers go out, if there are any.
    fn close(&mut self, batch: u64) -> io::Result<()> {
        let it = self.batches.get_mut(&batch).expect("the batch of what is open");
        it.open -= 1;
        if it.open > 0 {
            return Ok(());
        }
        let answers: Vec<Value> = self.batches.remove(&batch).into_iter().flat_map(|it| it.answers).flatten().collect();
        if answers.is_empty() {
            return Ok(());
        }
        self.write(&Value::Array(answers))
    }

    fn write(&mut self, message: &Value) -> io::Result<()> {
        write_frame(&mut self.output, &mut self.text, message)
    }
}

fn refused(error: Value) -> Value {
    answer(Value::Null, Err(error))
}

/// The sum of an array of whole numbers.
fn sum(params: &Value) -> Outcome {
    let mut sum = 0i64;
    for it in params.as_array().ok_or_else(invalid_params)? {
        let number = it.as_i64().ok_or_else(invalid_params)?;
        sum = sum.checked_add(number).ok_or_else(|| error_object(-32603, "Internal error"))?;
    }
    Ok(sum.into())
}

/// An array of so many times a value, by params `[N,VALUE]`.
fn repeated(params: &Value) -> Outcome {
    let count = params.get(0).and_then(Value::as_u64).filter(|&it| it > 0).ok_or_else(invalid_params)?;
    let item = params.get(1).ok_or_else(invalid_params)?;
    Ok(vec![item.clone(); count as usize].into())
}
