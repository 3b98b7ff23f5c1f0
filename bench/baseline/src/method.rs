//! The methods: what each does as it starts, and with the replies to its calls.
use crate::message::{call, error_object, notice, Outcome};
use serde_json::{json, Value};

#[derive(Clone, Copy)]
pub enum Method {
    Add,
    Ask,
    Two,
    Gate,
    Keep,
    Note,
}

/// How a method goes on once it has started: it ends, or it sends something and waits for the replies, or ends behind it.
pub enum Started {
    Ends(Outcome),
    Waits(Value),
    Tells(Value, Outcome),
}

impl Method {
    pub fn named(name: &str) -> Option<Self> {
        match name {
            "add" => Some(Method::Add),
            "ask" => Some(Method::Ask),
            "two" => Some(Method::Two),
            "gate" => Some(Method::Gate),
            "keep" => Some(Method::Keep),
            "note" => Some(Method::Note),
            _ => None,
        }
    }

    /// How many calls it makes.
    pub fn calls(self) -> usize {
        match self {
            Method::Add | Method::Note => 0,
            Method::Ask | Method::Gate | Method::Keep => 1,
            Method::Two => 2,
        }
    }

    pub fn start(self, number: u64, params: &Value) -> Started {
        match self {
            Method::Add => Started::Ends(sum(params)),
            Method::Ask => match params.get(0) {
                Some(first) => Started::Waits(call(number, 1, "confirm", Some(json!([first])))),
                None => Started::Ends(Err(invalid_params())),
            },
            Method::Two => Started::Waits(json!([call(number, 1, "a", None), call(number, 2, "b", None)])),
            Method::Gate | Method::Keep => Started::Waits(call(number, 1, "confirm", None)),
            Method::Note => match params.get(0) {
                Some(first) => Started::Tells(notice("log", json!([first])), Ok(Value::Null)),
                None => Started::Ends(Err(invalid_params())),
            },
        }
    }

    /// What it ends with, by the replies to its calls in their order.
    pub fn finish(self, replies: Vec<Outcome>) -> Outcome {
        let first = |replies: Vec<Outcome>| replies.into_iter().next().unwrap_or_else(|| Err(no_reply()));
        match self {
            Method::Gate => match first(replies)? {
                Value::Bool(true) => Ok("yes".into()),
                _ => Err(error_object(7, "no")),
            },
            Method::Keep => Ok(match first(replies) {
                Ok(result) => json!({"ok": true, "result": result}),
                Err(error) => json!({"error": error, "ok": false}),
            }),
            Method::Two => Ok(Value::Array(replies.into_iter().collect::<Result<_, _>>()?)),
            _ => first(replies),
        }
    }
}

fn sum(params: &Value) -> Outcome {
    let operand = |at: usize| params.get(at).and_then(Value::as_i64).ok_or_else(invalid_params);
    let sum = operand(0)?.checked_add(operand(1)?);
    sum.map(Value::from).ok_or_else(|| error_object(-32603, "Internal error"))
}

pub fn invalid_params() -> Value {
    error_object(-32602, "Invalid params")
}

pub fn no_reply() -> Value {
    error_object(-32000, "No reply")
}
