//! What comes in and goes out: entries, replies, and the values of texts.
use serde_json::{json, Map, Value};

/// What a call, ours or theirs, ends with: a result, or an error object.
pub type Outcome = Result<Value, Value>;

/// Which of our calls a reply is for: on behalf of which of theirs, and counted from 1.
pub type Key = (u64, usize);

pub enum Entry<K> {
    Call { id: Option<Value>, method: String, params: Value },
    Reply(K, Outcome),
    Stray,
    Invalid,
}

impl<K> Entry<K> {
    /// Reads an entry, and the id of a reply by `read_key`.
    pub fn read(value: Value, read_key: impl Fn(&Value) -> Option<K>) -> Self {
        let Value::Object(mut members) = value else {
            return Entry::Invalid;
        };
        if members.contains_key("method") {
            return Self::read_call(members).unwrap_or(Entry::Invalid);
        }
        if !members.contains_key("result") && !members.contains_key("error") {
            return Entry::Invalid;
        }
        match members.get("id").and_then(read_key) {
            Some(key) => Entry::Reply(key, read_outcome(&mut members)),
            None => Entry::Stray,
        }
    }

    fn read_call(mut members: Map<String, Value>) -> Option<Self> {
        let params = members.remove("params").unwrap_or_default();
        let id = members.remove("id");
        let is_call = members.get("jsonrpc")? == "2.0"
            && (params.is_null() || params.is_array() || params.is_object())
            && id.iter().all(|it| it.is_null() || it.is_string() || it.is_i64() || it.is_u64());
        match members.remove("method")? {
            Value::String(method) if is_call => Some(Entry::Call { id, method, params }),
            _ => None,
        }
    }
}

/// The key that a text `n.t` names.
pub fn read_key(id: &Value) -> Option<Key> {
    let (number, turn) = id.as_str()?.split_once('.')?;
    Some((decimal(number)?, decimal(turn)?.try_into().ok()?))
}

fn decimal(text: &str) -> Option<u64> {
    let is_plain = text == "0" || text.starts_with(|it: char| ('1'..='9').contains(&it));
    is_plain.then(|| text.parse().ok())?
}

fn read_outcome(members: &mut Map<String, Value>) -> Outcome {
    let is_version_2 = members.get("jsonrpc").is_some_and(|it| it == "2.0");
    let result = members.remove("result");
    let error = members.remove("error").filter(|it| !it.is_null());
    match (result, error) {
        (Some(result), None) if is_version_2 && is_whole(&result) => Ok(result),
        (None | Some(Value::Null), Some(error)) if is_version_2 => Err(read_error(error).unwrap_or_else(invalid_reply)),
        _ => Err(invalid_reply()),
    }
}

fn read_error(error: Value) -> Option<Value> {
    let code = error.get("code")?.as_i64()?;
    let message = error.get("message")?.as_str()?;
    match error.get("data") {
        None => Some(error_object(code, message)),
        Some(data) if is_whole(data) => Some(json!({"code": code, "data": data, "message": message})),
        Some(_) => None,
    }
}

/// Whether each number in a value is an integer.
pub fn is_whole(value: &Value) -> bool {
    match value {
        Value::Number(it) => it.is_i64() || it.is_u64(),
        Value::Array(items) => items.iter().all(is_whole),
        Value::Object(members) => members.values().all(is_whole),
        _ => true,
    }
}

pub fn error_object(code: i64, message: &str) -> Value {
    json!({"code": code, "message": message})
}

fn invalid_reply() -> Value {
    error_object(-32603, "Invalid reply")
}

pub fn answer(id: Value, outcome: Outcome) -> Value {
    match outcome {
        Ok(result) => json!({"id": id, "jsonrpc": "2.0", "result": result}),
        Err(error) => json!({"error": error, "id": id, "jsonrpc": "2.0"}),
    }
}

pub fn call(number: u64, turn: usize, method: &str, params: Option<Value>) -> Value {
    call_with(format!("{number}.{turn}").into(), method, params)
}

pub fn call_with(id: Value, method: &str, params: Option<Value>) -> Value {
    match params {
        Some(params) => json!({"id": id, "jsonrpc": "2.0", "method": method, "params": params}),
        None => json!({"id": id, "jsonrpc": "2.0", "method": method}),
    }
}

pub fn notice(method: &str, params: Value) -> Value {
    json!({"jsonrpc": "2.0", "method": method, "params": params})
}
