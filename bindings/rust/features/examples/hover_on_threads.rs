//! A hover on threads: how many words a document has.
use bullmyrtle::lsp::HoverParams;
use bullmyrtle::{Incoming, Life, Server};
use serde_json::{json, Value};
use std::{collections::HashMap, process::ExitCode};

fn main() -> ExitCode {
    let mut words = HashMap::new();
    let life = Life::new(r#"{"capabilities":{"textDocumentSync":1,"hoverProvider":true}}"#);
    life.serve(Server::stdio().expect("standard streams"), |incoming| match incoming {
        Incoming::Notification(it) if ["textDocument/didOpen", "textDocument/didChange"].contains(&it.method()) => {
            let it: Value = it.params_as().unwrap_or_default();
            let text = it["textDocument"]["text"].as_str().or(it["contentChanges"][0]["text"].as_str());
            let uri = it["textDocument"]["uri"].as_str().map(String::from);
            words.insert(uri, text.unwrap_or("").split_whitespace().count());
        }
        Incoming::Request(it) if it.method() == "textDocument/hover" => it.respond(|at: HoverParams| {
            let count = words.get(&Some(at.text_document.uri));
            Ok(count.map(|it| json!({"contents": format!("{it} words")})))
        }),
        other => other.refuse(),
    })
}
