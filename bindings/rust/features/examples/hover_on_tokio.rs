//! A hover on tokio: how many words a document has.
use bullmyrtle::tasks::{Context, Router};
use bullmyrtle::{lsp::HoverParams, ErrorObject, Life};
use serde_json::{json, Value};
use std::{collections::HashMap, io, process::ExitCode, sync::Arc, sync::Mutex};

type Words = Arc<Mutex<HashMap<Option<String>, usize>>>;

async fn changed(words: Context<Words>, it: Value) {
    let text = it["textDocument"]["text"].as_str().or(it["contentChanges"][0]["text"].as_str());
    let count = text.unwrap_or("").split_whitespace().count();
    words.lock().unwrap().insert(it["textDocument"]["uri"].as_str().map(String::from), count);
}

async fn hover(words: Context<Words>, at: HoverParams) -> Result<Option<Value>, ErrorObject> {
    let count = words.lock().unwrap().get(&Some(at.text_document.uri)).copied();
    Ok(count.map(|it| json!({"contents": format!("{it} words")})))
}

#[tokio::main(flavor = "current_thread")]
async fn main() -> io::Result<ExitCode> {
    let life = Life::new(r#"{"capabilities":{"textDocumentSync":1,"hoverProvider":true}}"#);
    let router = Router::lsp(Words::default(), life).request("textDocument/hover", hover);
    let router = router.notification("textDocument/didOpen", changed).notification("textDocument/didChange", changed);
    router.serve_stdio().await
}
