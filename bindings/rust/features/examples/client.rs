//! Starts a language server and a tool server in Python and in Node.js, calls them, and answers what they call back.
//!
//!     cargo run --features tokio,lsp --example client -- EXAMPLES
//!
//! EXAMPLES is the repository's folder `examples`.
use bullmyrtle::tasks::{Client, Context, Router};
use bullmyrtle::{CallError, ErrorObject, Settings};
use serde_json::{json, Value};
use std::error::Error;
use std::sync::Arc;
use std::time::Duration;
use tokio::process::Command;
use tokio::sync::Notify;
use tokio::time::timeout;

const TEXT: &str = "Roses are red.\nViolets are are blue, and roses are not.";
const PATIENCE: Duration = Duration::from_secs(20);

/// What an editor hears: who waits for a progress to be reported is told.
async fn progress(reported: Context<Arc<Notify>>, it: Value) {
    println!("progress: {}", it["value"]["kind"].as_str().unwrap_or("?"));
    if it["value"]["kind"] == "report" {
        reported.notify_one();
    }
}

async fn diagnostics(_: Context<Arc<Notify>>, it: Value) {
    for found in it["diagnostics"].as_array().into_iter().flatten() {
        let line = found["range"]["start"]["line"].as_u64().map_or(0, |it| it + 1);
        println!("line {line}: {}", found["message"].as_str().unwrap_or("?"));
    }
}

/// What an editor does with a language server.
async fn edit(command: &mut Command) -> Result<(), Box<dyn Error>> {
    let reported = Arc::new(Notify::new());
    let router = Router::new(Arc::clone(&reported))
        .request("workspace/configuration", |_, it: Value| async move {
            Ok(it["items"].as_array().map_or(0, Vec::len)).map(|count| vec!["times"; count])
        })
        .request("window/workDoneProgress/create", |_, _: Value| async { Ok(()) })
        .notification("textDocument/publishDiagnostics", diagnostics)
        .notification("$/progress", progress);
    let mut server = Client::spawn(command, Settings::lsp(), router)?;
    let capabilities = json!({"window": {"workDoneProgress": true}, "workspace": {"configuration": true}});
    let about = json!({"processId": null, "rootUri": null, "capabilities": capabilities});
    server.call_as::<Value>("initialize", &about).await?;
    server.notify_as("initialized", &json!({}))?;
    let document = json!({"uri": "file:///notes.txt", "languageId": "text", "version": 1, "text": TEXT});
    server.notify_as("textDocument/didOpen", &json!({"textDocument": document}))?;
    let document = json!({"uri": "file:///notes.txt"});
    let at = json!({"textDocument": document, "position": {"line": 0, "character": 7}});
    let hover: Value = server.call_as("textDocument/hover", &at).await?;
    println!("hover: {}", hover["contents"].as_str().unwrap_or("?"));
    let count = json!({"command": "count", "arguments": [0]});
    println!("words: {}", server.call_as::<Value>("workspace/executeCommand", &count).await?);
    timeout(PATIENCE, reported.notified()).await?;
    let slow = server.call_as::<Value>("workspace/executeCommand", &json!({"command": "count", "arguments": [60]}));
    let slow = slow.into_reply();
    timeout(PATIENCE, reported.notified()).await?;
    slow.cancel();
    match slow.await {
        Err(CallError::Response(error)) => println!("cancelled: {error}"),
        other => println!("not cancelled: {other:?}"),
    }
    server.call("shutdown", None).await?;
    server.notify("exit", None)?;
    println!("{}", server.close(PATIENCE).await?);
    Ok(())
}

/// What a tool host does with a tool server.
async fn use_tools(command: &mut Command) -> Result<(), Box<dyn Error>> {
    let router = Router::new(()).request("sampling/createMessage", |_, it: Value| async move {
        println!("asked: {}", it["messages"][0]["content"]["text"].as_str().unwrap_or("?").replace('\n', " "));
        let content = json!({"type": "text", "text": "Flowers"});
        Ok::<_, ErrorObject>(json!({"role": "assistant", "model": "none", "content": content}))
    });
    let mut server = Client::spawn(command, Settings::mcp(), router)?;
    let info = json!({"name": "client", "version": "1"});
    let about = json!({"protocolVersion": "2025-06-18", "capabilities": {"sampling": {}}, "clientInfo": info});
    server.call_as::<Value>("initialize", &about).await?;
    server.notify("notifications/initialized", None)?;
    let listed: Value = server.call_as("tools/list", &()).await?;
    let names: Vec<_> = listed["tools"].as_array().into_iter().flatten().filter_map(|it| it["name"].as_str()).collect();
    println!("tools: {}", names.join(", "));
    for (name, text) in [("title", TEXT), ("paint", "")] {
        match server.call_as::<Value>("tools/call", &json!({"name": name, "arguments": {"text": text}})).await {
            Ok(it) => println!("{name}: {}", it["content"][0]["text"].as_str().unwrap_or("?")),
            Err(CallError::Response(error)) => println!("{name}: error {}", error.code),
            Err(other) => println!("{name}: {other}"),
        }
    }
    println!("{}", server.close(PATIENCE).await?);
    Ok(())
}

#[tokio::main(flavor = "current_thread")]
async fn main() -> Result<(), Box<dyn Error>> {
    let folder = std::env::args().nth(1).unwrap_or_else(|| "examples".into());
    for (program, ending) in [("python3", "python/NAME_by_hand.py"), ("node", "node/NAME.mjs")] {
        println!("{program}");
        let command = |name: &str| format!("{folder}/{}", ending.replace("NAME", name));
        edit(Command::new(program).arg(command("language_server"))).await?;
        use_tools(Command::new(program).arg(command("tool_server"))).await?;
    }
    Ok(())
}
