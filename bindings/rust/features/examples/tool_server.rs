//! A tool server, as MCP has it over lines, on tokio: one tool counts words, the other asks the host's model for a title.
use bullmyrtle::tasks::{Answer, Call, Context, Router};
use bullmyrtle::{codes, ErrorObject, Settings};
use serde::{Deserialize, Serialize};
use serde_json::{json, Map, Value};
use std::future::{ready, Future};
use std::io;
use std::pin::Pin;
use std::sync::atomic::{AtomicBool, Ordering::Relaxed};
use std::sync::Arc;
use std::task::{self, Poll};
use tower_service::Service;

/// The versions of MCP that it speaks, the newest first.
const VERSIONS: [&str; 3] = ["2025-06-18", "2025-03-26", "2024-11-05"];

/// Whether `initialize` was answered by a result.
type Begun = Arc<AtomicBool>;

/// A layer that refuses what comes before `initialize`, and a second `initialize`.
struct Live {
    inner: Router<Begun>,
    is_begun: Begun,
}

impl Service<Call> for Live {
    type Response = Answer;
    type Error = ErrorObject;
    type Future = Pin<Box<dyn Future<Output = Result<Answer, ErrorObject>> + Send>>;

    fn poll_ready(&mut self, context: &mut task::Context<'_>) -> Poll<Result<(), ErrorObject>> {
        self.inner.poll_ready(context)
    }

    fn call(&mut self, call: Call) -> Self::Future {
        match (call.method(), self.is_begun.load(Relaxed)) {
            ("initialize", true) => refused("initialize came before"),
            ("initialize" | "ping", _) | (_, true) => self.inner.call(call),
            (_, false) => refused("initialize comes first"),
        }
    }
}

fn refused(why: &str) -> <Live as Service<Call>>::Future {
    Box::pin(ready(Err(ErrorObject::new(codes::INVALID_REQUEST, why))))
}

/// (what is only checked has a `_` before its name)
#[derive(Deserialize)]
#[serde(rename_all = "camelCase")]
struct Initialize {
    protocol_version: String,
    #[serde(rename = "capabilities")]
    _capabilities: Map<String, Value>,
    #[serde(rename = "clientInfo")]
    _client_info: Implementation,
}

#[derive(Deserialize)]
struct Implementation {
    #[serde(rename = "name")]
    _name: String,
    #[serde(rename = "version")]
    _version: String,
}

async fn initialize(begun: Context<Begun>, params: Initialize) -> Result<Value, ErrorObject> {
    begun.store(true, Relaxed);
    // (with a version that it doesn't speak the client may end)
    let version = VERSIONS.iter().find(|it| **it == params.protocol_version).unwrap_or(&VERSIONS[0]);
    let server = json!({"name": "words", "version": "1.0"});
    Ok(json!({"protocolVersion": version, "capabilities": {"tools": {}}, "serverInfo": server}))
}

/// (a struct would take an array too)
async fn list(_: Context<Begun>, params: Option<Map<String, Value>>) -> Result<Value, ErrorObject> {
    if params.is_some_and(|it| it.contains_key("cursor")) {
        let message = "params.cursor: nobody gave it, since there is one page";
        return Err(ErrorObject::new(codes::INVALID_PARAMS, message));
    }
    let schema = json!({"type": "object", "properties": {"text": {"type": "string"}}, "required": ["text"]});
    let tools = [("count", "Counts the words of a text"), ("title", "Finds a title for a text")]
        .map(|(name, it)| json!({"name": name, "description": it, "inputSchema": schema}));
    Ok(json!({"tools": tools}))
}

#[derive(Deserialize)]
struct ToolCall {
    name: Tool,
    arguments: Arguments,
    #[serde(default, rename = "_meta")]
    meta: Meta,
}

#[derive(Deserialize)]
#[serde(rename_all = "lowercase")]
enum Tool {
    Count,
    Title,
}

/// What both tools take.
#[derive(Deserialize)]
struct Arguments {
    text: String,
}

#[derive(Deserialize, Default)]
#[serde(rename_all = "camelCase")]
struct Meta {
    progress_token: Option<ProgressToken>,
}

#[derive(Deserialize, Serialize)]
#[serde(untagged)]
enum ProgressToken {
    Number(i64),
    Text(String),
}

async fn call(context: Context<Begun>, params: ToolCall) -> Result<Value, ErrorObject> {
    let text = &params.arguments.text;
    let result = match params.name {
        Tool::Count => count(&context, text, params.meta.progress_token).await,
        Tool::Title => title(&context, text).await?,
    };
    Ok(json!({"content": [{"type": "text", "text": result}]}))
}

async fn count(context: &Context<Begun>, text: &str, token: Option<ProgressToken>) -> String {
    let words = text.split_whitespace().count();
    for at in (0..words).step_by(100) {
        if let Some(token) = &token {
            let about = json!({"progressToken": token, "progress": at, "total": words});
            let _ = context.peer().notify_as("notifications/progress", &about);
        }
        // (a cancel arrives here)
        tokio::task::yield_now().await;
    }
    format!("{words} words")
}

async fn title(context: &Context<Begun>, text: &str) -> Result<String, ErrorObject> {
    let message = json!({"role": "user", "content": {"type": "text", "text": format!("A title for: {text}")}});
    let params = json!({"messages": [message], "maxTokens": 20}).to_string();
    let reply: Value =
        serde_json::from_str(&context.call("sampling/createMessage", &params).await?).unwrap_or_default();
    reply["content"]["text"]
        .as_str()
        .map(String::from)
        .ok_or_else(|| ErrorObject::new(codes::INTERNAL_ERROR, "no title"))
}

#[tokio::main(flavor = "current_thread")]
async fn main() -> io::Result<()> {
    let is_begun = Begun::default();
    let router = Router::new(Arc::clone(&is_begun))
        .request("initialize", initialize)
        .request("ping", |_, _: Value| async { Ok(json!({})) })
        .request("tools/list", list)
        .request("tools/call", call);
    let end = bullmyrtle::tasks::serve_stdio(Live { inner: router, is_begun }, Settings::mcp()).await?;
    if end.is_clean() {
        Ok(())
    } else {
        Err(io::Error::new(io::ErrorKind::Other, end.to_string()))
    }
}
