//! A language server for a folder of texts, on tokio: it counts words, and finds those that stand twice or are misspelt.
//!
//! A word is written as the folder's file `words.txt` has it; or, where there is no such file, as the texts have it most
//! often. The folder's texts are its files `*.txt`, as they are on the disk or in the editor.
use bullmyrtle::tasks::{Context, Router};
use bullmyrtle::{codes, lsp, ErrorObject, Life, Peer};
use serde_json::{json, Value};
use std::collections::{HashMap, HashSet};
use std::io;
use std::ops::Range;
use std::path::{Path, PathBuf};
use std::process::ExitCode;
use std::sync::{Arc, Mutex};
use std::time::Duration;
use tokio::sync::Notify;
use tokio::task::{yield_now, JoinHandle};
use tokio::time::sleep;

type Counts = HashMap<String, usize>;
type Answer = Result<Value, ErrorObject>;

#[derive(Default)]
struct Folder {
    root: PathBuf,
    has_progress: bool,
    /// The open documents, by their URIs.
    open: HashMap<String, String>,
    /// The words of each text, by its URI, and those of words.txt.
    counts: HashMap<String, Counts>,
    listed: HashSet<String>,
    /// What looks at a document once nobody has typed for a moment.
    checks: HashMap<String, JoinHandle<()>>,
    /// Who waits for the user to cancel a progress, by its token.
    running: HashMap<String, Arc<Notify>>,
    begun: usize,
}

type Shared = Arc<Mutex<Folder>>;

fn words_in(text: &str) -> impl Iterator<Item = (Range<usize>, &str)> {
    let base = text.as_ptr() as usize;
    text.split(|it: char| !it.is_alphabetic()).filter(|it| !it.is_empty()).map(move |it| {
        let start = it.as_ptr() as usize - base;
        (start..start + it.len(), it)
    })
}

fn counted(text: &str) -> Counts {
    let mut counts = Counts::new();
    words_in(text).for_each(|(_, it)| *counts.entry(it.to_lowercase()).or_default() += 1);
    counts
}

/// How many letters are put in, left out, changed or swapped between two words.
fn distance(one: &str, other: &str) -> usize {
    let (one, other): (Vec<char>, Vec<char>) = (one.chars().collect(), other.chars().collect());
    let mut rows = vec![vec![0; other.len() + 1]; one.len() + 1];
    for at in 0..=one.len() {
        for to in 0..=other.len() {
            rows[at][to] = if at == 0 || to == 0 {
                at + to
            } else {
                let differs = usize::from(one[at - 1] != other[to - 1]);
                let swapped = at > 1 && to > 1 && one[at - 1] == other[to - 2] && one[at - 2] == other[to - 1];
                let least = (rows[at - 1][to] + 1).min(rows[at][to - 1] + 1).min(rows[at - 1][to - 1] + differs);
                if swapped {
                    least.min(rows[at - 2][to - 2] + 1)
                } else {
                    least
                }
            };
        }
    }
    rows[one.len()][other.len()]
}

impl Folder {
    /// Adds the words of a file, unless the editor has it open.
    fn add(&mut self, file: &Path, counts: Counts) {
        if file.ends_with("words.txt") {
            self.listed.extend(counts.into_keys());
        } else {
            self.counts.entry(format!("file://{}", file.display())).or_insert(counts);
        }
    }

    fn total(&self) -> Counts {
        let mut total = Counts::new();
        for (word, times) in self.counts.values().flatten() {
            *total.entry(word.clone()).or_default() += times;
        }
        total
    }

    /// How a word is written, or nothing where it is right, or nothing is like it.
    fn correction(&self, word: &str, known: &Counts) -> Option<String> {
        let times = known.get(word).copied().unwrap_or(0);
        if self.listed.contains(word) || times > 1 || word.chars().count() < 4 {
            return None;
        }
        let often = known.iter().filter(|it| *it.1 > 2 * times).map(|it| it.0);
        let others: Vec<&String> = if self.listed.is_empty() { often.collect() } else { self.listed.iter().collect() };
        others.into_iter().filter(|it| distance(word, it) == 1).min().cloned()
    }

    /// The words that are wrong, with what is said of them and what is to stand there.
    fn faults_in(&self, text: &str) -> Vec<(Range<usize>, String, String)> {
        let (known, mut twice, mut found) = (self.total(), Vec::new(), Vec::new());
        let mut last = None::<(Range<usize>, &str)>;
        for (at, word) in words_in(text) {
            if let Some((before, it)) = last.filter(|it| it.1.to_lowercase() == word.to_lowercase()) {
                if text[before.end..at.start].chars().all(char::is_whitespace) {
                    twice.push((before.start..at.end, format!("'{word}' stands twice"), it.to_string()));
                }
            }
            if let Some(right) = self.correction(&word.to_lowercase(), &known) {
                found.push((at.clone(), format!("'{word}' looks like '{right}'"), right));
            }
            last = Some((at, word));
        }
        twice.extend(found);
        twice
    }

    fn text(&self, uri: &str) -> Result<&String, ErrorObject> {
        let missing = || ErrorObject::new(codes::INVALID_PARAMS, format!("this document isn't open: {uri}"));
        self.open.get(uri).ok_or_else(missing)
    }
}

// Places: editors count lines, and in a line code units of UTF-16

fn offset(text: &str, at: &lsp::Position) -> usize {
    let start = text.split_inclusive('\n').take(at.line as usize).map(str::len).sum::<usize>();
    let line = text[start..].split('\n').next().unwrap_or("");
    let mut units = 0;
    let end = line.char_indices().find(|(_, it)| {
        units += it.len_utf16();
        units > at.character as usize
    });
    start + end.map_or(line.len(), |(at, _)| at)
}

fn position(text: &str, at: usize) -> Value {
    let start = text[..at].rfind('\n').map_or(0, |it| it + 1);
    json!({"line": text[..at].matches('\n').count(), "character": text[start..at].encode_utf16().count()})
}

fn range(text: &str, at: &Range<usize>) -> Value {
    json!({"start": position(text, at.start), "end": position(text, at.end)})
}

// Progress, as the editor shows it, which the user may cancel

struct Progress {
    folder: Shared,
    peer: Peer,
    token: String,
    cancelled: Arc<Notify>,
}

impl Progress {
    async fn begin(context: &Context<Shared>, title: &str) -> Option<Progress> {
        let (folder, cancelled) = (Arc::clone(&context.state), Arc::<Notify>::default());
        let token = {
            let mut it = folder.lock().unwrap();
            it.begun += 1;
            format!("spelling {}", it.begun)
        };
        if !folder.lock().unwrap().has_progress {
            return None;
        }
        context.peer().call("window/workDoneProgress/create", &json!({"token": token}).to_string()).await.ok()?;
        folder.lock().unwrap().running.insert(token.clone(), Arc::clone(&cancelled));
        let it = Progress { folder, peer: context.peer(), token, cancelled };
        it.tell(&json!({"kind": "begin", "title": title, "cancellable": true}));
        Some(it)
    }

    fn tell(&self, value: &Value) {
        let _ = self.peer.notify_as("$/progress", &json!({"token": self.token, "value": value}));
    }

    fn report(&self, message: &str) {
        self.tell(&json!({"kind": "report", "message": message}));
    }
}

impl Drop for Progress {
    /// It ends with what it is of, also where that is cancelled.
    fn drop(&mut self) {
        self.tell(&json!({"kind": "end"}));
        self.folder.lock().unwrap().running.remove(&self.token);
    }
}

/// Goes on with this until the user cancels the progress, where there is one: then it is nothing.
async fn unless_cancelled<T>(progress: Option<&Progress>, work: impl std::future::Future<Output = T>) -> Option<T> {
    match progress {
        None => Some(work.await),
        Some(it) => tokio::select! { done = work => Some(done), () = it.cancelled.notified() => None },
    }
}

async fn cancel_progress(folder: Context<Shared>, it: Value) {
    let token = it["token"].as_str().unwrap_or("");
    folder.lock().unwrap().running.get(token).into_iter().for_each(|it| it.notify_one());
}

// Methods

/// Reads the folder's texts.
async fn index(folder: Context<Shared>, _: Value) {
    let root = folder.lock().unwrap().root.clone();
    let mut files: Vec<PathBuf> = std::fs::read_dir(root).into_iter().flatten().flatten().map(|it| it.path()).collect();
    files.retain(|it| it.extension().is_some_and(|it| it == "txt"));
    files.sort();
    let progress = Progress::begin(&folder, "Reading texts").await;
    let reading = async {
        for file in files {
            progress.iter().for_each(|it| it.report(&file.display().to_string()));
            let counts = counted(&std::fs::read_to_string(&file).unwrap_or_default());
            folder.lock().unwrap().add(&file, counts);
            yield_now().await;
        }
    };
    unless_cancelled(progress.as_ref(), reading).await;
    let open: Vec<String> = folder.lock().unwrap().open.keys().cloned().collect();
    open.into_iter().for_each(|uri| look_at(&folder, uri, None));
}

/// Looks at a document, as soon as nobody has typed for a moment.
fn look_at(context: &Context<Shared>, uri: String, version: Option<i32>) {
    let (folder, peer, of) = (Arc::clone(&context.state), context.peer(), uri.clone());
    let check = tokio::spawn(async move {
        sleep(Duration::from_millis(50)).await;
        let mut it = folder.lock().unwrap();
        let Some(text) = it.open.get(&of).cloned() else { return };
        it.counts.insert(of.clone(), counted(&text));
        let found = it.faults_in(&text).into_iter().map(|(at, message, right)| {
            json!({"range": range(&text, &at), "severity": 2, "message": message, "data": right})
        });
        let mut told = json!({"uri": of, "diagnostics": found.collect::<Vec<_>>()});
        if let Some(version) = version {
            told["version"] = version.into();
        }
        let _ = peer.notify_as("textDocument/publishDiagnostics", &told);
    });
    if let Some(before) = context.lock().unwrap().checks.insert(uri, check) {
        before.abort();
    }
}

async fn opened(folder: Context<Shared>, it: lsp::DidOpenTextDocumentParams) {
    let document = it.text_document;
    folder.lock().unwrap().open.insert(document.uri.clone(), document.text);
    look_at(&folder, document.uri, Some(document.version));
}

async fn changed(folder: Context<Shared>, it: lsp::DidChangeTextDocumentParams) {
    let uri = it.text_document.uri;
    if let Some(text) = folder.lock().unwrap().open.get_mut(&uri) {
        for change in it.content_changes {
            match change {
                lsp::TextDocumentContentChangeEvent::TextDocumentContentChangePartial(it) => {
                    let (start, end) = (offset(text, &it.range.start), offset(text, &it.range.end));
                    text.replace_range(start..end.max(start), &it.text);
                }
                lsp::TextDocumentContentChangeEvent::TextDocumentContentChangeWholeDocument(it) => *text = it.text,
            }
        }
    }
    look_at(&folder, uri, Some(it.text_document.version));
}

async fn closed(folder: Context<Shared>, it: lsp::DidCloseTextDocumentParams) {
    let mut folder = folder.lock().unwrap();
    folder.open.remove(&it.text_document.uri);
    folder.checks.remove(&it.text_document.uri).into_iter().for_each(|it| it.abort());
}

async fn hover(folder: Context<Shared>, it: lsp::HoverParams) -> Answer {
    let (word, times) = {
        let folder = folder.lock().unwrap();
        let text = folder.text(&it.text_document.uri)?;
        let at = offset(text, &it.position);
        let Some((_, word)) = words_in(text).find(|(range, _)| range.start <= at && at <= range.end) else {
            return Ok(Value::Null);
        };
        (word.to_string(), folder.total().get(&word.to_lowercase()).copied().unwrap_or(0))
    };
    let items = json!({"items": [{"section": "words.label"}]});
    let settings = folder.call("workspace/configuration", &items.to_string()).await?;
    let settings: Value = serde_json::from_str(&settings).unwrap_or_default();
    Ok(json!({"contents": format!("{word}: {times} {}", settings[0].as_str().unwrap_or("times"))}))
}

async fn complete(folder: Context<Shared>, it: lsp::CompletionParams) -> Answer {
    let folder = folder.lock().unwrap();
    let text = folder.text(&it.text_document.uri)?;
    let before = &text[..offset(text, &it.position)];
    let typed = before.rsplit(|it: char| !it.is_alphabetic()).next().unwrap_or("").to_lowercase();
    let fitting = folder.total().into_iter().filter(|(word, _)| word.starts_with(&typed));
    Ok(fitting.map(|(word, times)| json!({"label": word, "detail": times.to_string()})).collect())
}

async fn actions(folder: Context<Shared>, it: lsp::CodeActionParams) -> Answer {
    let folder = folder.lock().unwrap();
    let (uri, text) = (&it.text_document.uri, folder.text(&it.text_document.uri)?);
    let here = folder.faults_in(text).into_iter().map(|(at, _, right)| (range(text, &at), right));
    let here = here.filter(|(at, _)| at["start"]["line"] == it.range.start.line);
    let made = here.map(|(at, right)| {
        let edit = json!({"changes": {uri: [{"range": at, "newText": right}]}});
        json!({"title": format!("Write '{right}'"), "kind": "quickfix", "edit": edit})
    });
    Ok(made.collect())
}

/// Counts the words of all texts; it may take its time for each, so that there is something to cancel.
async fn command(folder: Context<Shared>, it: lsp::ExecuteCommandParams) -> Answer {
    if it.command != "count" {
        return Err(ErrorObject::new(codes::INVALID_PARAMS, format!("unknown command: {}", it.command)));
    }
    let seconds = it.arguments.and_then(|it| it.first().and_then(Value::as_f64)).unwrap_or(0.0).clamp(0.0, 3_600.0);
    let progress = Progress::begin(&folder, "Counting").await;
    let texts: Vec<(String, usize)> =
        folder.lock().unwrap().counts.iter().map(|(uri, it)| (uri.clone(), it.values().sum())).collect();
    let counting = async {
        let mut words = 0;
        for (uri, there) in texts {
            progress.iter().for_each(|it| it.report(&uri));
            sleep(Duration::from_secs_f64(seconds)).await;
            words += there;
        }
        words
    };
    Ok(unless_cancelled(progress.as_ref(), counting).await.into())
}

fn life(folder: Shared) -> Life {
    Life::typed(move |it: lsp::InitializeParams| {
        let mut folder = folder.lock().unwrap();
        let root = it.root_uri.as_deref().and_then(|it| it.strip_prefix("file://"));
        folder.root = root.or(it.root_path.as_deref()).unwrap_or(".").into();
        folder.has_progress = it.capabilities.window.and_then(|it| it.work_done_progress) == Some(true);
        let capabilities = json!({
            "textDocumentSync": {"openClose": true, "change": 2},
            "hoverProvider": true,
            "completionProvider": {"triggerCharacters": ["-"]},
            "codeActionProvider": {"codeActionKinds": ["quickfix"]},
            "executeCommandProvider": {"commands": ["count"]},
        });
        Ok(json!({"capabilities": capabilities, "serverInfo": {"name": "spelling", "version": "1.0"}}))
    })
}

#[tokio::main(flavor = "current_thread")]
async fn main() -> io::Result<ExitCode> {
    let folder = Shared::default();
    Router::lsp(Arc::clone(&folder), life(folder))
        .notification_aside("initialized", index)
        .notification("textDocument/didOpen", opened)
        .notification("textDocument/didChange", changed)
        .notification("textDocument/didClose", closed)
        .notification("window/workDoneProgress/cancel", cancel_progress)
        .request("textDocument/hover", hover)
        .request("textDocument/completion", complete)
        .request("textDocument/codeAction", actions)
        .request("workspace/executeCommand", command)
        .serve_stdio()
        .await
}
