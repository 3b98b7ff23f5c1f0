//! The life of a language server: `initialize`, `shutdown`, `exit`.
use crate::incoming::codes::{INVALID_PARAMS, INVALID_REQUEST, SERVER_NOT_INITIALIZED};
use crate::{ErrorObject, Incoming, Server};
use std::fmt::{self, Debug, Formatter};
use std::process::ExitCode;

#[derive(Clone, Copy, Debug, PartialEq, Eq)]
enum Stage {
    New,
    Live,
    ShutDown,
    Exited(bool),
}

/// What makes the result of `initialize` of its params, or the error that refuses it.
type Initializing = Box<dyn FnMut(&str) -> Result<String, ErrorObject> + Send>;

/// What a message comes to by the stage of the session.
#[derive(Clone, Copy, Debug, PartialEq, Eq)]
pub(crate) enum Verdict {
    Pass,
    Initialize,
    ShutDown,
    Exit,
    Refuse(i64, &'static str),
    Ignore,
}

/// The life of a language server, as LSP 3.17 has it: `initialize` is answered with your capabilities, what comes before
/// is refused by -32002 and what comes after `shutdown` by -32600, and `exit` ends the session with the status that LSP
/// asks for. An `initialize` whose params aren't an object is refused by -32602. After one that failed another may come.
///
/// ```no_run
/// use bullmyrtle::{Incoming, Life, Server};
///
/// fn main() -> std::process::ExitCode {
///     let life = Life::new(r#"{"capabilities":{"hoverProvider":true}}"#);
///     life.serve(Server::stdio().expect("standard streams"), |incoming| match incoming {
///         Incoming::Request(it) if it.method() == "textDocument/hover" => it.answer("null").expect("JSON"),
///         other => other.refuse(),
///     })
/// }
/// ```
pub struct Life {
    initializing: Initializing,
    stage: Stage,
}

impl Life {
    /// A life whose `initialize` is answered with this JSON, such as `{"capabilities":{}}`.
    #[must_use]
    pub fn new(result: &str) -> Self {
        let result = result.to_string();
        Self::with(move |_| result.clone())
    }

    /// A life whose `initialize` is answered with what this makes of its params, both being JSON. The params are an
    /// object.
    #[must_use]
    pub fn with(mut result: impl FnMut(&str) -> String + Send + 'static) -> Self {
        Self::trying(move |params| Ok(result(params)))
    }

    /// The same, which may refuse the params by an error.
    pub(crate) fn trying(with: impl FnMut(&str) -> Result<String, ErrorObject> + Send + 'static) -> Self {
        Life { initializing: Box::new(with), stage: Stage::New }
    }

    /// Handles what is the life's own, and what comes at a wrong time, and gives all else back.
    pub fn admit(&mut self, incoming: Incoming) -> Option<Incoming> {
        let is_request = matches!(incoming, Incoming::Request(_));
        match (self.judge(incoming.method(), is_request), incoming) {
            (Verdict::Pass, incoming) => return Some(incoming),
            (Verdict::Initialize, Incoming::Request(it)) => {
                let result = self.initialize(it.params());
                it.responder.finish(result);
            }
            (Verdict::ShutDown, Incoming::Request(it)) => it.answer("null").unwrap_or_default(),
            (Verdict::Refuse(code, message), Incoming::Request(it)) => it.fail(code, message),
            _ => {}
        }
        None
    }

    /// What comes of a message, and the stage after it.
    pub(crate) fn judge(&mut self, method: &str, is_request: bool) -> Verdict {
        let (verdict, stage) = match (self.stage, method, is_request) {
            (Stage::Exited(_), ..) => (Verdict::Ignore, self.stage),
            (stage, "exit", false) => (Verdict::Exit, Stage::Exited(stage == Stage::ShutDown)),
            (Stage::New, "initialize", true) => (Verdict::Initialize, self.stage),
            (Stage::New, _, true) => (Verdict::Refuse(SERVER_NOT_INITIALIZED, "initialize comes first"), self.stage),
            (Stage::Live, "shutdown", true) => (Verdict::ShutDown, Stage::ShutDown),
            (Stage::Live, "initialize", true) => {
                (Verdict::Refuse(INVALID_REQUEST, "initialize came before"), self.stage)
            }
            (Stage::ShutDown, _, true) => (Verdict::Refuse(INVALID_REQUEST, "the server is shut down"), self.stage),
            (Stage::Live, ..) => (Verdict::Pass, self.stage),
            (Stage::New | Stage::ShutDown, ..) => (Verdict::Ignore, self.stage),
        };
        self.stage = stage;
        verdict
    }

    /// The answer to an `initialize` that comes in time. If it is an error, or this panics, the next one may come.
    pub(crate) fn initialize(&mut self, params: Option<&str>) -> Result<String, ErrorObject> {
        // (the text is compact, and one that begins so is an object)
        let params = params.filter(|it| it.starts_with('{'));
        let params = params.ok_or_else(|| ErrorObject::new(INVALID_PARAMS, "params: expected an object"))?;
        let result = (self.initializing)(params)?;
        self.stage = Stage::Live;
        Ok(result)
    }

    /// Whether the server was shut down, so that its status is 0.
    #[must_use]
    pub fn is_shut_down(&self) -> bool {
        matches!(self.stage, Stage::ShutDown | Stage::Exited(true))
    }

    /// Serves until `exit` comes or the input ends, and gives the status that the process is to end with: 0 after
    /// `shutdown`, and else 1. A handler that panics has its request answered by -32603, and the session goes on.
    pub fn serve(mut self, server: Server, mut handler: impl FnMut(Incoming)) -> ExitCode {
        let peer = server.peer().clone();
        server.serve(|incoming| {
            let is_exit = matches!(&incoming, Incoming::Notification(it) if it.method() == "exit");
            if let Some(incoming) = self.admit(incoming) {
                handler(incoming);
            }
            if is_exit {
                peer.stop();
            }
        });
        ExitCode::from(u8::from(!self.is_shut_down()))
    }
}

impl Debug for Life {
    fn fmt(&self, formatter: &mut Formatter<'_>) -> fmt::Result {
        formatter.debug_struct("Life").field("stage", &self.stage).finish_non_exhaustive()
    }
}
