//! What the other side sends: requests, each with its responder, and notifications.
use crate::session::Session;
use crate::{CancelToken, ErrorObject, Json, Peer, Refusal, Reply};
use std::fmt::{self, Debug, Formatter};
use std::sync::Arc;

/// The codes of errors that a peer uses most.
pub mod codes {
    /// The method may not be called now, or the message isn't a request (JSON-RPC 2.0, section 5.1).
    pub const INVALID_REQUEST: i64 = -32600;
    /// There is no such method (JSON-RPC 2.0, section 5.1).
    pub const METHOD_NOT_FOUND: i64 = -32601;
    /// The params aren't the method's (JSON-RPC 2.0, section 5.1).
    pub const INVALID_PARAMS: i64 = -32602;
    /// The method failed in a way that wasn't foreseen (JSON-RPC 2.0, section 5.1).
    pub const INTERNAL_ERROR: i64 = -32603;
    /// A request came before `initialize` (LSP 3.17, `ErrorCodes`).
    pub const SERVER_NOT_INITIALIZED: i64 = -32002;
    /// The request was cancelled (LSP 3.17, `ErrorCodes`).
    pub const REQUEST_CANCELLED: i64 = -32800;
    /// The request failed, as by a time limit (LSP 3.17, `ErrorCodes`).
    pub const REQUEST_FAILED: i64 = -32803;
}

/// What the other side sent.
#[derive(Debug)]
pub enum Incoming {
    /// It wants an answer.
    Request(Request),
    /// It wants none.
    Notification(Notification),
}

impl Incoming {
    /// The method's name.
    #[must_use]
    pub fn method(&self) -> &str {
        match self {
            Incoming::Request(it) => &it.method,
            Incoming::Notification(it) => &it.method,
        }
    }

    /// The params as JSON, an array or an object.
    #[must_use]
    pub fn params(&self) -> Option<&str> {
        match self {
            Incoming::Request(it) => it.params(),
            Incoming::Notification(it) => it.params(),
        }
    }

    /// Answers a request with [`METHOD_NOT_FOUND`](codes::METHOD_NOT_FOUND), and does nothing about a notification:
    /// what remains for a method that nobody knows.
    pub fn refuse(self) {
        if let Incoming::Request(it) = self {
            it.responder.not_found(&it.method);
        }
    }
}

/// A request of the other side. Answer it here, or send its [`responder`](Self::into_responder) to where the answer is
/// made. One that is dropped unanswered is answered with an error.
#[derive(Debug)]
pub struct Request {
    pub(crate) method: String,
    pub(crate) params: Option<String>,
    pub(crate) responder: Responder,
}

impl Request {
    /// The method's name.
    #[must_use]
    pub fn method(&self) -> &str {
        &self.method
    }

    /// The params as JSON, an array or an object.
    #[must_use]
    pub fn params(&self) -> Option<&str> {
        self.params.as_deref()
    }

    /// Whether it is cancelled.
    #[must_use]
    pub fn token(&self) -> &CancelToken {
        self.responder.token()
    }

    /// Answers with a result, which is JSON.
    ///
    /// # Errors
    ///
    /// [`Refusal::NotJson`]: then the answer is an error, since one is owed.
    pub fn answer<'a>(self, result: impl Into<Json<'a>>) -> Result<(), Refusal> {
        self.responder.answer(result)
    }

    /// Answers with an error.
    pub fn fail(self, code: i64, message: &str) {
        self.responder.fail(code, message);
    }

    /// What answers it, without its method and params. It may go to any thread, and wait there.
    #[must_use]
    pub fn into_responder(self) -> Responder {
        self.responder
    }
}

/// A notification of the other side.
#[derive(Debug)]
pub struct Notification {
    pub(crate) method: String,
    pub(crate) params: Option<String>,
    /// (it is closed when it is dropped)
    pub(crate) _open: OpenNotification,
}

impl Notification {
    /// The method's name.
    #[must_use]
    pub fn method(&self) -> &str {
        &self.method
    }

    /// The params as JSON, an array or an object.
    #[must_use]
    pub fn params(&self) -> Option<&str> {
        self.params.as_deref()
    }
}

/// A notification that the connection holds until this is dropped.
pub(crate) struct OpenNotification {
    pub(crate) session: Arc<Session>,
    pub(crate) number: u64,
}

impl Drop for OpenNotification {
    fn drop(&mut self) {
        self.session.close(self.number);
    }
}

impl Debug for OpenNotification {
    fn fmt(&self, formatter: &mut Formatter<'_>) -> fmt::Result {
        write!(formatter, "{}", self.number)
    }
}

/// What answers a request, from any thread, once. If it is dropped, be it since a handler panicked, the request is
/// answered with [`INTERNAL_ERROR`](codes::INTERNAL_ERROR), or as cancelled where it is cancelled: so no request stays
/// without an answer.
pub struct Responder {
    session: Arc<Session>,
    number: u64,
    token: CancelToken,
    is_done: bool,
}

impl Responder {
    pub(crate) fn new(session: Arc<Session>, number: u64, token: CancelToken) -> Self {
        Responder { session, number, token, is_done: false }
    }

    /// Whether the request is cancelled.
    #[must_use]
    pub fn token(&self) -> &CancelToken {
        &self.token
    }

    #[cfg(feature = "tokio")]
    pub(crate) fn number(&self) -> u64 {
        self.number
    }

    /// The end that the request came to.
    #[must_use]
    pub fn peer(&self) -> Peer {
        Peer::new(Arc::clone(&self.session))
    }

    /// Answers with a result, which is JSON.
    ///
    /// # Errors
    ///
    /// [`Refusal::NotJson`]: then the answer is an error, since one is owed.
    pub fn answer<'a>(mut self, result: impl Into<Json<'a>>) -> Result<(), Refusal> {
        let said = self.session.answer(self.number, result.into());
        // (what was refused is answered when this is dropped)
        self.is_done = said.is_ok();
        said
    }

    /// Answers with an error.
    pub fn fail(self, code: i64, message: &str) {
        self.fail_with(code, message, None);
    }

    /// Answers with an error that has data, which is JSON. Where it isn't, the error goes without.
    pub fn fail_with<'a>(mut self, code: i64, message: &str, data: impl Into<Json<'a>>) {
        self.session.fail(self.number, code, message, data.into());
        self.is_done = true;
    }

    /// Answers with a result, which is JSON, or with an error.
    pub(crate) fn finish(self, result: Result<String, ErrorObject>) {
        match result {
            // (what isn't JSON is answered as an internal error)
            Ok(text) => self.answer(&text).unwrap_or_default(),
            Err(error) => self.fail_with(error.code, &error.message, error.data.as_deref()),
        }
    }

    /// Answers as cancelled (-32800), and withdraws what was called on the request's behalf. In MCP a request that the
    /// other side has cancelled gets no answer.
    pub fn cancel(mut self) {
        self.session.cancel(self.number);
        self.is_done = true;
    }

    /// Answers that there is no such method.
    pub fn not_found(self, method: &str) {
        self.fail(codes::METHOD_NOT_FOUND, &format!("Method not found: {method}"));
    }

    /// Calls the other side on the request's behalf: if this is answered or cancelled first, the call is over too.
    pub fn call<'a>(&self, method: &str, params: impl Into<Json<'a>>) -> Reply {
        Session::call(&self.session, self.number, method, params.into())
    }
}

impl Drop for Responder {
    fn drop(&mut self) {
        if self.is_done {
        } else if self.token.is_cancelled() {
            self.session.cancel(self.number);
        } else {
            self.session.fail(self.number, codes::INTERNAL_ERROR, "Internal error: no answer was made", None.into());
        }
    }
}

impl Debug for Responder {
    fn fmt(&self, formatter: &mut Formatter<'_>) -> fmt::Result {
        formatter.debug_struct("Responder").field("number", &self.number).finish_non_exhaustive()
    }
}
