//! Params and results by type, by serde.
use crate::incoming::codes::INVALID_PARAMS;
use crate::{CallError, ErrorObject, Incoming, Life, Notification, Peer, Refusal, Reply, Request, Responder};
use serde::de::DeserializeOwned;
use serde::Serialize;
use std::fmt::{self, Debug, Formatter};
use std::future::Future;
use std::marker::PhantomData;
use std::pin::Pin;
use std::task::{Context, Poll};
use std::time::Duration;

/// Reads params, or none, by type. A type that takes `null`, such as an `Option` or `()`, takes none.
///
/// ```
/// #[derive(serde::Deserialize, Debug)]
/// struct Place { line: u32 }
///
/// let error = bullmyrtle::params_of::<Vec<Place>>(Some(r#"[{"line":3},{"line":"x"}]"#)).unwrap_err();
/// assert_eq!(error.code, -32602);
/// assert_eq!(error.message, r#"params[1].line: invalid type: string "x", expected u32"#);
/// ```
///
/// # Errors
///
/// [`INVALID_PARAMS`], with the place of what doesn't fit.
pub fn params_of<T: DeserializeOwned>(params: Option<&str>) -> Result<T, ErrorObject> {
    read("params", params.unwrap_or("null")).map_err(|why| ErrorObject::new(INVALID_PARAMS, why))
}

/// Reads a value, or says where and why it doesn't fit.
fn read<T: DeserializeOwned>(name: &str, text: &str) -> Result<T, String> {
    // (to follow the place takes time, so it is looked for only where something doesn't fit)
    serde_json::from_str(text).or_else(|_| read_by_place(name, text))
}

fn read_by_place<T: DeserializeOwned>(name: &str, text: &str) -> Result<T, String> {
    let mut reader = serde_json::Deserializer::from_str(text);
    serde_path_to_error::deserialize(&mut reader).map_err(|error| {
        let path = error.path().to_string();
        let dot = if path.starts_with('[') || path == "." { "" } else { "." };
        let why = error.into_inner().to_string();
        // (the text is compact, so a line and a column say nothing to a reader)
        let why = why.split(" at line ").next().unwrap_or(&why);
        format!("{name}{dot}{}: {why}", if path == "." { "" } else { &path })
    })
}

/// Writes a value as JSON.
///
/// # Errors
///
/// Where serde has none for it, such as a map whose keys aren't strings.
pub(crate) fn written<T: Serialize + ?Sized>(value: &T) -> Result<String, ErrorObject> {
    serde_json::to_string(value).map_err(|why| ErrorObject::new(crate::codes::INTERNAL_ERROR, why.to_string()))
}

/// (params are an array, an object or none, and what a unit or `None` is written as is none)
fn params_text<T: Serialize + ?Sized>(params: &T) -> Result<Option<String>, Refusal> {
    let text = serde_json::to_string(params).map_err(|_| Refusal::NotJson)?;
    Ok(Some(text).filter(|it| it != "null"))
}

impl Incoming {
    /// The params by type.
    ///
    /// # Errors
    ///
    /// As [`params_of`].
    pub fn params_as<T: DeserializeOwned>(&self) -> Result<T, ErrorObject> {
        params_of(self.params())
    }
}

impl Notification {
    /// The params by type.
    ///
    /// # Errors
    ///
    /// As [`params_of`].
    pub fn params_as<T: DeserializeOwned>(&self) -> Result<T, ErrorObject> {
        params_of(self.params())
    }
}

impl Request {
    /// The params by type.
    ///
    /// # Errors
    ///
    /// As [`params_of`].
    pub fn params_as<T: DeserializeOwned>(&self) -> Result<T, ErrorObject> {
        params_of(self.params())
    }

    /// Answers with what this makes of the params. Where they don't fit, it isn't called, and the answer is
    /// [`INVALID_PARAMS`] with the place.
    pub fn respond<P: DeserializeOwned, R: Serialize>(self, with: impl FnOnce(P) -> Result<R, ErrorObject>) {
        let result = self.params_as().and_then(with);
        self.responder.answer_as(result);
    }
}

impl Life {
    /// A life whose `initialize` is answered with what this makes of its params, such as `lsp::InitializeParams`. Where
    /// they don't fit, it isn't called, and the answer is [`INVALID_PARAMS`] with the place.
    #[must_use]
    pub fn typed<P, R, F>(mut with: F) -> Self
    where
        P: DeserializeOwned,
        R: Serialize,
        F: FnMut(P) -> Result<R, ErrorObject> + Send + 'static,
    {
        Self::trying(move |params| written(&with(params_of(Some(params))?)?))
    }
}

impl Responder {
    /// Answers with a result by type, or with an error.
    pub fn answer_as<R: Serialize>(self, result: Result<R, ErrorObject>) {
        self.finish(result.and_then(|it| written(&it)));
    }

    /// Calls the other side on the request's behalf, with params and a result by type.
    pub fn call_as<R: DeserializeOwned>(&self, method: &str, params: &(impl Serialize + ?Sized)) -> ReplyAs<R> {
        match params_text(params) {
            Ok(text) => ReplyAs::new(self.call(method, text.as_deref())),
            Err(_) => ReplyAs::new(self.call(method, "")),
        }
    }
}

impl Peer {
    /// Sends a request, with params and a result by type.
    pub fn call_as<R: DeserializeOwned>(&self, method: &str, params: &(impl Serialize + ?Sized)) -> ReplyAs<R> {
        match params_text(params) {
            Ok(text) => ReplyAs::new(self.call(method, text.as_deref())),
            Err(_) => ReplyAs::new(self.call(method, "")),
        }
    }

    /// Sends a notification, with params by type.
    ///
    /// # Errors
    ///
    /// Those of [`notify`](Self::notify); [`Refusal::NotJson`] where serde has no JSON for the params.
    pub fn notify_as(&self, method: &str, params: &(impl Serialize + ?Sized)) -> Result<(), Refusal> {
        self.notify(method, params_text(params)?.as_deref())
    }
}

/// A [`Reply`] whose result is read by type.
#[must_use = "a reply that is dropped is cancelled"]
pub struct ReplyAs<R> {
    reply: Reply,
    result: PhantomData<fn() -> R>,
}

impl<R: DeserializeOwned> ReplyAs<R> {
    fn new(reply: Reply) -> Self {
        ReplyAs { reply, result: PhantomData }
    }

    /// Waits for the response, as [`Reply::wait`] does.
    ///
    /// # Errors
    ///
    /// [`CallError`]; [`CallError::Result`] where the result isn't of the type.
    pub fn wait(self) -> Result<R, CallError> {
        self.reply.wait().and_then(|it| result_of(&it))
    }

    /// Waits at most so long, as [`Reply::wait_timeout`] does.
    ///
    /// # Errors
    ///
    /// The reply itself, which may be waited for again, or dropped.
    pub fn wait_timeout(self, time: Duration) -> Result<Result<R, CallError>, Self> {
        let response = self.reply.wait_timeout(time).map_err(Self::new)?;
        Ok(response.and_then(|it| result_of(&it)))
    }

    /// The reply whose result isn't read.
    pub fn into_reply(self) -> Reply {
        self.reply
    }
}

fn result_of<R: DeserializeOwned>(text: &str) -> Result<R, CallError> {
    read("result", text).map_err(CallError::Result)
}

impl<R: DeserializeOwned> Future for ReplyAs<R> {
    type Output = Result<R, CallError>;

    fn poll(mut self: Pin<&mut Self>, context: &mut Context<'_>) -> Poll<Self::Output> {
        Pin::new(&mut self.reply).poll(context).map(|it| it.and_then(|it| result_of(&it)))
    }
}

impl<R> Debug for ReplyAs<R> {
    fn fmt(&self, formatter: &mut Formatter<'_>) -> fmt::Result {
        self.reply.fmt(formatter)
    }
}

impl From<CallError> for ErrorObject {
    /// What a handler answers whose own request has failed: the error of the response, or else an internal error.
    fn from(error: CallError) -> Self {
        match error {
            CallError::Response(it) => it,
            other => ErrorObject::new(crate::codes::INTERNAL_ERROR, other.to_string()),
        }
    }
}
