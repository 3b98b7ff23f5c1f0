use crate::session::Session;
use crate::{CancelToken, ErrorObject, Json, Peer, Reply, NOBODY};
use std::fmt::{self, Debug, Formatter};
use std::future::Future;
use std::pin::Pin;
use std::sync::Arc;

/// A future that is kept.
pub(super) type Boxed<T> = Pin<Box<dyn Future<Output = T> + Send>>;

/// A request or a notification of the other side, as a [`tower_service::Service`] gets it. What answers it stays with
/// the session: a service whose future is dropped owes nothing.
pub struct Call {
    pub(super) method: String,
    pub(super) params: Option<String>,
    pub(super) about: About,
}

/// What of a call its handler keeps.
#[derive(Clone)]
pub(super) struct About {
    pub(super) session: Arc<Session>,
    /// That of the request, or nobody's.
    pub(super) number: u64,
    pub(super) token: Option<CancelToken>,
}

impl About {
    pub(super) fn call<'a>(&self, method: &str, params: impl Into<Json<'a>>) -> Reply {
        Session::call(&self.session, self.number, method, params.into())
    }

    pub(super) fn peer(&self) -> Peer {
        Peer::new(Arc::clone(&self.session))
    }
}

impl Call {
    /// The method's name.
    #[must_use]
    pub fn method(&self) -> &str {
        &self.method
    }

    /// The params as JSON, an array or an object.
    #[must_use]
    pub fn params(&self) -> Option<&str> {
        self.params.as_deref()
    }

    /// Whether it is a request, and so wants an answer.
    #[must_use]
    pub fn is_request(&self) -> bool {
        self.about.number != NOBODY
    }

    /// The end that it came to.
    #[must_use]
    pub fn peer(&self) -> Peer {
        self.about.peer()
    }
}

impl Debug for Call {
    fn fmt(&self, formatter: &mut Formatter<'_>) -> fmt::Result {
        formatter.debug_struct("Call").field("method", &self.method).finish_non_exhaustive()
    }
}

/// What a service gives for a [`Call`]: the result as JSON, which for a notification isn't looked at; or for a
/// notification what is left to do while others begin.
#[derive(Default)]
pub struct Answer {
    pub(super) json: String,
    pub(super) rest: Option<Boxed<()>>,
}

impl Answer {
    /// For a notification that has begun, and goes on while others begin.
    pub fn aside(rest: impl Future<Output = ()> + Send + 'static) -> Self {
        Answer { json: String::new(), rest: Some(Box::pin(rest)) }
    }
}

impl From<String> for Answer {
    fn from(json: String) -> Self {
        Answer { json, rest: None }
    }
}

impl Debug for Answer {
    fn fmt(&self, formatter: &mut Formatter<'_>) -> fmt::Result {
        formatter.debug_struct("Answer").field("json", &self.json).finish_non_exhaustive()
    }
}

pub(super) type Outcome = Result<Answer, ErrorObject>;
