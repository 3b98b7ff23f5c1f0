use crate::end::End;
use crate::session::Session;
use crate::{Json, Outgoing, Refusal, Reply, NOBODY};
use std::fmt::{self, Debug, Formatter};
use std::sync::Arc;

/// What speaks to the other side, from any thread or task. Its clones are the same end.
#[derive(Clone)]
pub struct Peer(pub(crate) Arc<Session>);

impl Peer {
    pub(crate) fn new(session: Arc<Session>) -> Self {
        Peer(session)
    }

    /// Sends a request, whose params are JSON: an array, an object or `None`. What comes of it is the [`Reply`]'s, also
    /// where it can't be sent.
    pub fn call<'a>(&self, method: &str, params: impl Into<Json<'a>>) -> Reply {
        Session::call(&self.0, NOBODY, method, params.into())
    }

    /// Sends several requests in one batch, all or none.
    ///
    /// # Errors
    ///
    /// Those of [`Connection::call_batch`](crate::Connection::call_batch).
    pub fn call_batch(&self, calls: &[Outgoing<'_>]) -> Result<Vec<Reply>, Refusal> {
        self.0.call_batch(calls)
    }

    /// Sends a notification.
    ///
    /// # Errors
    ///
    /// Those of [`Connection::notify`](crate::Connection::notify).
    pub fn notify<'a>(&self, method: &str, params: impl Into<Json<'a>>) -> Result<(), Refusal> {
        self.0.notify(method, params.into())
    }

    /// Ends the session from this side: what is to be written is written, and nothing more is taken in. Requests of
    /// yours that wait are [`CallError::Closed`](crate::CallError::Closed).
    pub fn stop(&self) {
        self.0.stop();
    }

    /// How the session ended, once it has.
    #[must_use]
    pub fn end(&self) -> Option<End> {
        self.0.end_of()
    }

    /// How many requests and notifications of the other side are open.
    #[must_use]
    pub fn open(&self) -> u64 {
        self.0.counts().0
    }

    /// How many requests of yours wait for their response.
    #[must_use]
    pub fn waiting(&self) -> usize {
        self.0.counts().1
    }
}

impl Debug for Peer {
    fn fmt(&self, formatter: &mut Formatter<'_>) -> fmt::Result {
        let (open, waiting) = self.0.counts();
        formatter.debug_struct("Peer").field("open", &open).field("waiting", &waiting).finish()
    }
}
