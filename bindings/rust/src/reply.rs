//! The response to an outgoing request: waited for by a thread, or awaited by a task of any runtime.
use crate::end::End;
use crate::session::Session;
use crate::{ErrorObject, Refusal};
use std::error::Error;
use std::fmt::{self, Debug, Display, Formatter};
use std::future::Future;
use std::pin::Pin;
use std::sync::{Arc, Condvar, Mutex, MutexGuard, PoisonError};
use std::task::{Context, Poll, Waker};
use std::time::{Duration, Instant};

/// Why an outgoing request has no result.
#[derive(Clone, Debug, PartialEq, Eq)]
#[non_exhaustive]
pub enum CallError {
    /// The other side responded with an error.
    Response(ErrorObject),
    /// The session ended first, or the request on whose behalf it was made was answered.
    Closed(Option<End>),
    /// It was cancelled, in a protocol in which no response follows.
    Cancelled,
    /// It wasn't sent: params that aren't JSON, or the input is over.
    Refused(Refusal),
    /// The result isn't of the type that was asked for. The text says where.
    Result(String),
}

impl Display for CallError {
    fn fmt(&self, formatter: &mut Formatter<'_>) -> fmt::Result {
        match self {
            CallError::Response(error) => Display::fmt(error, formatter),
            CallError::Closed(Some(end)) => write!(formatter, "no response: {end}"),
            CallError::Closed(None) => formatter.write_str("no response: the session ended"),
            CallError::Cancelled => formatter.write_str("cancelled"),
            CallError::Refused(refusal) => Display::fmt(refusal, formatter),
            CallError::Result(text) => formatter.write_str(text),
        }
    }
}

impl Error for CallError {}

/// What an outgoing request comes to: the result as JSON, or why there is none.
pub type Response = Result<String, CallError>;

/// Where a response is put once it has come.
#[derive(Default)]
pub(crate) struct Slot {
    inside: Mutex<Inside>,
    filled: Condvar,
}

#[derive(Default)]
struct Inside {
    response: Option<Response>,
    waker: Option<Waker>,
}

impl Slot {
    fn inside(&self) -> MutexGuard<'_, Inside> {
        self.inside.lock().unwrap_or_else(PoisonError::into_inner)
    }

    /// Puts it there, and gives who is to be woken once nothing is locked.
    pub(crate) fn fill(&self, response: Response) -> Option<Waker> {
        let mut inside = self.inside();
        inside.response = Some(response);
        self.filled.notify_all();
        inside.waker.take()
    }
}

/// The response to a request of yours, which is on its way: [`wait`](Self::wait) for it, or `.await` it in a task of
/// any runtime. One that is dropped before is cancelled, where the settings have cancels; [`detach`](Self::detach)
/// leaves it alone.
#[must_use = "a reply that is dropped is cancelled"]
pub struct Reply {
    session: Arc<Session>,
    slot: Arc<Slot>,
    key: u64,
    is_done: bool,
}

impl Reply {
    pub(crate) fn new(session: Arc<Session>, slot: Arc<Slot>, key: u64) -> Self {
        Reply { session, slot, key, is_done: false }
    }

    /// One that has come already: of a request that wasn't sent.
    pub(crate) fn refused(session: Arc<Session>, why: Refusal) -> Self {
        let slot = Arc::<Slot>::default();
        drop(slot.fill(Err(CallError::Refused(why))));
        Reply { session, slot, key: 0, is_done: false }
    }

    /// Waits for the response. It blocks the thread: in a task, `.await` the reply.
    ///
    /// # Errors
    ///
    /// [`CallError`].
    pub fn wait(mut self) -> Response {
        let mut inside = self.slot.inside();
        loop {
            if let Some(response) = inside.response.take() {
                drop(inside);
                self.is_done = true;
                return response;
            }
            inside = self.slot.filled.wait(inside).unwrap_or_else(PoisonError::into_inner);
        }
    }

    /// Waits at most so long.
    ///
    /// # Errors
    ///
    /// The reply itself, which may be waited for again, or dropped.
    pub fn wait_timeout(mut self, time: Duration) -> Result<Response, Reply> {
        let until = Instant::now() + time;
        loop {
            let mut inside = self.slot.inside();
            if let Some(response) = inside.response.take() {
                drop(inside);
                self.is_done = true;
                return Ok(response);
            }
            let left = until.saturating_duration_since(Instant::now());
            if left.is_zero() {
                break;
            }
            drop(self.slot.filled.wait_timeout(inside, left).unwrap_or_else(PoisonError::into_inner));
        }
        Err(self)
    }

    /// Tells the other side that the response isn't wanted any more. It comes all the same, often as an error; in MCP
    /// none comes, and this one is [`CallError::Cancelled`].
    pub fn cancel(&self) {
        self.session.withdraw(self.key);
    }

    /// Drops it without a cancel: the response is ignored when it comes.
    pub fn detach(mut self) {
        self.is_done = true;
        self.session.forget(self.key);
    }
}

impl Future for Reply {
    type Output = Response;

    fn poll(mut self: Pin<&mut Self>, context: &mut Context<'_>) -> Poll<Response> {
        let mut inside = self.slot.inside();
        match inside.response.take() {
            Some(response) => {
                drop(inside);
                self.is_done = true;
                Poll::Ready(response)
            }
            None => {
                inside.waker = Some(context.waker().clone());
                Poll::Pending
            }
        }
    }
}

impl Drop for Reply {
    fn drop(&mut self) {
        if !self.is_done {
            self.session.withdraw(self.key);
            self.session.forget(self.key);
        }
    }
}

impl Debug for Reply {
    fn fmt(&self, formatter: &mut Formatter<'_>) -> fmt::Result {
        formatter.debug_struct("Reply").field("key", &self.key).finish_non_exhaustive()
    }
}
