use super::call::{About, Answer, Boxed, Call};
use super::running::{polled, Running};
use super::streams::{Pair, Streams, Threads};
use crate::server::refused;
use crate::session::Session;
use crate::{streams, End, ErrorObject, Incoming, Notification, Peer, Refusal, Request, Settings, NOBODY};
use std::collections::VecDeque;
use std::fmt::{self, Debug, Formatter};
use std::future::Future;
use std::io;
use std::panic::{catch_unwind, AssertUnwindSafe};
use std::pin::Pin;
use std::sync::Arc;
use std::task::{Context, Poll};
use tokio::io::{AsyncRead, AsyncWrite};
use tokio::task::JoinSet;
use tower_service::Service;

/// How many handlers run side by side, if nothing else is said.
const AT_ONCE: usize = 256;

/// Serves over two streams of tokio: a [`Router`](super::Router), or a service of layers around one. The session runs
/// where the [`Serving`] is polled, so `.await` it or spawn it.
///
/// # Errors
///
/// [`Refusal::Settings`], also for [`Framing::Contents`](crate::Framing::Contents); [`Refusal::NoMemory`].
pub fn serve<S, R, W>(service: S, reader: R, writer: W, settings: Settings) -> Result<Serving<S>, Refusal>
where
    R: AsyncRead + Send + Unpin + 'static,
    W: AsyncWrite + Send + Unpin + 'static,
{
    Ok(Serving::new(service, Session::new(settings)?, Box::new(Pair::new(reader, writer))))
}

/// Serves on the standard streams, with threads that read and write them. What is printed by `println!` goes to the
/// standard error from now on.
///
/// # Errors
///
/// Those of the system, and settings that aren't for streams, as `InvalidInput`.
pub async fn serve_stdio<S>(service: S, settings: Settings) -> io::Result<End>
where
    S: Service<Call, Response = Answer>,
    S::Error: Into<ErrorObject>,
    S::Future: Send + 'static,
{
    let (input, output) = streams::standard()?;
    let session = Session::new(settings).map_err(refused)?;
    // (tokio's own standard input holds up the end of the runtime until a read returns)
    let threads = Threads(streams::start(&session, input, output)?);
    Ok(Serving::new(service, session, Box::new(threads)).await)
}

/// A session that is served: a future that is ready once the session has ended and everything is answered and written.
/// Where it is dropped, its handlers are too, and requests of yours that wait are
/// [`CallError::Closed`](crate::CallError::Closed).
#[must_use = "a session runs where it is polled"]
pub struct Serving<S> {
    session: Arc<Session>,
    streams: Box<dyn Streams>,
    service: S,
    at_once: usize,
    drops: bool,
    queue: VecDeque<Incoming>,
    /// The notification that what follows waits for.
    first: Option<(Boxed<Option<Boxed<()>>>, Notification)>,
    tasks: JoinSet<()>,
    is_written: bool,
}

impl<S> Serving<S> {
    fn new(service: S, session: Arc<Session>, streams: Box<dyn Streams>) -> Self {
        Serving {
            session,
            streams,
            service,
            at_once: AT_ONCE,
            drops: true,
            queue: VecDeque::new(),
            first: None,
            tasks: JoinSet::new(),
            is_written: false,
        }
    }

    /// How many handlers may wait side by side, by default 256. What comes next begins when one of them has ended; so
    /// where two sides call each other from their handlers, both may wait for ever if this is less than there are calls.
    pub fn at_once(mut self, count: usize) -> Self {
        self.at_once = count.max(1);
        self
    }

    /// Whether a cancel drops the handler, which is the default, and answers -32800. Else the handler goes on, and may
    /// ask its [`token`](super::Context::token).
    pub fn cancels_drop(mut self, drops: bool) -> Self {
        self.drops = drops;
        self
    }

    /// What speaks to the other side, also while the session runs elsewhere.
    #[must_use]
    pub fn peer(&self) -> Peer {
        Peer::new(Arc::clone(&self.session))
    }
}

impl<S> Serving<S>
where
    S: Service<Call, Response = Answer>,
    S::Error: Into<ErrorObject>,
    S::Future: Send + 'static,
{
    /// Begins what came, in its order, until it has to wait. Ready where nothing more comes and all has ended.
    fn poll_messages(&mut self, context: &mut Context<'_>) -> Poll<()> {
        loop {
            self.poll_tasks(context);
            if self.poll_first(context).is_pending() || self.tasks.len() >= self.at_once {
                return Poll::Pending;
            }
            if self.queue.is_empty() {
                match self.session.poll_messages(context.waker(), &mut self.queue) {
                    Poll::Ready(true) => {}
                    Poll::Ready(false) if self.tasks.is_empty() => return Poll::Ready(()),
                    Poll::Ready(false) | Poll::Pending => return Poll::Pending,
                }
            }
            // (a service that fails is asked all the same: its call says how)
            if self.service.poll_ready(context).is_pending() {
                return Poll::Pending;
            }
            match self.queue.pop_front() {
                Some(Incoming::Request(it)) => self.begin_request(it, context),
                Some(Incoming::Notification(it)) => self.begin_notification(it),
                None => {}
            }
        }
    }

    /// Forgets the handlers that have ended.
    fn poll_tasks(&mut self, context: &mut Context<'_>) {
        while let Poll::Ready(Some(_)) = std::pin::pin!(self.tasks.join_next()).poll(context) {}
    }

    /// Goes on with the notification that what follows waits for.
    fn poll_first(&mut self, context: &mut Context<'_>) -> Poll<()> {
        let Some((future, _)) = &mut self.first else { return Poll::Ready(()) };
        let Poll::Ready(rest) = polled(future.as_mut(), context) else { return Poll::Pending };
        let notification = self.first.take().map(|(_, it)| it);
        if let Some(mut rest) = rest.flatten() {
            // (it begins here, in its turn)
            if polled(rest.as_mut(), context).is_pending() {
                self.tasks.spawn(async move {
                    let _held = notification;
                    rest.await;
                });
            }
        }
        Poll::Ready(())
    }

    fn begin_request(&mut self, request: Request, context: &mut Context<'_>) {
        let Request { method, params, responder } = request;
        if responder.token().is_cancelled() {
            return responder.cancel();
        }
        let token = Some(responder.token().clone());
        let about = About { session: Arc::clone(&self.session), number: responder.number(), token };
        // (a service that panics here leaves the responder, which answers as it is dropped)
        let Some(future) = self.called(Call { method, params, about }) else { return };
        let mut running = Running::new(future, responder, self.drops);
        if Pin::new(&mut running).poll(context).is_pending() {
            self.tasks.spawn(running);
        }
    }

    fn begin_notification(&mut self, mut it: Notification) {
        let (method, params) = (std::mem::take(&mut it.method), it.params.take());
        let about = About { session: Arc::clone(&self.session), number: NOBODY, token: None };
        if let Some(future) = self.called(Call { method, params, about }) {
            self.first = Some((Box::pin(async move { future.await.ok().and_then(|it| it.rest) }), it));
        }
    }

    /// The future of a call, or nothing where the service has panicked.
    fn called(&mut self, call: Call) -> Option<S::Future> {
        catch_unwind(AssertUnwindSafe(|| self.service.call(call))).ok()
    }
}

impl<S> Future for Serving<S>
where
    S: Service<Call, Response = Answer>,
    S::Error: Into<ErrorObject>,
    S::Future: Send + 'static,
{
    type Output = End;

    fn poll(mut self: Pin<&mut Self>, context: &mut Context<'_>) -> Poll<End> {
        let this = &mut *self;
        this.session.forget_waker(context.waker());
        loop {
            let is_live = this.session.end_of().is_none();
            let read = is_live && this.streams.poll_read(&this.session, context).is_ready();
            let is_begun = this.poll_messages(context).is_ready();
            if this.session.is_stopped() {
                this.drop_all();
            }
            this.is_written = this.is_written || this.streams.poll_write(&this.session, context).is_ready();
            if this.is_written && (is_begun || this.session.is_stopped()) {
                this.drop_all();
                return Poll::Ready(this.session.end_of().expect("what is written last comes after the end"));
            }
            if !read {
                return Poll::Pending;
            }
        }
    }
}

impl<S> Serving<S> {
    fn drop_all(&mut self) {
        self.queue.clear();
        self.first = None;
        self.tasks.abort_all();
        self.session.drop_messages();
    }
}

// (nothing of it is pinned: handlers are boxed, and streams are `Unpin`)
impl<S> Unpin for Serving<S> {}

impl<S> Drop for Serving<S> {
    /// Ends the session. What handlers have answered and isn't written yet is lost with the streams.
    fn drop(&mut self) {
        self.session.stop();
        self.drop_all();
    }
}

impl<S> Debug for Serving<S> {
    fn fmt(&self, formatter: &mut Formatter<'_>) -> fmt::Result {
        formatter.debug_struct("Serving").field("tasks", &self.tasks.len()).finish_non_exhaustive()
    }
}
