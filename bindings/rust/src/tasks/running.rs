//! A handler that has begun.
use super::call::Answer;
use crate::cancel::Cancelled;
use crate::{ErrorObject, Responder};
use std::future::Future;
use std::panic::{catch_unwind, AssertUnwindSafe};
use std::pin::Pin;
use std::task::{Context, Poll};

/// The handler of a request, with what answers that. Dropped at any place, it answers with an error.
pub(super) struct Running<F> {
    future: Option<Pin<Box<F>>>,
    responder: Option<Responder>,
    /// Where a cancel drops the handler.
    cancelled: Option<Cancelled>,
}

impl<F, E> Running<F>
where
    F: Future<Output = Result<Answer, E>>,
    E: Into<ErrorObject>,
{
    pub(super) fn new(future: F, responder: Responder, drops: bool) -> Self {
        let cancelled = drops.then(|| responder.token().cancelled());
        Running { future: Some(Box::pin(future)), responder: Some(responder), cancelled }
    }
}

impl<F, E> Future for Running<F>
where
    F: Future<Output = Result<Answer, E>>,
    E: Into<ErrorObject>,
{
    type Output = ();

    fn poll(mut self: Pin<&mut Self>, context: &mut Context<'_>) -> Poll<()> {
        let this = &mut *self;
        let Some(future) = &mut this.future else { return Poll::Ready(()) };
        // (the cancel is looked at first, so that a handler that waits for it as well is dropped in any case)
        if this.cancelled.as_ref().is_some_and(Cancelled::is_over) {
            return this.cancel();
        }
        if let Poll::Ready(outcome) = polled(future.as_mut(), context) {
            this.future = None;
            // (one that has panicked has no outcome, and its responder answers when it is dropped)
            if let (Some(responder), Some(outcome)) = (this.responder.take(), outcome) {
                responder.finish(outcome.map(|it| it.json).map_err(Into::into));
            }
            return Poll::Ready(());
        }
        match this.cancelled.as_mut().map(|it| Pin::new(it).poll(context)) {
            Some(Poll::Ready(())) => this.cancel(),
            _ => Poll::Pending,
        }
    }
}

impl<F> Running<F> {
    /// Drops the handler, and answers as cancelled.
    fn cancel(&mut self) -> Poll<()> {
        self.future = None;
        self.responder.take().into_iter().for_each(Responder::cancel);
        Poll::Ready(())
    }
}

/// Polls a handler, and gives nothing where it has panicked.
pub(super) fn polled<F: Future + ?Sized>(future: Pin<&mut F>, context: &mut Context<'_>) -> Poll<Option<F::Output>> {
    match catch_unwind(AssertUnwindSafe(|| future.poll(context))) {
        Ok(poll) => poll.map(Some),
        Err(_) => Poll::Ready(None),
    }
}
