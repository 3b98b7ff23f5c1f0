//! Whether a request that came is cancelled.
use std::fmt::{self, Debug, Formatter};
use std::future::Future;
use std::pin::Pin;
use std::sync::atomic::{AtomicBool, Ordering};
use std::sync::{Arc, Condvar, Mutex, PoisonError};
use std::task::{Context, Poll, Waker};
use std::time::{Duration, Instant};

#[derive(Default)]
struct Inside {
    is_cancelled: AtomicBool,
    wakers: Mutex<Vec<Waker>>,
    told: Condvar,
}

/// Whether a request is cancelled. Its clones speak of the same request, in any thread.
#[derive(Clone, Default)]
pub struct CancelToken(Arc<Inside>);

impl CancelToken {
    /// Whether the other side has cancelled the request.
    #[must_use]
    pub fn is_cancelled(&self) -> bool {
        self.0.is_cancelled.load(Ordering::Acquire)
    }

    /// Sleeps so long, or until the request is cancelled, and says whether it is.
    #[must_use]
    pub fn sleep(&self, time: Duration) -> bool {
        let until = Instant::now() + time;
        let mut wakers = self.0.wakers.lock().unwrap_or_else(PoisonError::into_inner);
        while !self.is_cancelled() {
            let left = until.saturating_duration_since(Instant::now());
            if left.is_zero() {
                return false;
            }
            wakers = self.0.told.wait_timeout(wakers, left).unwrap_or_else(PoisonError::into_inner).0;
        }
        true
    }

    /// A future that is ready once the request is cancelled, for a task of any runtime.
    pub fn cancelled(&self) -> Cancelled {
        Cancelled(self.clone())
    }

    /// Marks it, and gives who is to be woken.
    pub(crate) fn cancel(&self) -> Vec<Waker> {
        let mut wakers = self.0.wakers.lock().unwrap_or_else(PoisonError::into_inner);
        self.0.is_cancelled.store(true, Ordering::Release);
        self.0.told.notify_all();
        std::mem::take(&mut *wakers)
    }
}

impl Debug for CancelToken {
    fn fmt(&self, formatter: &mut Formatter<'_>) -> fmt::Result {
        formatter.debug_tuple("CancelToken").field(&self.is_cancelled()).finish()
    }
}

/// What [`CancelToken::cancelled`] gives.
#[derive(Clone, Debug)]
#[must_use = "futures do nothing unless they are polled"]
pub struct Cancelled(CancelToken);

#[cfg(feature = "tokio")]
impl Cancelled {
    /// Whether it is ready, without a waker.
    pub(crate) fn is_over(&self) -> bool {
        self.0.is_cancelled()
    }
}

impl Future for Cancelled {
    type Output = ();

    fn poll(self: Pin<&mut Self>, context: &mut Context<'_>) -> Poll<()> {
        let inside = &self.0 .0;
        if self.0.is_cancelled() {
            return Poll::Ready(());
        }
        let mut wakers = inside.wakers.lock().unwrap_or_else(PoisonError::into_inner);
        if self.0.is_cancelled() {
            return Poll::Ready(());
        }
        if !wakers.iter().any(|it| it.will_wake(context.waker())) {
            wakers.push(context.waker().clone());
        }
        Poll::Pending
    }
}
