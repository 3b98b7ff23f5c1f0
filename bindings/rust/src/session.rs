//! What the threads or the tasks of an end share: a connection, who waits for what, and who is to be woken. It reads
//! and writes nothing itself.
//!
//! Everything is one struct behind one lock, and each change of it goes through [`Session::change`], which wakes whom
//! the change concerns once nothing is locked. A lock per part was the other way: then an answer and a cancel that race
//! could each see the half of the other.
use crate::end::End;
use crate::incoming::{Incoming, Notification, OpenNotification, Request, Responder};
use crate::reply::{CallError, Reply, Slot};
use crate::{CancelToken, Close, Connection, Ended, Event, Json, Outgoing, Refusal, Settings, NOBODY};
use std::collections::{HashMap, VecDeque};
use std::io::ErrorKind;
use std::mem::take;
use std::sync::{Arc, Condvar, Mutex, PoisonError};
use std::task::{Poll, Waker};
use std::time::{Duration, Instant};

/// While more bytes than this wait to be written, or more messages to be taken, nothing more is read.
const MOST_PENDING: usize = 1 << 20;
const MOST_QUEUED: usize = 1_000;

/// A request that came and isn't answered.
struct Open {
    token: CancelToken,
    /// Those of the calls on its behalf.
    keys: Vec<u64>,
}

struct State {
    connection: Connection,
    open: HashMap<u64, Open>,
    calls: HashMap<u64, Arc<Slot>>,
    /// What came and wasn't taken yet. (Each message holds the session, so what ends it empties this.)
    queue: VecDeque<Incoming>,
    error: Option<ErrorKind>,
    end: Option<End>,
    /// Whether this side has ended the session: nothing more is taken in.
    is_stopped: bool,
    /// Whether a write failed: what is to be written is dropped.
    is_broken: bool,
    /// Who waits until there is something to write, or until more may be read.
    writer: Option<Waker>,
    reader: Option<Waker>,
    /// Who waits for messages, or for the end.
    taker: Option<Waker>,
    woken: Vec<Waker>,
}

pub(crate) struct Session {
    state: Mutex<State>,
    /// Tells the thread that waits for messages that there are some, or that the session has ended.
    arrived: Condvar,
    is_mcp: bool,
}

impl Session {
    pub(crate) fn new(settings: Settings) -> Result<Arc<Self>, Refusal> {
        if settings.has_contents() {
            // (a stream has no texts: that framing is for a connection that is fed by hand)
            return Err(Refusal::Settings);
        }
        let state = State {
            connection: Connection::new(settings)?,
            open: HashMap::new(),
            calls: HashMap::new(),
            queue: VecDeque::new(),
            error: None,
            end: None,
            is_stopped: false,
            is_broken: false,
            writer: None,
            reader: None,
            taker: None,
            woken: Vec::new(),
        };
        Ok(Arc::new(Session { state: Mutex::new(state), arrived: Condvar::new(), is_mcp: settings.is_mcp() }))
    }

    /// Changes the state, and wakes whom that concerns.
    fn change<T>(&self, with: impl FnOnce(&mut State) -> T) -> T {
        let mut state = self.state.lock().unwrap_or_else(PoisonError::into_inner);
        let given = with(&mut state);
        state.find_woken();
        let woken = take(&mut state.woken);
        drop(state);
        woken.into_iter().for_each(Waker::wake);
        given
    }

    // What is read and written

    /// Takes in what was read.
    pub(crate) fn hear(self: &Arc<Self>, bytes: &[u8]) {
        self.change(|state| {
            if state.connection.feed(bytes) == Err(Refusal::NoMemory) {
                state.finish_input(Ended::ReadFailed, Some(ErrorKind::OutOfMemory));
            }
            self.take_events(state);
        });
    }

    /// The input is over.
    pub(crate) fn end(self: &Arc<Self>, error: Option<ErrorKind>) {
        let how = error.map_or(Ended::Closed, |_| Ended::ReadFailed);
        self.change(|state| {
            state.finish_input(how, error);
            self.take_events(state);
        });
    }

    /// A write failed. The other side is gone, so the input is over too.
    pub(crate) fn break_output(self: &Arc<Self>, error: ErrorKind) {
        self.change(|state| {
            state.is_broken = true;
            state.finish_input(Ended::Closed, Some(error));
            self.take_events(state);
        });
    }

    fn take_events(self: &Arc<Self>, state: &mut State) {
        loop {
            match state.connection.next_event() {
                Ok(Some(event)) => {
                    let heard = self.heard(state, event);
                    state.queue.extend(heard);
                }
                Ok(None) => break,
                Err(_) => state.finish_input(Ended::ReadFailed, Some(ErrorKind::OutOfMemory)),
            }
        }
        if !state.queue.is_empty() || state.end.is_some() {
            self.arrived.notify_all();
        }
    }

    // What came, and is taken

    /// Waits, at most so long, for the next message. There is none once the session has ended.
    pub(crate) fn next(&self, time: Option<Duration>) -> Option<Incoming> {
        let until = time.map(|it| Instant::now() + it);
        let mut state = self.state.lock().unwrap_or_else(PoisonError::into_inner);
        while state.queue.is_empty() && state.end.is_none() {
            let left = until.map(|it| it.saturating_duration_since(Instant::now()));
            state = match left {
                Some(Duration::ZERO) => return None,
                Some(left) => self.arrived.wait_timeout(state, left).unwrap_or_else(PoisonError::into_inner).0,
                None => self.arrived.wait(state).unwrap_or_else(PoisonError::into_inner),
            };
        }
        drop(state);
        // (what is left where the session was stopped or broken isn't handled any more)
        self.change(|state| if state.is_closed() { None } else { state.queue.pop_front() })
    }

    /// Takes all messages that came: ready with `false` where none will come any more.
    #[cfg(feature = "tokio")]
    pub(crate) fn poll_messages(&self, waker: &Waker, into: &mut VecDeque<Incoming>) -> Poll<bool> {
        self.change(|state| {
            if state.is_closed() || (state.queue.is_empty() && state.end.is_some()) {
                return Poll::Ready(false);
            }
            if state.queue.is_empty() {
                state.taker = Some(waker.clone());
                return Poll::Pending;
            }
            into.append(&mut state.queue);
            Poll::Ready(true)
        })
    }

    /// Nobody waits for now: a task that looks at everything before it waits again isn't to be woken by itself. It keeps
    /// the waker of a thread that writes.
    #[cfg(feature = "tokio")]
    pub(crate) fn forget_waker(&self, waker: &Waker) {
        self.change(|state| {
            for it in [&mut state.writer, &mut state.reader, &mut state.taker] {
                *it = it.take().filter(|it| !it.will_wake(waker));
            }
        });
    }

    /// Ready once nothing more is to be written, where somebody else writes.
    #[cfg(feature = "tokio")]
    pub(crate) fn poll_done(&self, waker: &Waker) -> Poll<()> {
        self.change(|state| {
            if state.is_over() {
                return Poll::Ready(());
            }
            state.taker = Some(waker.clone());
            Poll::Pending
        })
    }

    /// Drops what came and wasn't taken, so that it is answered.
    pub(crate) fn drop_messages(&self) {
        let left = self.change(|state| take(&mut state.queue));
        drop(left);
    }

    fn heard(self: &Arc<Self>, state: &mut State, event: Event) -> Option<Incoming> {
        match event {
            Event::Request { number, method, params, .. } => {
                let token = CancelToken::default();
                state.open.insert(number, Open { token: token.clone(), keys: Vec::new() });
                let responder = Responder::new(Arc::clone(self), number, token);
                return Some(Incoming::Request(Request { method, params, responder }));
            }
            Event::Notification { number, method, params } => {
                let open = OpenNotification { session: Arc::clone(self), number };
                return Some(Incoming::Notification(Notification { method, params, _open: open }));
            }
            Event::Cancelled { number } => {
                if let Some(open) = state.open.get(&number) {
                    let woken = open.token.cancel();
                    state.woken.extend(woken);
                }
            }
            Event::Replied { key, reply } => state.fill(key, reply.map_err(CallError::Response)),
            Event::Unanswered { key } => {
                let end = state.end_by(Close::Clean);
                state.fill(key, Err(CallError::Closed(Some(end))));
            }
            Event::Over(reason) => state.finish(reason),
            Event::Broken { .. } => {}
        }
        None
    }

    /// Moves what is to be written to the end of some bytes. It is pending where there is nothing now, and then the
    /// waker is told; and ready with `false` where nothing will be any more.
    pub(crate) fn poll_output(&self, waker: &Waker, into: &mut Vec<u8>) -> Poll<bool> {
        self.change(|state| {
            let begun = into.len();
            state.connection.take_into(into);
            if into.len() > begun {
                return Poll::Ready(true);
            }
            if state.is_over() {
                return Poll::Ready(false);
            }
            state.writer = Some(waker.clone());
            Poll::Pending
        })
    }

    /// Whether more may be read: it is pending while much waits to be written or taken, unless a request of ours waits
    /// for its response, which may be behind that.
    pub(crate) fn poll_reading(&self, waker: &Waker) -> Poll<()> {
        self.change(|state| {
            if state.may_read() {
                return Poll::Ready(());
            }
            state.reader = Some(waker.clone());
            Poll::Pending
        })
    }

    // What is said

    pub(crate) fn answer(&self, number: u64, result: Json<'_>) -> Result<(), Refusal> {
        self.change(|state| {
            state.connection.answer(number, result)?;
            state.settle(number);
            Ok(())
        })
    }

    pub(crate) fn fail(&self, number: u64, code: i64, message: &str, data: Json<'_>) {
        self.change(|state| {
            if state.connection.fail(number, code, message, data) == Err(Refusal::NotJson) {
                state.ignore_memory(|it| it.fail(number, code, message, None));
            }
            state.settle(number);
        });
    }

    pub(crate) fn cancel(&self, number: u64) {
        self.change(|state| {
            state.ignore_memory(|it| it.cancel(number));
            state.settle(number);
        });
    }

    pub(crate) fn close(&self, number: u64) {
        self.change(|state| state.ignore_memory(|it| it.close(number)));
    }

    pub(crate) fn notify(&self, method: &str, params: Json<'_>) -> Result<(), Refusal> {
        self.change(|state| state.connection.notify(method, params))
    }

    pub(crate) fn call(self: &Arc<Self>, number: u64, method: &str, params: Json<'_>) -> Reply {
        let called = self.change(|state| {
            let key = state.connection.call(number, method, params)?;
            Ok((state.expect(number, key), key))
        });
        match called {
            Ok((slot, key)) => Reply::new(Arc::clone(self), slot, key),
            Err(why) => Reply::refused(Arc::clone(self), why),
        }
    }

    pub(crate) fn call_batch(self: &Arc<Self>, calls: &[Outgoing<'_>]) -> Result<Vec<Reply>, Refusal> {
        let slots: Vec<_> = self.change(|state| {
            let keys = state.connection.call_batch(NOBODY, calls)?;
            Ok(keys.map(|key| (state.expect(NOBODY, key), key)).collect())
        })?;
        Ok(slots.into_iter().map(|(slot, key)| Reply::new(Arc::clone(self), slot, key)).collect())
    }

    pub(crate) fn withdraw(&self, key: u64) {
        self.change(|state| {
            // (refused where the settings have no cancels, and where the response has come)
            if state.connection.withdraw(key).is_ok() && self.is_mcp {
                state.fill(key, Err(CallError::Cancelled));
            }
        });
    }

    /// Nobody waits for this response.
    pub(crate) fn forget(&self, key: u64) {
        self.change(|state| state.calls.remove(&key));
    }

    // The end

    /// Ends the session from this side: what is to be written is, and nothing more is taken in.
    pub(crate) fn stop(self: &Arc<Self>) {
        self.change(|state| {
            state.is_stopped = true;
            state.finish_input(Ended::Closed, None);
            self.take_events(state);
        });
    }

    #[cfg(feature = "tokio")]
    pub(crate) fn is_stopped(&self) -> bool {
        self.change(|state| state.is_closed())
    }

    pub(crate) fn end_of(&self) -> Option<End> {
        self.change(|state| state.end)
    }

    /// How many requests that came are open, and how many of ours wait.
    pub(crate) fn counts(&self) -> (u64, usize) {
        self.change(|state| (state.connection.report().open, state.calls.len()))
    }
}

impl State {
    fn may_read(&self) -> bool {
        let much = self.connection.pending() > MOST_PENDING || self.queue.len() > MOST_QUEUED;
        !much || !self.calls.is_empty() || self.end.is_some()
    }

    fn find_woken(&mut self) {
        if self.writer.is_some() && (self.connection.pending() > 0 || self.is_over()) {
            self.woken.extend(self.writer.take());
        }
        if self.reader.is_some() && self.may_read() {
            self.woken.extend(self.reader.take());
        }
        if self.taker.is_some() && (!self.queue.is_empty() || self.is_over()) {
            self.woken.extend(self.taker.take());
        }
    }

    /// Whether this side has ended the session, or can't write any more.
    fn is_closed(&self) -> bool {
        self.is_broken || self.is_stopped
    }

    fn is_over(&self) -> bool {
        self.is_closed() || self.connection.is_done()
    }

    /// (what was refused as memory ran out may be said again: a few tries, and then nothing can be done)
    fn ignore_memory(&mut self, mut say: impl FnMut(&mut Connection) -> Result<(), Refusal>) {
        for _ in 0..3 {
            if say(&mut self.connection) != Err(Refusal::NoMemory) {
                return;
            }
        }
    }

    fn finish_input(&mut self, how: Ended, error: Option<ErrorKind>) {
        self.error = self.error.or(error);
        // (refused where it was ended before)
        let _ = self.connection.end(how);
    }

    fn end_by(&self, reason: Close) -> End {
        self.end.unwrap_or_else(|| End { reason, place: self.connection.fault_place(), error: self.error })
    }

    fn finish(&mut self, reason: Close) {
        self.end = Some(self.end_by(reason));
        let left: Vec<u64> = self.calls.keys().copied().collect();
        for key in left {
            self.fill(key, Err(CallError::Closed(self.end)));
        }
    }

    fn expect(&mut self, number: u64, key: u64) -> Arc<Slot> {
        let slot = Arc::<Slot>::default();
        self.calls.insert(key, Arc::clone(&slot));
        if let Some(open) = self.open.get_mut(&number) {
            open.keys.push(key);
        }
        slot
    }

    fn fill(&mut self, key: u64, response: Result<String, CallError>) {
        if let Some(slot) = self.calls.remove(&key) {
            self.woken.extend(slot.fill(response));
        }
    }

    /// A request is answered: the responses to what was called on its behalf would be ignored from now on.
    fn settle(&mut self, number: u64) {
        if let Some(open) = self.open.remove(&number) {
            for key in open.keys {
                self.fill(key, Err(CallError::Closed(self.end)));
            }
        }
    }
}
