use crate::event::lent;
use crate::{sys, Event, EventRef, Json, Outgoing, Refusal, Report, Sayings, Settings};
use std::fmt::{self, Debug, Formatter};
use std::io::{self, ErrorKind, Write};
use std::mem::MaybeUninit;
use std::ops::Range;
use std::ptr::{null, null_mut};

/// The number of nobody: a call on behalf of it is your own.
pub const NOBODY: u64 = 0;

/// How the input ended.
#[derive(Clone, Copy, Debug, PartialEq, Eq, Hash)]
pub enum Ended {
    /// The other side closed it.
    Closed,
    /// A read failed.
    ReadFailed,
}

/// One end of a JSON-RPC 2.0 conversation, without input and output, threads or a clock.
///
/// Feed it the bytes that you have read, ask it for events, answer and call, and write the bytes that are to be
/// written, in whatever order you like. A call that gives a [`Refusal`] has changed nothing.
///
/// What you pass is copied within the call. A connection may go to another thread ([`Send`]). It isn't [`Sync`], since
/// it takes one call at a time: share it in a `Mutex`.
///
/// ```compile_fail
/// fn is_sync<T: Sync>() {}
/// is_sync::<bullmyrtle::Connection>();
/// ```
pub struct Connection {
    handle: sys::bm_connection,
}

// SAFETY: connections share no data, and any thread may make the calls of one, one at a time. That is so here, since a
// `Connection` isn't `Sync`.
unsafe impl Send for Connection {}

// SAFETY of the calls below: the handle is that of a connection which `bm_open` has made and only `drop` frees. Each
// pointer to bytes comes with their length, and isn't null, since slices have no null. What a call writes to is
// borrowed for it alone. The library keeps no pointer. What it lends is borrowed as long as no call can end the loan.

impl Connection {
    /// Makes a connection.
    ///
    /// # Errors
    ///
    /// [`Refusal::Settings`], [`Refusal::NoMemory`].
    ///
    /// # Panics
    ///
    /// Where the library that was linked has another interface than this crate is for.
    pub fn new(settings: Settings) -> Result<Self, Refusal> {
        let found = unsafe { sys::bm_interface() };
        assert_eq!(found, sys::BM_INTERFACE, "the library has another interface");
        let (given, mut at) = (settings.in_c()?, null_mut());
        Refusal::check(unsafe { sys::bm_open(&given, &mut at) })?;
        Ok(Connection { handle: sys::bm_connection { at } })
    }

    /// (A copy of the struct is the same connection.)
    fn handle(&self) -> sys::bm_connection {
        self.handle
    }

    /// Gives bytes of the input, cut as they were read.
    ///
    /// With [`Framing::Contents`](crate::Framing::Contents) each call gives one content. After a fault of the input
    /// bytes are accepted and ignored.
    ///
    /// # Errors
    ///
    /// [`Refusal::Over`] where the input was ended by [`end`](Self::end), [`Refusal::NoMemory`].
    pub fn feed(&mut self, bytes: &[u8]) -> Result<(), Refusal> {
        Refusal::check(unsafe { sys::bm_feed(&mut self.handle, bytes.as_ptr(), bytes.len()) })
    }

    /// Says how the input ended. Once all that came before has been told, the calls that wait are told as
    /// [`Event::Unanswered`], and then comes [`Event::Over`].
    ///
    /// # Errors
    ///
    /// [`Refusal::Over`] where it was ended before.
    pub fn end(&mut self, how: Ended) -> Result<(), Refusal> {
        let how = match how {
            Ended::Closed => sys::BM_CLOSED,
            Ended::ReadFailed => sys::BM_READ_FAILED,
        };
        Refusal::check(unsafe { sys::bm_end(&mut self.handle, how) })
    }

    /// Where the bytes that were fed are at fault: how many stand before the frame or line at fault, or with
    /// [`Framing::Contents`](crate::Framing::Contents) before the content that is too long. There is none where nothing is
    /// at fault. Which fault it is tells [`Event::Over`] once what came before has been told.
    ///
    /// ```
    /// use bullmyrtle::{Close, Connection, Event, Settings};
    ///
    /// let mut connection = Connection::new(Settings::new())?;
    /// connection.feed(b"Content-Length: 2\r\n\r\n[]no head\r\n\r\n")?;
    /// assert_eq!(connection.fault_place(), Some(23));
    /// assert_eq!(connection.next_event()?, Some(Event::Over(Close::BadHead)));
    /// # Ok::<(), bullmyrtle::Refusal>(())
    /// ```
    #[must_use]
    pub fn fault_place(&self) -> Option<u64> {
        let mut place = 0;
        unsafe { sys::bm_fault_at(&mut self.handle(), &mut place) }.then_some(place)
    }

    /// The next event, where there is one now. Ask until there is none, after each [`feed`](Self::feed) and after
    /// [`end`](Self::end), even if you expect none: broken input is answered as it is gone past here.
    ///
    /// ```
    /// use bullmyrtle::{Connection, Event, Framing, Settings};
    ///
    /// let mut connection = Connection::new(Settings::new().framing(Framing::Lines))?;
    /// connection.feed(b"{\"jsonrpc\":\"2.0\",\"method\":\"ping\",\"id\":1}\n")?;
    /// while let Some(event) = connection.next_event()? {
    ///     match event {
    ///         Event::Request { number, .. } => connection.answer(number, r#""pong""#)?,
    ///         Event::Notification { number, .. } => connection.close(number)?,
    ///         _ => {}
    ///     }
    /// }
    /// assert_eq!(connection.take_bytes(), b"{\"id\":1,\"jsonrpc\":\"2.0\",\"result\":\"pong\"}\n");
    /// # Ok::<(), bullmyrtle::Refusal>(())
    /// ```
    ///
    /// # Errors
    ///
    /// [`Refusal::NoMemory`]. The event comes again.
    pub fn next_event(&mut self) -> Result<Option<Event>, Refusal> {
        Ok(self.next_event_ref()?.map(EventRef::to_owned))
    }

    /// The next event as [`next_event`](Self::next_event) gives it, with texts that the connection lends: nothing is
    /// copied. It borrows the connection, so be done with its texts before you answer, as where params are read at
    /// once.
    ///
    /// ```
    /// use bullmyrtle::{Connection, EventRef, Framing, Settings};
    ///
    /// let mut connection = Connection::new(Settings::new().framing(Framing::Lines))?;
    /// connection.feed(b"{\"jsonrpc\":\"2.0\",\"method\":\"length\",\"params\":[1.50],\"id\":1}\n")?;
    /// while let Some(event) = connection.next_event_ref()? {
    ///     match event {
    ///         EventRef::Request { number, params, .. } => {
    ///             let result = params.unwrap_or("").len().to_string();
    ///             connection.answer(number, &result)?;
    ///         }
    ///         EventRef::Notification { number, .. } => connection.close(number)?,
    ///         _ => {}
    ///     }
    /// }
    /// assert_eq!(connection.take_bytes(), b"{\"id\":1,\"jsonrpc\":\"2.0\",\"result\":6}\n");
    /// # Ok::<(), bullmyrtle::Refusal>(())
    /// ```
    ///
    /// # Errors
    ///
    /// [`Refusal::NoMemory`]. The event comes again.
    pub fn next_event_ref(&mut self) -> Result<Option<EventRef<'_>>, Refusal> {
        let mut told = MaybeUninit::uninit();
        Refusal::check(unsafe { sys::bm_next(&mut self.handle, told.as_mut_ptr()) })?;
        // SAFETY: a call that succeeds writes all of the event, and only calls on the connection, which is borrowed,
        // end the loan of its texts.
        Ok(unsafe { EventRef::read(&told.assume_init()) })
    }

    /// All events that there are now: [`next_event`](Self::next_event) until there is none. All that has come is then
    /// open at once, so a host that works on one event at a time holds less by `next_event`.
    ///
    /// ```
    /// # let mut connection = bullmyrtle::Connection::new(bullmyrtle::Settings::new())?;
    /// let key = connection.call(bullmyrtle::NOBODY, "a", None)?;
    /// connection.end(bullmyrtle::Ended::Closed)?;
    /// let events = connection.events()?;
    /// assert_eq!(events[0], bullmyrtle::Event::Unanswered { key });
    /// assert_eq!(events.len(), 2);
    /// # Ok::<(), bullmyrtle::Refusal>(())
    /// ```
    ///
    /// # Errors
    ///
    /// [`Refusal::NoMemory`], where no event could be had. Those that are left come with the next call.
    pub fn events(&mut self) -> Result<Vec<Event>, Refusal> {
        let mut told = Vec::new();
        loop {
            match self.next_event() {
                Ok(Some(event)) => told.push(event),
                Err(why) if told.is_empty() => return Err(why),
                Ok(None) | Err(_) => return Ok(told),
            }
        }
    }

    /// Says all of these things, one after the other and each by itself. What came of each is told by the sayings, to
    /// which nothing more is to be added before they are [cleared](crate::Sayings::clear).
    ///
    /// ```
    /// use bullmyrtle::{Connection, EventRef, Framing, Sayings, Settings};
    ///
    /// let mut connection = Connection::new(Settings::new().framing(Framing::Lines))?;
    /// let mut sayings = Sayings::new();
    /// connection.feed(b"{\"jsonrpc\":\"2.0\",\"method\":\"echo\",\"params\":[7],\"id\":1}\n")?;
    /// while let Some(event) = connection.next_event_ref()? {
    ///     match event {
    ///         EventRef::Request { number, params, .. } => sayings.answer(number, params.unwrap_or("null")),
    ///         EventRef::Notification { number, .. } => sayings.close(number),
    ///         _ => {}
    ///     }
    /// }
    /// connection.say_all(&mut sayings);
    /// assert_eq!(sayings.refused(), 0);
    /// assert_eq!(connection.take_bytes(), b"{\"id\":1,\"jsonrpc\":\"2.0\",\"result\":[7]}\n");
    /// # Ok::<(), bullmyrtle::Refusal>(())
    /// ```
    pub fn say_all(&mut self, sayings: &mut Sayings) {
        sayings.say(&mut self.handle);
    }

    /// Calls the other side, on behalf of the open call `number` or of [`NOBODY`], and gives the key under which the
    /// reply is told. Replies to calls of a number that is answered are ignored.
    ///
    /// ```
    /// use bullmyrtle::{Connection, Event, Framing, Settings, NOBODY};
    ///
    /// let mut connection = Connection::new(Settings::new().framing(Framing::Lines))?;
    /// let key = connection.call(NOBODY, "add", "[1,2]")?;
    /// assert_eq!(connection.take_bytes(), b"{\"id\":1,\"jsonrpc\":\"2.0\",\"method\":\"add\",\"params\":[1,2]}\n");
    /// connection.feed(b"{\"jsonrpc\":\"2.0\",\"id\":1,\"result\":3}\n")?;
    /// assert_eq!(connection.next_event()?, Some(Event::Replied { key, reply: Ok("3".into()) }));
    /// # Ok::<(), bullmyrtle::Refusal>(())
    /// ```
    ///
    /// # Errors
    ///
    /// [`Refusal::NotOpen`], [`Refusal::NotText`], [`Refusal::NotJson`], [`Refusal::Over`], [`Refusal::Full`],
    /// [`Refusal::NoMemory`].
    pub fn call<'a>(
        &mut self,
        number: u64,
        method: impl AsRef<[u8]>,
        params: impl Into<Json<'a>>,
    ) -> Result<u64, Refusal> {
        let (method, params, mut key) = (method.as_ref(), params.into().bytes(), 0);
        let (at, length) = (method.as_ptr(), method.len());
        Refusal::check(unsafe {
            sys::bm_call(&mut self.handle, number, at, length, params.as_ptr(), params.len(), &mut key)
        })?;
        Ok(key)
    }

    /// Calls the other side several times in one batch, all or nothing, and gives the keys.
    ///
    /// ```
    /// use bullmyrtle::{Connection, Outgoing, Settings, NOBODY};
    ///
    /// let mut connection = Connection::new(Settings::new())?;
    /// let calls = [Outgoing::new("branch", None), Outgoing::new("changes", r#"["main"]"#)];
    /// assert_eq!(connection.call_batch(NOBODY, &calls)?, 1..3);
    /// # Ok::<(), bullmyrtle::Refusal>(())
    /// ```
    ///
    /// # Errors
    ///
    /// [`Refusal::NotOpen`], [`Refusal::NotText`], [`Refusal::NotJson`], [`Refusal::Over`], [`Refusal::Empty`],
    /// [`Refusal::Full`], [`Refusal::NoMemory`].
    pub fn call_batch(&mut self, number: u64, calls: &[Outgoing<'_>]) -> Result<Range<u64>, Refusal> {
        let parts: Vec<&[u8]> = calls.iter().flat_map(|it| [it.method, it.params.bytes()]).collect();
        let lengths: Vec<usize> = parts.iter().map(|it| it.len()).collect();
        let (bytes, mut first) = (parts.concat(), 0);
        let (at, count) = (lengths.as_ptr(), lengths.len());
        Refusal::check(unsafe {
            sys::bm_call_batch(&mut self.handle, number, bytes.as_ptr(), bytes.len(), at, count, &mut first)
        })?;
        Ok(first..first + calls.len() as u64)
    }

    /// Sends a notification, also after the input is over.
    ///
    /// # Errors
    ///
    /// [`Refusal::NotText`], [`Refusal::NotJson`], [`Refusal::NoMemory`].
    pub fn notify<'a>(&mut self, method: impl AsRef<[u8]>, params: impl Into<Json<'a>>) -> Result<(), Refusal> {
        let (method, params) = (method.as_ref(), params.into().bytes());
        let (at, length) = (method.as_ptr(), method.len());
        Refusal::check(unsafe { sys::bm_notify(&mut self.handle, at, length, params.as_ptr(), params.len()) })
    }

    /// Tells the other side that this call of yours isn't wanted any more. It still waits for its reply, which is told.
    ///
    /// # Errors
    ///
    /// [`Refusal::NotWaiting`], [`Refusal::NoMemory`].
    pub fn withdraw(&mut self, key: u64) -> Result<(), Refusal> {
        Refusal::check(unsafe { sys::bm_withdraw(&mut self.handle, key) })
    }

    /// Answers a request with a result. Of a notification nothing is written, and it is closed.
    ///
    /// # Errors
    ///
    /// [`Refusal::NotOpen`], [`Refusal::NotJson`], [`Refusal::NoMemory`].
    pub fn answer<'a>(&mut self, number: u64, result: impl Into<Json<'a>>) -> Result<(), Refusal> {
        let result = result.into().bytes();
        Refusal::check(unsafe { sys::bm_answer(&mut self.handle, number, result.as_ptr(), result.len()) })
    }

    /// Closes a notification: you are done with it. Each call that came is held until it is answered or closed.
    ///
    /// # Errors
    ///
    /// [`Refusal::NotOpen`]; [`Refusal::NotJson`] where it is a request, which wants an answer; [`Refusal::NoMemory`].
    pub fn close(&mut self, number: u64) -> Result<(), Refusal> {
        Refusal::check(unsafe { sys::bm_close_call(&mut self.handle, number) })
    }

    /// Answers a request with an error, or closes a notification.
    ///
    /// # Errors
    ///
    /// [`Refusal::NotOpen`], [`Refusal::NotText`], [`Refusal::NotJson`], [`Refusal::NoMemory`].
    pub fn fail<'a>(
        &mut self,
        number: u64,
        code: i64,
        message: impl AsRef<[u8]>,
        data: impl Into<Json<'a>>,
    ) -> Result<(), Refusal> {
        let (message, data) = (message.as_ref(), data.into().bytes());
        let (at, length) = (message.as_ptr(), message.len());
        Refusal::check(unsafe { sys::bm_fail(&mut self.handle, number, code, at, length, data.as_ptr(), data.len()) })
    }

    /// Answers a request as cancelled (-32800), and first withdraws your calls on its behalf that wait.
    ///
    /// # Errors
    ///
    /// [`Refusal::NotOpen`], [`Refusal::NoMemory`].
    pub fn cancel(&mut self, number: u64) -> Result<(), Refusal> {
        Refusal::check(unsafe { sys::bm_cancel(&mut self.handle, number) })
    }

    /// How many bytes are to be written; with [`Framing::Contents`](crate::Framing::Contents), the length of the next
    /// text. It isn't limited: stop feeding while it is large.
    #[must_use]
    pub fn pending(&self) -> usize {
        unsafe { sys::bm_pending(&mut self.handle()) }
    }

    /// For how many bytes its buffers have room: what is to be written, lent or not, the texts of the event that was
    /// told last, and the next text. Once all is written it is at most 73,728, the block that was lent last and the
    /// texts of that event, whatever was written before. Calls that are open, events that aren't told and input that
    /// isn't whole have memory of their own. With [`Framing::Contents`](crate::Framing::Contents) texts that aren't lent
    /// yet aren't counted.
    ///
    /// ```
    /// # let mut connection = bullmyrtle::Connection::new(bullmyrtle::Settings::new())?;
    /// connection.notify("log", &format!("[\"{}\"]", "x".repeat(4_000_000)))?;
    /// assert!(connection.held() >= connection.pending());
    /// let bytes = connection.take_bytes();
    /// assert!(bytes.len() > 4_000_000 && connection.held() <= 73_728 + 4_096);
    /// # Ok::<(), bullmyrtle::Refusal>(())
    /// ```
    #[must_use]
    pub fn held(&self) -> usize {
        unsafe { sys::bm_held(&mut self.handle()) }
    }

    /// Lends bytes that are to be written, none only where there is nothing. It may be less than
    /// [`pending`](Self::pending): say by [`written`](Self::written) how many of them were written, and ask again. With
    /// [`Framing::Contents`](crate::Framing::Contents) it is the next text.
    ///
    /// ```
    /// # use std::io::Write;
    /// # let mut connection = bullmyrtle::Connection::new(bullmyrtle::Settings::new())?;
    /// # let mut socket = Vec::new();
    /// while !connection.output().is_empty() {
    ///     let count = socket.write(connection.output())?;
    ///     connection.written(count)?;
    /// }
    /// # Ok::<(), Box<dyn std::error::Error>>(())
    /// ```
    #[must_use]
    pub fn output(&self) -> &[u8] {
        let mut at = null();
        // SAFETY: what is lent holds until `written` or `drop`, both of which borrow the connection for themselves.
        unsafe {
            let length = sys::bm_output(&mut self.handle(), &mut at);
            lent(at, length)
        }
    }

    /// Says that the first bytes of the [`output`](Self::output) were written, and how many they are.
    ///
    /// # Errors
    ///
    /// [`Refusal::Settings`] where so many aren't lent, or with [`Framing::Contents`](crate::Framing::Contents) where
    /// it is a part of a text.
    pub fn written(&mut self, count: usize) -> Result<(), Refusal> {
        Refusal::check(unsafe { sys::bm_written(&mut self.handle, count) })
    }

    /// Takes all that is to be written; with [`Framing::Contents`](crate::Framing::Contents) the next text. It is empty
    /// where there is nothing.
    #[must_use]
    pub fn take_bytes(&mut self) -> Vec<u8> {
        let mut bytes = Vec::new();
        self.take_into(&mut bytes);
        bytes
    }

    /// Moves what [`take_bytes`](Self::take_bytes) takes to the end of some bytes.
    pub(crate) fn take_into(&mut self, bytes: &mut Vec<u8>) {
        let end = bytes.len() + self.pending();
        bytes.reserve(end - bytes.len());
        while bytes.len() < end {
            let output = self.output();
            bytes.extend_from_slice(output);
            let count = output.len();
            self.written(count).expect("so many are lent");
        }
    }

    /// Writes all that is to be written, flushes the writer, and gives how many bytes were written.
    ///
    /// What a writer didn't take is kept, and is written by the next call: so a socket that would block loses nothing.
    /// With [`Framing::Contents`](crate::Framing::Contents) each text is one write, and nothing stands between two:
    /// where the writer has no messages either, take each by [`take_bytes`](Self::take_bytes).
    ///
    /// [`Stdout`](std::io::Stdout) is buffered by lines, and so writes a frame's head before its content. A file isn't:
    ///
    /// ```
    /// use std::os::unix::io::AsFd;
    ///
    /// let mut output = std::fs::File::from(std::io::stdout().as_fd().try_clone_to_owned()?);
    /// # let mut connection = bullmyrtle::Connection::new(bullmyrtle::Settings::new())?;
    /// connection.notify("window/logMessage", r#"{"type":3,"message":"ready"}"#)?;
    /// connection.write_to(&mut output)?;
    /// # Ok::<(), Box<dyn std::error::Error>>(())
    /// ```
    ///
    /// # Errors
    ///
    /// Those of the writer. `Interrupted` is tried again. [`ErrorKind::WriteZero`] where it takes nothing, or only a
    /// part of a text of [`Framing::Contents`](crate::Framing::Contents).
    pub fn write_to(&mut self, mut writer: impl Write) -> io::Result<usize> {
        let mut written = 0;
        loop {
            let output = self.output();
            if output.is_empty() {
                writer.flush()?;
                return Ok(written);
            }
            match writer.write(output) {
                Ok(0) => return Err(ErrorKind::WriteZero.into()),
                Ok(count) => {
                    self.written(count).map_err(|_| ErrorKind::WriteZero)?;
                    written += count;
                }
                Err(why) if why.kind() == ErrorKind::Interrupted => {}
                Err(why) => return Err(why),
            }
        }
    }

    /// Whether all is done: the input is over, every event is told, every call that came is answered, every byte
    /// written or taken.
    #[must_use]
    pub fn is_done(&self) -> bool {
        unsafe { sys::bm_is_done(&mut self.handle()) }
    }

    /// What has happened so far.
    #[must_use]
    pub fn report(&self) -> Report {
        let mut report = sys::bm_report::default();
        unsafe { sys::bm_counts(&mut self.handle(), &mut report) };
        report.into()
    }
}

impl Drop for Connection {
    fn drop(&mut self) {
        unsafe { sys::bm_free(self.handle) };
    }
}

impl Debug for Connection {
    fn fmt(&self, formatter: &mut Formatter<'_>) -> fmt::Result {
        formatter.debug_struct("Connection").field("report", &self.report()).finish_non_exhaustive()
    }
}
