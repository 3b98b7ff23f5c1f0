use crate::end::End;
use crate::session::Session;
use crate::{streams, Connection, Incoming, Peer, Refusal, Settings};
use std::fmt::{self, Debug, Formatter};
use std::io::{self, ErrorKind, Read, Write};
use std::ops::Deref;
use std::os::unix::net::UnixStream;
use std::panic::{catch_unwind, AssertUnwindSafe};
use std::sync::mpsc::Receiver;
use std::time::Duration;

/// How long a server that is dropped waits until what is to be written is.
const PATIENCE: Duration = Duration::from_secs(1);

/// An end over two streams, each with a thread, whose messages you take in your own thread, in the order of the stream.
/// It is a [`Peer`], so it calls the other side as well.
///
/// ```
/// use bullmyrtle::{Connection, Incoming, Settings};
///
/// let (server, client) = Connection::memory(Settings::lsp())?;
/// let reply = client.call("add", "[1,2]");
/// if let Some(Incoming::Request(request)) = server.next() {
///     assert_eq!((request.method(), request.params()), ("add", Some("[1,2]")));
///     std::thread::spawn(|| request.answer("3")).join().unwrap()?;
/// }
/// assert_eq!(reply.wait()?, "3");
/// # Ok::<(), Box<dyn std::error::Error>>(())
/// ```
pub struct Server {
    peer: Peer,
    written: Receiver<()>,
}

impl Server {
    /// A language server on the standard streams. What is printed by `println!` goes to the standard error from now on.
    ///
    /// # Errors
    ///
    /// Those of the system.
    pub fn stdio() -> io::Result<Self> {
        Self::stdio_with(Settings::lsp())
    }

    /// A server on the standard streams with other settings, such as [`Settings::mcp`].
    ///
    /// # Errors
    ///
    /// Those of the system, and settings that aren't for streams, as `InvalidInput`.
    pub fn stdio_with(settings: Settings) -> io::Result<Self> {
        let (input, output) = streams::standard()?;
        Self::over(input, output, settings)
    }

    /// An end over any streams. A read that blocks when the session ends keeps its thread until it returns.
    ///
    /// # Errors
    ///
    /// Those of the system, and settings that aren't for streams, as `InvalidInput`.
    pub fn over(
        reader: impl Read + Send + 'static,
        writer: impl Write + Send + 'static,
        settings: Settings,
    ) -> io::Result<Self> {
        let session = Session::new(settings).map_err(refused)?;
        let written = streams::start(&session, reader, writer)?;
        Ok(Server { peer: Peer::new(session), written })
    }

    /// What speaks to the other side. Clone it to have it elsewhere.
    #[must_use]
    pub fn peer(&self) -> &Peer {
        &self.peer
    }

    /// Waits for the next message. There is none once the session has ended.
    #[must_use]
    #[allow(clippy::should_implement_trait)]
    pub fn next(&self) -> Option<Incoming> {
        self.peer.0.next(None)
    }

    /// Waits for it at most so long.
    #[must_use]
    pub fn next_timeout(&self, time: Duration) -> Option<Incoming> {
        self.peer.0.next(Some(time))
    }

    /// Hands each message to the handler until the session ends, and waits until everything is answered and written. If
    /// the handler panics, its request is answered by -32603, and the next message comes all the same.
    pub fn serve(self, mut handler: impl FnMut(Incoming)) -> End {
        while let Some(incoming) = self.next() {
            // (what the handler leaves behind where it panics is its own to mind, as with threads)
            let _ = catch_unwind(AssertUnwindSafe(|| handler(incoming)));
        }
        self.finish()
    }

    /// Waits until the input has ended, every request is answered and everything is written, or a write has failed.
    /// Messages that nobody has taken are dropped, and so answered with an error.
    pub fn finish(self) -> End {
        while self.next().is_some() {}
        self.peer.0.drop_messages();
        let _ = self.written.recv();
        self.peer.end().expect("the writer has ended after the input")
    }
}

impl Deref for Server {
    type Target = Peer;

    fn deref(&self) -> &Peer {
        &self.peer
    }
}

impl Drop for Server {
    /// Ends the session, and waits a moment until what is to be written is.
    fn drop(&mut self) {
        self.peer.0.drop_messages();
        self.peer.stop();
        self.peer.0.drop_messages();
        let _ = self.written.recv_timeout(PATIENCE);
    }
}

impl<'a> IntoIterator for &'a Server {
    type Item = Incoming;
    type IntoIter = Messages<'a>;

    fn into_iter(self) -> Messages<'a> {
        Messages(self)
    }
}

/// The messages of a [`Server`], until the session ends.
#[derive(Debug)]
pub struct Messages<'a>(&'a Server);

impl Iterator for Messages<'_> {
    type Item = Incoming;

    fn next(&mut self) -> Option<Incoming> {
        self.0.next()
    }
}

impl Debug for Server {
    fn fmt(&self, formatter: &mut Formatter<'_>) -> fmt::Result {
        formatter.debug_struct("Server").field("peer", &self.peer).finish_non_exhaustive()
    }
}

impl Connection {
    /// Two ends that are joined, for tests.
    ///
    /// # Errors
    ///
    /// As [`Server::over`].
    pub fn memory(settings: Settings) -> io::Result<(Server, Server)> {
        let (one, other) = UnixStream::pair()?;
        let one = Server::over(one.try_clone()?, Closing(one), settings)?;
        Ok((one, Server::over(other.try_clone()?, Closing(other), settings)?))
    }
}

/// The writing half of a socket, which ends with its writer.
pub(crate) struct Closing(pub(crate) UnixStream);

impl Write for Closing {
    fn write(&mut self, bytes: &[u8]) -> io::Result<usize> {
        self.0.write(bytes)
    }

    fn flush(&mut self) -> io::Result<()> {
        self.0.flush()
    }
}

impl Drop for Closing {
    fn drop(&mut self) {
        let _ = self.0.shutdown(std::net::Shutdown::Both);
    }
}

pub(crate) fn refused(why: Refusal) -> io::Error {
    let kind = if why == Refusal::NoMemory { ErrorKind::OutOfMemory } else { ErrorKind::InvalidInput };
    io::Error::new(kind, why)
}
