//! What reads and writes for a session: tokio's streams, or the threads of the standard streams.
use crate::session::Session;
use std::io::{self, ErrorKind};
use std::pin::Pin;
use std::sync::mpsc::Receiver;
use std::sync::Arc;
use std::task::{Context, Poll};
use std::time::Duration;
use tokio::io::{AsyncRead, AsyncWrite, ReadBuf};

/// How many bytes are read at once.
const READ: usize = 1 << 16;
/// How long the end of a session waits until the thread has written.
const PATIENCE: Duration = Duration::from_secs(1);

/// What reads and writes.
pub(super) trait Streams: Send + Unpin {
    /// Reads once: ready where something came, or the input is over. It isn't asked again after that.
    fn poll_read(&mut self, session: &Arc<Session>, context: &mut Context<'_>) -> Poll<()>;
    /// Writes what there is: ready once nothing more will come.
    fn poll_write(&mut self, session: &Arc<Session>, context: &mut Context<'_>) -> Poll<()>;
}

pub(super) struct Pair<R, W> {
    reader: R,
    writer: W,
    input: Box<[u8]>,
    output: Vec<u8>,
    written: usize,
    is_flushed: bool,
}

impl<R, W> Pair<R, W> {
    pub(super) fn new(reader: R, writer: W) -> Self {
        let input = vec![0; READ].into_boxed_slice();
        Pair { reader, writer, input, output: Vec::new(), written: 0, is_flushed: true }
    }
}

impl<R: AsyncRead + Send + Unpin, W: AsyncWrite + Send + Unpin> Pair<R, W> {
    /// Writes what was taken from the session.
    fn poll_taken(&mut self, context: &mut Context<'_>) -> Poll<io::Result<()>> {
        while self.written < self.output.len() {
            let writing = Pin::new(&mut self.writer).poll_write(context, &self.output[self.written..]);
            match writing {
                Poll::Pending => return Poll::Pending,
                Poll::Ready(Ok(0)) => return Poll::Ready(Err(ErrorKind::WriteZero.into())),
                Poll::Ready(Ok(count)) => self.written += count,
                Poll::Ready(Err(why)) if why.kind() == ErrorKind::Interrupted => {}
                Poll::Ready(Err(why)) => return Poll::Ready(Err(why)),
            }
            self.is_flushed = false;
        }
        self.output.clear();
        self.written = 0;
        Poll::Ready(Ok(()))
    }

    fn poll_flush(&mut self, context: &mut Context<'_>) -> Poll<io::Result<()>> {
        if self.is_flushed {
            return Poll::Ready(Ok(()));
        }
        let flushing = Pin::new(&mut self.writer).poll_flush(context);
        self.is_flushed = flushing.is_ready();
        flushing
    }
}

impl<R: AsyncRead + Send + Unpin, W: AsyncWrite + Send + Unpin> Streams for Pair<R, W> {
    fn poll_read(&mut self, session: &Arc<Session>, context: &mut Context<'_>) -> Poll<()> {
        if session.poll_reading(context.waker()).is_pending() {
            return Poll::Pending;
        }
        let mut room = ReadBuf::new(&mut self.input);
        match Pin::new(&mut self.reader).poll_read(context, &mut room) {
            Poll::Pending => return Poll::Pending,
            Poll::Ready(Ok(())) if room.filled().is_empty() => session.end(None),
            Poll::Ready(Ok(())) => session.hear(room.filled()),
            Poll::Ready(Err(why)) if why.kind() == ErrorKind::Interrupted => {}
            Poll::Ready(Err(why)) => session.end(Some(why.kind())),
        }
        Poll::Ready(())
    }

    fn poll_write(&mut self, session: &Arc<Session>, context: &mut Context<'_>) -> Poll<()> {
        loop {
            match self.poll_taken(context) {
                Poll::Pending => return Poll::Pending,
                Poll::Ready(Err(why)) => {
                    session.break_output(why.kind());
                    return Poll::Ready(());
                }
                Poll::Ready(Ok(())) => {}
            }
            let is_done = match session.poll_output(context.waker(), &mut self.output) {
                Poll::Ready(true) => continue,
                Poll::Ready(false) => true,
                Poll::Pending => false,
            };
            return match self.poll_flush(context) {
                Poll::Ready(Err(why)) => {
                    session.break_output(why.kind());
                    Poll::Ready(())
                }
                Poll::Ready(Ok(())) if is_done => Poll::Ready(()),
                _ => Poll::Pending,
            };
        }
    }
}

/// The threads of [`crate::streams`], which read and write by themselves.
pub(super) struct Threads(pub(super) Receiver<()>);

impl Streams for Threads {
    fn poll_read(&mut self, _: &Arc<Session>, _: &mut Context<'_>) -> Poll<()> {
        Poll::Pending
    }

    fn poll_write(&mut self, session: &Arc<Session>, context: &mut Context<'_>) -> Poll<()> {
        if session.poll_done(context.waker()).is_pending() {
            return Poll::Pending;
        }
        // (everything is with the thread, which writes it now)
        let _ = self.0.recv_timeout(PATIENCE);
        Poll::Ready(())
    }
}
