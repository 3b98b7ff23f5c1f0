//! The two threads of an end: one reads, one writes.
use crate::session::Session;
use std::fs::File;
use std::io::{self, ErrorKind, Read, Write};
use std::os::raw::c_int;
use std::os::unix::io::{AsFd, AsRawFd};
use std::sync::mpsc::{self, Receiver};
use std::sync::Arc;
use std::task::{Poll, Wake, Waker};
use std::thread::{self, Thread};

/// How many bytes are read at once.
const READ: usize = 1 << 16;

/// Wakes a thread that is parked.
struct Unpark(Thread);

impl Wake for Unpark {
    fn wake(self: Arc<Self>) {
        self.0.unpark();
    }
}

fn waker() -> Waker {
    Waker::from(Arc::new(Unpark(thread::current())))
}

/// Starts the threads, and gives what tells that the writer has ended.
pub(crate) fn start(
    session: &Arc<Session>,
    reader: impl Read + Send + 'static,
    writer: impl Write + Send + 'static,
) -> io::Result<Receiver<()>> {
    let (done, ended) = mpsc::channel();
    let (of_reader, of_writer) = (Arc::clone(session), Arc::clone(session));
    let named = |name: &str| thread::Builder::new().name(name.into());
    named("bullmyrtle reader").spawn(move || read_all(&of_reader, reader))?;
    let writing = named("bullmyrtle writer").spawn(move || {
        write_all(&of_writer, writer);
        drop(done);
    });
    if let Err(error) = writing {
        session.break_output(error.kind());
        return Err(error);
    }
    Ok(ended)
}

/// Ends the input where the thread ends without that: the reader has panicked.
struct EndsInput<'a>(&'a Arc<Session>);

impl Drop for EndsInput<'_> {
    fn drop(&mut self) {
        self.0.end(Some(ErrorKind::Other));
    }
}

fn read_all(session: &Arc<Session>, mut reader: impl Read) {
    let _guard = EndsInput(session);
    let (waker, mut bytes) = (waker(), vec![0; READ]);
    while session.end_of().is_none() {
        if session.poll_reading(&waker).is_pending() {
            thread::park();
            continue;
        }
        match reader.read(&mut bytes) {
            Ok(0) => session.end(None),
            Ok(count) => session.hear(&bytes[..count]),
            Err(why) if why.kind() == ErrorKind::Interrupted => {}
            Err(why) => session.end(Some(why.kind())),
        }
    }
}

/// Breaks the output where the thread ends without that: the writer has panicked.
struct BreaksOutput<'a>(&'a Arc<Session>);

impl Drop for BreaksOutput<'_> {
    fn drop(&mut self) {
        if thread::panicking() {
            self.0.break_output(ErrorKind::Other);
        }
    }
}

fn write_all(session: &Arc<Session>, mut writer: impl Write) {
    let _guard = BreaksOutput(session);
    let (waker, mut bytes) = (waker(), Vec::new());
    loop {
        match session.poll_output(&waker, &mut bytes) {
            Poll::Pending => thread::park(),
            Poll::Ready(false) => return,
            Poll::Ready(true) => {
                if let Err(why) = writer.write_all(&bytes).and_then(|()| writer.flush()) {
                    return session.break_output(why.kind());
                }
                bytes.clear();
            }
        }
    }
}

extern "C" {
    fn dup2(from: c_int, to: c_int) -> c_int;
}

/// The standard streams, of which this process keeps the output for itself: what is printed by `println!` goes to the
/// standard error from now on, since it would break the stream.
pub(crate) fn standard() -> io::Result<(io::Stdin, File)> {
    // (`Stdout` is buffered by lines, and would cut a frame into two writes)
    let output = File::from(io::stdout().as_fd().try_clone_to_owned()?);
    // SAFETY: both are open descriptors of this process, and nothing is owned by the number of the first.
    if unsafe { dup2(io::stderr().as_raw_fd(), io::stdout().as_raw_fd()) } < 0 {
        return Err(io::Error::last_os_error());
    }
    Ok((io::stdin(), output))
}
