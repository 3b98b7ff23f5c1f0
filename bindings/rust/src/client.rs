use crate::end::End;
use crate::{Incoming, Peer, Server, Settings};
use std::fmt::{self, Debug, Formatter};
use std::io::{self, ErrorKind};
use std::ops::Deref;
use std::process::{Child, Command, ExitStatus, Stdio};
use std::thread::{self, JoinHandle};
use std::time::{Duration, Instant};

/// How long a server that is dropped may take to end.
const PATIENCE: Duration = Duration::from_secs(2);

/// A server that was started, and the end that speaks to it. It is a [`Peer`]: call and notify by it.
///
/// ```no_run
/// use bullmyrtle::Client;
/// use std::process::Command;
/// use std::time::Duration;
///
/// let mut clangd = Client::spawn(Command::new("clangd").arg("--log=error"))?;
/// let about = clangd.call("initialize", r#"{"processId":null,"rootUri":null,"capabilities":{}}"#).wait()?;
/// println!("{about}");
/// clangd.call("shutdown", None).wait()?;
/// clangd.notify("exit", None)?;
/// assert!(clangd.close(Duration::from_secs(5))?.success());
/// # Ok::<(), Box<dyn std::error::Error>>(())
/// ```
pub struct Client {
    peer: Peer,
    child: Child,
    handling: Option<JoinHandle<End>>,
}

impl Client {
    /// Starts a language server. What it asks is refused by -32601.
    ///
    /// # Errors
    ///
    /// Those of the system.
    pub fn spawn(command: &mut Command) -> io::Result<Self> {
        Self::spawn_with(command, Settings::lsp(), Incoming::refuse)
    }

    /// Starts a server with other settings, and with what handles its messages, in a thread and in their order.
    ///
    /// # Errors
    ///
    /// Those of the system, and settings that aren't for streams, as `InvalidInput`.
    pub fn spawn_with(
        command: &mut Command,
        settings: Settings,
        handler: impl FnMut(Incoming) + Send + 'static,
    ) -> io::Result<Self> {
        let mut child = command.stdin(Stdio::piped()).stdout(Stdio::piped()).spawn()?;
        let (output, input) = (child.stdout.take().expect("it is piped"), child.stdin.take().expect("it is piped"));
        let started = Server::over(output, input, settings).and_then(|server| {
            let peer = server.peer().clone();
            let handling = thread::Builder::new().name("bullmyrtle client".into());
            let handling = handling.spawn(move || server.serve(handler))?;
            Ok((peer, handling))
        });
        match started {
            Ok((peer, handling)) => Ok(Client { peer, child, handling: Some(handling) }),
            Err(why) => {
                end(&mut child, Duration::ZERO)?;
                Err(why)
            }
        }
    }

    /// The server's process.
    #[must_use]
    pub fn id(&self) -> u32 {
        self.child.id()
    }

    /// Closes the server's input, waits until it has ended, and ends it where it takes longer than this.
    ///
    /// # Errors
    ///
    /// Those of the system.
    pub fn close(&mut self, time: Duration) -> io::Result<ExitStatus> {
        self.peer.stop();
        let status = end(&mut self.child, time)?;
        if let Some(handling) = self.handling.take() {
            let _ = handling.join();
        }
        Ok(status)
    }
}

/// Waits so long until a process has ended, and ends it then. (The standard library can't wait for a time.)
fn end(child: &mut Child, time: Duration) -> io::Result<ExitStatus> {
    let (until, mut pause) = (Instant::now() + time, Duration::from_micros(100));
    while Instant::now() < until {
        if let Some(status) = child.try_wait()? {
            return Ok(status);
        }
        thread::sleep(pause);
        pause = (pause * 2).min(Duration::from_millis(20));
    }
    match child.kill() {
        Err(why) if why.kind() != ErrorKind::InvalidInput => Err(why),
        _ => child.wait(),
    }
}

impl Deref for Client {
    type Target = Peer;

    fn deref(&self) -> &Peer {
        &self.peer
    }
}

impl Drop for Client {
    fn drop(&mut self) {
        if self.handling.is_some() {
            let _ = self.close(PATIENCE);
        }
    }
}

impl Debug for Client {
    fn fmt(&self, formatter: &mut Formatter<'_>) -> fmt::Result {
        formatter.debug_struct("Client").field("id", &self.id()).field("peer", &self.peer).finish_non_exhaustive()
    }
}
