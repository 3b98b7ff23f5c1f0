use super::call::{Answer, Call};
use super::serving::serve;
use crate::server::refused;
use crate::{End, ErrorObject, Peer, Settings};
use std::fmt::{self, Debug, Formatter};
use std::io;
use std::ops::Deref;
use std::process::{ExitStatus, Stdio};
use std::time::Duration;
use tokio::process::{Child, Command};
use tokio::task::JoinHandle;
use tower_service::Service;

/// A server that was started, and the end that speaks to it. It is a [`Peer`], whose calls are futures. Where it is
/// dropped, the server is killed.
///
/// ```no_run
/// use bullmyrtle::tasks::{Client, Router};
/// use bullmyrtle::Settings;
/// use std::time::Duration;
/// use tokio::process::Command;
///
/// # #[tokio::main(flavor = "current_thread")]
/// # async fn main() -> Result<(), Box<dyn std::error::Error>> {
/// let mut clangd = Client::spawn(&mut Command::new("clangd"), Settings::lsp(), Router::new(()))?;
/// let about = clangd.call("initialize", r#"{"processId":null,"rootUri":null,"capabilities":{}}"#).await?;
/// println!("{about}");
/// clangd.call("shutdown", None).await?;
/// clangd.notify("exit", None)?;
/// assert!(clangd.close(Duration::from_secs(5)).await?.success());
/// # Ok(())
/// # }
/// ```
pub struct Client {
    peer: Peer,
    child: Child,
    serving: JoinHandle<End>,
}

impl Client {
    /// Starts a server, whose own messages go to a service, such as a [`Router`](super::Router).
    ///
    /// # Errors
    ///
    /// Those of the system, and settings that aren't for streams, as `InvalidInput`.
    ///
    /// # Panics
    ///
    /// Outside of a runtime of tokio.
    pub fn spawn<S>(command: &mut Command, settings: Settings, service: S) -> io::Result<Self>
    where
        S: Service<Call, Response = Answer> + Send + 'static,
        S::Error: Into<ErrorObject>,
        S::Future: Send + 'static,
    {
        let mut child = command.stdin(Stdio::piped()).stdout(Stdio::piped()).kill_on_drop(true).spawn()?;
        let (output, input) = (child.stdout.take().expect("it is piped"), child.stdin.take().expect("it is piped"));
        let serving = serve(service, output, input, settings).map_err(refused)?;
        Ok(Client { peer: serving.peer(), child, serving: tokio::spawn(serving) })
    }

    /// Closes the server's input, waits until it has ended, and kills it where it takes longer than this.
    ///
    /// # Errors
    ///
    /// Those of the system.
    pub async fn close(&mut self, time: Duration) -> io::Result<ExitStatus> {
        self.peer.stop();
        // (the input is closed when the session is dropped, which writes what is left first)
        let _ = tokio::time::timeout(time, &mut self.serving).await;
        self.serving.abort();
        match tokio::time::timeout(time, self.child.wait()).await {
            Ok(status) => status,
            Err(_) => {
                self.child.start_kill()?;
                self.child.wait().await
            }
        }
    }
}

impl Deref for Client {
    type Target = Peer;

    fn deref(&self) -> &Peer {
        &self.peer
    }
}

impl Drop for Client {
    fn drop(&mut self) {
        self.serving.abort();
    }
}

impl Debug for Client {
    fn fmt(&self, formatter: &mut Formatter<'_>) -> fmt::Result {
        formatter.debug_struct("Client").field("id", &self.child.id()).finish_non_exhaustive()
    }
}
