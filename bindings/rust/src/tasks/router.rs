use super::call::{About, Answer, Boxed, Call, Outcome};
use super::serving::serve_stdio;
use crate::incoming::codes::{METHOD_NOT_FOUND, REQUEST_FAILED};
use crate::life::{Life, Verdict};
use crate::typed::{params_of, written};
use crate::{CancelToken, ErrorObject, Json, Peer, Reply, Settings};
use serde::de::DeserializeOwned;
use serde::Serialize;
use std::collections::HashMap;
use std::fmt::{self, Debug, Formatter};
use std::future::Future;
use std::io;
use std::ops::Deref;
use std::process::ExitCode;
use std::sync::{Arc, Mutex, MutexGuard, PoisonError};
use std::task::{self, Poll};
use std::time::Duration;
use tower_service::Service;

/// What a handler gets beside its params: the state, the other side, and whether the request is cancelled. It derefs to
/// the state.
#[derive(Clone)]
pub struct Context<S> {
    /// The router's state, or a clone of it.
    pub state: S,
    about: About,
}

impl<S> Context<S> {
    /// The end that the call came to, for what isn't on a request's behalf.
    #[must_use]
    pub fn peer(&self) -> Peer {
        self.about.peer()
    }

    /// Calls the other side on the request's behalf: if that is answered or cancelled first, the call is over too.
    pub fn call<'a>(&self, method: &str, params: impl Into<Json<'a>>) -> Reply {
        self.about.call(method, params)
    }

    /// Whether the request is cancelled; `None` of a notification. It is of use where a cancel doesn't drop the handler.
    #[must_use]
    pub fn token(&self) -> Option<&CancelToken> {
        self.about.token.as_ref()
    }
}

impl<S> Deref for Context<S> {
    type Target = S;

    fn deref(&self) -> &S {
        &self.state
    }
}

impl<S: Debug> Debug for Context<S> {
    fn fmt(&self, formatter: &mut Formatter<'_>) -> fmt::Result {
        formatter.debug_struct("Context").field("state", &self.state).finish_non_exhaustive()
    }
}

type Handler<S> = Box<dyn Fn(Context<S>, Option<String>) -> Boxed<Outcome> + Send>;

struct Method<S> {
    handler: Handler<S>,
    is_request: bool,
}

/// Methods by their names, as async functions that share a state, which is cloned for each call: an `Arc`, or a struct of
/// such. Routers are built by value, and are a [`Service`], so that layers may be put around them.
///
/// ```
/// use bullmyrtle::tasks::{serve, Context, Router};
/// use bullmyrtle::{ErrorObject, Settings};
/// use std::sync::atomic::{AtomicU64, Ordering};
/// use std::sync::Arc;
///
/// type Sum = Arc<AtomicU64>;
///
/// async fn add(sum: Context<Sum>, (number,): (u64,)) -> Result<u64, ErrorObject> {
///     Ok(sum.fetch_add(number, Ordering::Relaxed) + number)
/// }
///
/// # #[tokio::main(flavor = "current_thread")]
/// # async fn main() -> Result<(), Box<dyn std::error::Error>> {
/// let router = Router::new(Sum::default()).request("add", add);
/// let ((input, output), (reader, writer)) = {
///     let (one, other) = tokio::io::duplex(4_096);
///     (tokio::io::split(one), tokio::io::split(other))
/// };
/// tokio::spawn(serve(router, input, output, Settings::lsp())?);
/// let client = serve(Router::new(()), reader, writer, Settings::lsp())?;
/// let peer = client.peer();
/// tokio::spawn(client);
/// assert_eq!(peer.call_as::<u64>("add", &[3]).await?, 3);
/// assert_eq!(peer.call_as::<u64>("add", &[4]).await?, 7);
/// # Ok(())
/// # }
/// ```
pub struct Router<S> {
    state: S,
    methods: HashMap<String, Method<S>>,
    life: Option<Arc<Mutex<Life>>>,
    limit: Option<Duration>,
}

impl<S: Clone + Send + 'static> Router<S> {
    /// A router without methods.
    #[must_use]
    pub fn new(state: S) -> Self {
        Router { state, methods: HashMap::new(), life: None, limit: None }
    }

    /// A router of a language server, whose `initialize` is answered with this, such as its capabilities as JSON.
    #[must_use]
    pub fn lsp(state: S, life: Life) -> Self {
        Router { life: Some(Arc::new(Mutex::new(life))), ..Self::new(state) }
    }

    /// Registers a request. Params that don't fit their type are answered by -32602 with the place, a handler that
    /// panics by -32603.
    #[must_use]
    pub fn request<P, R, F, T>(mut self, method: &str, handler: F) -> Self
    where
        F: Fn(Context<S>, P) -> T + Send + Sync + 'static,
        P: DeserializeOwned + Send,
        R: Serialize,
        T: Future<Output = Result<R, ErrorObject>> + Send + 'static,
    {
        let (handler, limit) = (Arc::new(handler), self.limit);
        let made: Handler<S> = Box::new(move |context, params| {
            let handler = Arc::clone(&handler);
            Box::pin(async move {
                // (params are read in the call's turn, and before the handler may wait)
                let future = handler(context, params_of(params.as_deref())?);
                let result = match limit {
                    None => future.await?,
                    Some(limit) => tokio::time::timeout(limit, future).await.map_err(|_| too_long(limit))??,
                };
                Ok(written(&result)?.into())
            })
        });
        self.methods.insert(method.to_string(), Method { handler: made, is_request: true });
        self
    }

    /// Registers a notification, which is finished before what comes behind it begins: a change of a document, or of the
    /// settings. Don't wait in it for something that comes by a later message.
    #[must_use]
    pub fn notification<P, F, T>(mut self, method: &str, handler: F) -> Self
    where
        F: Fn(Context<S>, P) -> T + Send + Sync + 'static,
        P: DeserializeOwned + Send,
        T: Future<Output = ()> + Send + 'static,
    {
        let handler = Arc::new(handler);
        let made: Handler<S> = Box::new(move |context, params| {
            let handler = Arc::clone(&handler);
            Box::pin(async move {
                handler(context, params_of(params.as_deref())?).await;
                Ok(Answer::default())
            })
        });
        self.methods.insert(method.to_string(), Method { handler: made, is_request: false });
        self
    }

    /// Registers a notification that only begins in its turn, and goes on while others begin: `initialized`, behind
    /// which much is read.
    #[must_use]
    pub fn notification_aside<P, F, T>(mut self, method: &str, handler: F) -> Self
    where
        F: Fn(Context<S>, P) -> T + Send + Sync + 'static,
        P: DeserializeOwned + Send,
        T: Future<Output = ()> + Send + 'static,
    {
        let handler = Arc::new(handler);
        let made: Handler<S> = Box::new(move |context, params| {
            let handler = Arc::clone(&handler);
            Box::pin(async move { Ok(Answer::aside(handler(context, params_of(params.as_deref())?))) })
        });
        self.methods.insert(method.to_string(), Method { handler: made, is_request: false });
        self
    }

    /// Limits the time of the requests that are registered from here on. One that takes longer is dropped, and answered
    /// by -32803.
    #[must_use]
    pub fn limit(mut self, limit: Duration) -> Self {
        self.limit = Some(limit);
        self
    }

    /// Serves a language server on the standard streams, and gives the status that the process is to end with: 0 after
    /// `shutdown`, and else 1. What is printed by `println!` goes to the standard error from now on.
    ///
    /// # Errors
    ///
    /// Those of the system.
    pub async fn serve_stdio(self) -> io::Result<ExitCode> {
        let life = self.life.clone();
        let end = serve_stdio(self, Settings::lsp()).await?;
        let is_well = life.map_or(end.is_clean(), |it| locked(&it).is_shut_down());
        Ok(ExitCode::from(u8::from(!is_well)))
    }

    /// What comes of a call by the life of a language server, or nothing where the method's handler is to say.
    fn by_life(&self, call: &Call) -> Option<Outcome> {
        let mut life = locked(self.life.as_ref()?);
        match life.judge(&call.method, call.is_request()) {
            Verdict::Pass => None,
            Verdict::Initialize => Some(life.initialize(call.params()).map(Answer::from)),
            Verdict::ShutDown => Some(Ok(String::from("null").into())),
            Verdict::Refuse(code, message) => Some(Err(ErrorObject::new(code, message))),
            Verdict::Ignore => Some(Ok(Answer::default())),
            Verdict::Exit => {
                call.peer().stop();
                Some(Ok(Answer::default()))
            }
        }
    }
}

fn locked(life: &Arc<Mutex<Life>>) -> MutexGuard<'_, Life> {
    life.lock().unwrap_or_else(PoisonError::into_inner)
}

fn too_long(limit: Duration) -> ErrorObject {
    let message = format!("Request failed: it took longer than {} seconds", limit.as_secs_f64());
    ErrorObject::new(REQUEST_FAILED, message)
}

impl<S: Clone + Send + 'static> Service<Call> for Router<S> {
    type Response = Answer;
    type Error = ErrorObject;
    type Future = Boxed<Outcome>;

    fn poll_ready(&mut self, _: &mut task::Context<'_>) -> Poll<Result<(), ErrorObject>> {
        Poll::Ready(Ok(()))
    }

    fn call(&mut self, call: Call) -> Self::Future {
        if let Some(outcome) = self.by_life(&call) {
            return Box::pin(async { outcome });
        }
        let is_request = call.is_request();
        match self.methods.get(&call.method) {
            Some(it) if it.is_request == is_request => {
                (it.handler)(Context { state: self.state.clone(), about: call.about }, call.params)
            }
            _ => {
                let error = ErrorObject::new(METHOD_NOT_FOUND, format!("Method not found: {}", call.method));
                Box::pin(async { Err(error) })
            }
        }
    }
}

impl<S: Debug> Debug for Router<S> {
    fn fmt(&self, formatter: &mut Formatter<'_>) -> fmt::Result {
        let methods = self.methods.keys();
        formatter.debug_struct("Router").field("state", &self.state).field("methods", &methods).finish()
    }
}
