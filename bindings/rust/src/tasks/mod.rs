//! Servers and clients on tokio.
//!
//! A [`Router`] has the methods, as async functions by name, and the state that they share. [`Router::serve_stdio`] runs
//! it on the standard streams as a language server, [`serve_stdio`] as what you like, and [`serve`] over any `AsyncRead` and `AsyncWrite`. A [`Client`] starts a server.
//!
//! # Order
//!
//! Requests and notifications begin in the order of the stream: each handler runs up to its first `.await` that has to
//! wait before the next one begins, in the task of the session, whatever the number of workers. A notification's
//! handler is even finished before what follows begins, so a request sees each change that came before it, and none
//! that came behind it, in what it reads before its first `.await`. Requests that wait run side by side, as many as
//! [`Serving::at_once`] allows.
mod call;
mod client;
mod router;
mod running;
mod serving;
mod streams;

pub use call::{Answer, Call};
pub use client::Client;
pub use router::{Context, Router};
pub use serving::{serve, serve_stdio, Serving};
