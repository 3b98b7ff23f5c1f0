//! JSON-RPC 2.0 servers and clients whose methods are your own code.
//!
//! - [`Server`], [`Client`] and [`Life`] run on threads: messages come one by one, in the order of the stream, and are
//!   answered from any thread.
//! - With the feature `tokio` the module `tasks` has them as async functions by name, which begin in that order; with
//!   `serde` params and results have types, and with `lsp` there are those of LSP 3.17. The repository's page
//!   `docs/rust.md` describes all of it.
//! - A [`Connection`] is one end of a conversation by itself.
//!
//! # A connection
//!
//! A connection does no input and no output, starts no thread and reads no clock. You feed it the bytes that you have
//! read, ask it for events, answer and call, and write the bytes that are to be written, in whatever order you like.
//! The protocol stays in it: what is a message, what is answered with an error, which reply belongs to which call, what
//! a cancel reaches, and in what order texts go out. It is proved to do what the repository's page `docs/connection.md`
//! says; `docs/embedding.md` says where the promise ends.
//!
//! ```
//! use bullmyrtle::{Connection, Ended, Event, Framing, Settings};
//!
//! let mut connection = Connection::new(Settings::new().framing(Framing::Lines))?;
//! connection.feed(br#"{"jsonrpc":"2.0","method":"echo","params":["a", 1.50],"id":7}"#)?;
//! connection.end(Ended::Closed)?;
//! while let Some(event) = connection.next_event()? {
//!     match event {
//!         Event::Request { number, params, .. } => connection.answer(number, params.as_deref().unwrap_or("null"))?,
//!         Event::Notification { number, .. } => connection.close(number)?,
//!         _ => {}
//!     }
//! }
//! let mut output = Vec::new();
//! connection.write_to(&mut output)?;
//! assert_eq!(output, b"{\"id\":7,\"jsonrpc\":\"2.0\",\"result\":[\"a\",1.50]}\n");
//! assert!(connection.is_done());
//! # Ok::<(), Box<dyn std::error::Error>>(())
//! ```
//!
//! # JSON
//!
//! JSON goes in and out as text: one value in UTF-8, told compactly. Take it apart by the crate that you like, as
//! `serde_json`. What you pass is checked, and refused by [`Refusal::NotJson`] where it isn't JSON or nests deeper than
//! 120 levels. Where there may be no JSON, pass a text or `None`.
//!
//! # Close each notification
//!
//! Each call that came is held until it is answered, and a notification is a call: [`close`](Connection::close) it. A
//! host that forgets this never becomes done, and grows.
//!
//! # A slow reader
//!
//! What is to be written isn't limited. Stop reading while [`pending`](Connection::pending) is large.
#![deny(missing_docs, unsafe_op_in_unsafe_fn)]

mod cancel;
mod client;
mod connection;
mod end;
mod event;
mod incoming;
mod json;
mod life;
#[cfg(feature = "lsp")]
#[rustfmt::skip]
pub mod lsp;
mod peer;
mod refusal;
mod reply;
mod report;
mod sayings;
mod server;
mod session;
mod settings;
mod streams;
// (the judge isn't called)
#[allow(dead_code, non_camel_case_types)]
mod sys;
#[cfg(feature = "tokio")]
pub mod tasks;
#[cfg(feature = "serde")]
mod typed;

pub use cancel::{CancelToken, Cancelled};
pub use client::Client;
pub use connection::{Connection, Ended, NOBODY};
pub use end::End;
pub use event::{Close, Defect, ErrorObject, ErrorRef, Event, EventRef};
pub use incoming::{codes, Incoming, Notification, Request, Responder};
pub use json::{Json, Outgoing};
pub use life::Life;
pub use peer::Peer;
pub use refusal::Refusal;
pub use reply::{CallError, Reply, Response};
pub use report::Report;
pub use sayings::Sayings;
pub use server::{Messages, Server};
pub use settings::{Cancels, Framing, Order, Settings};
#[cfg(feature = "serde")]
pub use typed::{params_of, ReplyAs};
