use crate::sys;
use crate::Refusal;
use std::mem::size_of;

/// How contents are framed.
#[derive(Clone, Copy, Debug, Default, PartialEq, Eq, Hash)]
pub enum Framing {
    /// Behind a head with its `Content-Length`, as in the Language Server Protocol.
    #[default]
    Frames,
    /// One content a line, as in the standard streams of MCP.
    Lines,
    /// Each [`feed`](crate::Connection::feed) gives one content, and each [`take`](crate::Connection::take) takes one,
    /// as with WebSocket.
    Contents,
}

/// When answers go out.
#[derive(Clone, Copy, Debug, Default, PartialEq, Eq, Hash)]
pub enum Order {
    /// As soon as all requests of their content are answered.
    #[default]
    AsAnswered,
    /// Not before the answers of the contents that came before.
    AsCame,
}

/// Whose cancels the protocol has: which notification is read as a cancel, and which one withdraws a call of yours.
#[derive(Clone, Copy, Debug, Default, PartialEq, Eq, Hash)]
pub enum Cancels {
    /// None: each notification is a call, and no call of yours can be withdrawn.
    #[default]
    None,
    /// `$/cancelRequest`, as the Language Server Protocol has.
    Lsp,
    /// `notifications/cancelled`, as the Model Context Protocol has. A request whose cancel has come gets no answer where
    /// you [`cancel`](crate::Connection::cancel) it, and a call that you [withdraw](crate::Connection::withdraw) waits no
    /// longer.
    Mcp,
}

/// `true` stands for [`Cancels::Lsp`], and `false` for none.
impl From<bool> for Cancels {
    fn from(has_cancels: bool) -> Self {
        if has_cancels {
            Cancels::Lsp
        } else {
            Cancels::None
        }
    }
}

/// What a connection is made with.
///
/// The default has frames, sends answers as soon as they can go out, takes no cancels, and has the greatest limits; but
/// a batch may have 100,000 entries.
///
/// ```
/// use bullmyrtle::{Cancels, Connection, Framing, Settings};
///
/// let settings = Settings::new().framing(Framing::Lines).cancels(Cancels::Mcp).content(1 << 20);
/// let connection = Connection::new(settings)?;
/// # assert_eq!(connection.pending(), 0);
/// # Ok::<(), bullmyrtle::Refusal>(())
/// ```
#[derive(Clone, Copy, Debug, Default, PartialEq, Eq, Hash)]
pub struct Settings {
    framing: Framing,
    order: Order,
    cancels: Cancels,
    broken: bool,
    content: Option<u32>,
    calls: Option<u64>,
    entries: Option<u32>,
    null_params: bool,
}

impl Settings {
    /// The default settings.
    #[must_use]
    pub fn new() -> Self {
        Self::default()
    }

    /// Those of the Language Server Protocol: frames, and its cancels.
    #[must_use]
    pub fn lsp() -> Self {
        Self::new().cancels(Cancels::Lsp)
    }

    /// Those of the standard streams of the Model Context Protocol: lines, and its cancels.
    #[must_use]
    pub fn mcp() -> Self {
        Self::new().framing(Framing::Lines).cancels(Cancels::Mcp)
    }

    /// How contents are framed.
    #[must_use]
    pub fn framing(self, framing: Framing) -> Self {
        Settings { framing, ..self }
    }

    /// When answers go out.
    #[must_use]
    pub fn order(self, order: Order) -> Self {
        Settings { order, ..self }
    }

    /// Whose cancels the protocol has. `true` stands for those of the Language Server Protocol.
    #[must_use]
    pub fn cancels(self, cancels: impl Into<Cancels>) -> Self {
        Settings { cancels: cancels.into(), ..self }
    }

    /// Whether broken input is told, as [`Event::Broken`](crate::Event::Broken). It is answered in any case.
    #[must_use]
    pub fn broken(self, broken: bool) -> Self {
        Settings { broken, ..self }
    }

    /// How many bytes a content may have: 1 to 2,147,483,647, and by default 16,777,216.
    #[must_use]
    pub fn content(self, bytes: u32) -> Self {
        Settings { content: Some(bytes), ..self }
    }

    /// How many calls may come, at least 1. The default is the greatest value.
    #[must_use]
    pub fn calls(self, calls: u64) -> Self {
        Settings { calls: Some(calls), ..self }
    }

    /// How many entries a batch may have, at least 1: by default 100,000, and `u32::MAX` is any number. One of more is a
    /// single invalid entry: none of its calls is told, and its replies are lost.
    #[must_use]
    pub fn entries(self, entries: u32) -> Self {
        Settings { entries: Some(entries), ..self }
    }

    /// Whether params that are null are told as the text `null`. Else they are none, which is the default.
    #[must_use]
    pub fn null_params(self, null_params: bool) -> Self {
        Settings { null_params, ..self }
    }

    pub(crate) fn has_contents(self) -> bool {
        self.framing == Framing::Contents
    }

    pub(crate) fn is_mcp(self) -> bool {
        self.cancels == Cancels::Mcp
    }

    /// (A limit of 0 stands for the usual one in C, and is refused here.)
    pub(crate) fn in_c(self) -> Result<sys::bm_options, Refusal> {
        if self.content == Some(0) || self.calls == Some(0) || self.entries == Some(0) {
            return Err(Refusal::Settings);
        }
        Ok(sys::bm_options {
            size: size_of::<sys::bm_options>() as u32,
            framing: match self.framing {
                Framing::Frames => sys::BM_FRAMES,
                Framing::Lines => sys::BM_LINES,
                Framing::Contents => sys::BM_CONTENTS,
            },
            order: match self.order {
                Order::AsAnswered => sys::BM_AS_ANSWERED,
                Order::AsCame => sys::BM_AS_CAME,
            },
            cancels: match self.cancels {
                Cancels::None => sys::BM_CANCELS_NONE,
                Cancels::Lsp => sys::BM_CANCELS_LSP,
                Cancels::Mcp => sys::BM_CANCELS_MCP,
            },
            broken: self.broken.into(),
            content: self.content.unwrap_or(0),
            calls: self.calls.unwrap_or(0),
            entries: self.entries.unwrap_or(0),
            null_params: self.null_params.into(),
        })
    }
}
