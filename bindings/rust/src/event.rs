use crate::sys;
use std::error::Error;
use std::fmt::{self, Display, Formatter};
use std::slice;

/// What a connection tells. Params, ids, results and data are compact JSON.
#[derive(Clone, Debug, PartialEq, Eq, Hash)]
pub enum Event {
    /// The other side asks. Give it its [`answer`](crate::Connection::answer), now or later.
    Request {
        /// Counts the calls that came, from 1.
        number: u64,
        /// The request's id. You need it only to tell requests apart as the other side does.
        id: String,
        /// The method's name.
        method: String,
        /// The params: an array or an object.
        params: Option<String>,
    },
    /// The other side tells something. [`close`](crate::Connection::close) it once you are done with it.
    Notification {
        /// Counts the calls that came, from 1.
        number: u64,
        /// The method's name.
        method: String,
        /// The params: an array or an object.
        params: Option<String>,
    },
    /// The other side cancels a request of its own, which is still to be answered: by
    /// [`cancel`](crate::Connection::cancel), or as if nothing had happened.
    Cancelled {
        /// That of the request.
        number: u64,
    },
    /// The reply to a call of yours.
    Replied {
        /// That of your call.
        key: u64,
        /// The result, or the error.
        reply: Result<String, ErrorObject>,
    },
    /// The input is over, and a call of yours has no reply.
    Unanswered {
        /// That of your call.
        key: u64,
    },
    /// The input is over. It is the last event.
    Over(Close),
    /// A content is broken. It is answered all the same: you have nothing to do. It is told before all else of its content,
    /// and only where the [settings](crate::Settings::broken) say so.
    Broken {
        /// How many bytes were fed before the content's first.
        place: u64,
        /// The content's first bytes, at most 64. They may be any bytes.
        start: Vec<u8>,
        /// What is wrong with it.
        defect: Defect,
    },
}

/// What is wrong with a broken content.
#[derive(Clone, Copy, Debug, PartialEq, Eq, Hash)]
pub enum Defect {
    /// It isn't JSON in UTF-8, or nests deeper than 127 levels, or is in another charset.
    Unreadable,
    /// It has entries that are neither a call nor a reply.
    Invalid {
        /// Which entry is the first such, from 0. It is 0 too where the content is a single one.
        first: u64,
        /// How many there are.
        count: u64,
    },
}

/// An [`Event`] whose texts the connection lends: nothing is copied. [`to_owned`](Self::to_owned) gives one that stands
/// alone.
#[derive(Clone, Copy, Debug, PartialEq, Eq, Hash)]
pub enum EventRef<'a> {
    /// See [`Event::Request`].
    Request {
        /// Counts the calls that came, from 1.
        number: u64,
        /// The request's id.
        id: &'a str,
        /// The method's name.
        method: &'a str,
        /// The params: an array or an object.
        params: Option<&'a str>,
    },
    /// See [`Event::Notification`].
    Notification {
        /// Counts the calls that came, from 1.
        number: u64,
        /// The method's name.
        method: &'a str,
        /// The params: an array or an object.
        params: Option<&'a str>,
    },
    /// See [`Event::Cancelled`].
    Cancelled {
        /// That of the request.
        number: u64,
    },
    /// See [`Event::Replied`].
    Replied {
        /// That of your call.
        key: u64,
        /// The result, or the error.
        reply: Result<&'a str, ErrorRef<'a>>,
    },
    /// See [`Event::Unanswered`].
    Unanswered {
        /// That of your call.
        key: u64,
    },
    /// See [`Event::Over`].
    Over(Close),
    /// See [`Event::Broken`].
    Broken {
        /// How many bytes were fed before the content's first.
        place: u64,
        /// The content's first bytes, at most 64.
        start: &'a [u8],
        /// What is wrong with it.
        defect: Defect,
    },
}

/// An [`ErrorObject`] whose texts the connection lends.
#[derive(Clone, Copy, Debug, PartialEq, Eq, Hash)]
pub struct ErrorRef<'a> {
    /// What kind of error it is.
    pub code: i64,
    /// The error in words.
    pub message: &'a str,
    /// More on it, as JSON.
    pub data: Option<&'a str>,
}

impl ErrorRef<'_> {
    /// The same with texts of its own.
    #[must_use]
    pub fn to_owned(self) -> ErrorObject {
        ErrorObject { code: self.code, message: self.message.into(), data: self.data.map(String::from) }
    }
}

impl<'a> EventRef<'a> {
    /// The same with texts of its own.
    #[must_use]
    pub fn to_owned(self) -> Event {
        match self {
            EventRef::Request { number, id, method, params } => {
                Event::Request { number, id: id.into(), method: method.into(), params: params.map(String::from) }
            }
            EventRef::Notification { number, method, params } => {
                Event::Notification { number, method: method.into(), params: params.map(String::from) }
            }
            EventRef::Cancelled { number } => Event::Cancelled { number },
            EventRef::Replied { key, reply } => {
                Event::Replied { key, reply: reply.map(String::from).map_err(ErrorRef::to_owned) }
            }
            EventRef::Unanswered { key } => Event::Unanswered { key },
            EventRef::Over(close) => Event::Over(close),
            EventRef::Broken { place, start, defect } => Event::Broken { place, start: start.into(), defect },
        }
    }

    /// The event that the library told, or none.
    ///
    /// # Safety
    ///
    /// Its texts stay lent as long as `'a`.
    pub(crate) unsafe fn read(told: &sys::bm_event) -> Option<Self> {
        // SAFETY: so many bytes of each are lent.
        let (name, given, id) =
            unsafe { (lent(told.name, told.name_len), lent(told.text, told.text_len), lent(told.id, told.id_len)) };
        let (number, key) = (told.number, told.key);
        Some(match told.kind {
            sys::BM_NONE => return None,
            sys::BM_CALL if told.flags == sys::BM_REQUEST => {
                EventRef::Request { number, id: text(id), method: text(name), params: text_if_any(given) }
            }
            sys::BM_CALL => EventRef::Notification { number, method: text(name), params: text_if_any(given) },
            sys::BM_CANCELLED => EventRef::Cancelled { number },
            sys::BM_REPLIED if told.flags == sys::BM_ERROR => {
                let error = ErrorRef { code: told.code, message: text(name), data: text_if_any(given) };
                EventRef::Replied { key, reply: Err(error) }
            }
            sys::BM_REPLIED => EventRef::Replied { key, reply: Ok(text(given)) },
            sys::BM_UNANSWERED => EventRef::Unanswered { key },
            sys::BM_INPUT_OVER => EventRef::Over(Close::of(told.flags)),
            sys::BM_BROKEN => EventRef::Broken { place: number, start: given, defect: Defect::of(told) },
            kind => unreachable!("the library told an event of the kind {kind}"),
        })
    }
}

/// An error that the other side replied with.
#[derive(Clone, Debug, PartialEq, Eq, Hash)]
pub struct ErrorObject {
    /// What kind of error it is.
    pub code: i64,
    /// The error in words.
    pub message: String,
    /// More on it, as JSON.
    pub data: Option<String>,
}

impl ErrorObject {
    /// An error without data.
    pub fn new(code: i64, message: impl Into<String>) -> Self {
        ErrorObject { code, message: message.into(), data: None }
    }
}

impl Display for ErrorObject {
    fn fmt(&self, formatter: &mut Formatter<'_>) -> fmt::Result {
        write!(formatter, "{} ({})", self.message, self.code)
    }
}

impl Error for ErrorObject {}

/// Why the input is over.
#[derive(Clone, Copy, Debug, PartialEq, Eq, Hash)]
pub enum Close {
    /// [`end`](crate::Connection::end) said that it was closed.
    Clean,
    /// A header line isn't a field.
    BadHead,
    /// A `Content-Length` isn't a number of at most 10 digits.
    BadLength,
    /// A header has two of them.
    TwoLengths,
    /// A content is longer than the setting allows.
    TooLarge,
    /// A header has no `Content-Length`.
    NoLength,
    /// A header has more than 4,096 bytes.
    HeadTooLong,
    /// The input was closed inside a frame.
    Truncated,
    /// [`end`](crate::Connection::end) said that a read failed.
    Read,
    /// More calls came than the setting allows.
    Full,
}

impl Display for Close {
    fn fmt(&self, formatter: &mut Formatter<'_>) -> fmt::Result {
        formatter.write_str(match self {
            Close::Clean => "the input was closed",
            Close::BadHead => "a header line isn't a field",
            Close::BadLength => "a Content-Length isn't a number",
            Close::TwoLengths => "a header has two Content-Lengths",
            Close::TooLarge => "a content is longer than the setting allows",
            Close::NoLength => "a header has no Content-Length",
            Close::HeadTooLong => "a header has more than 4,096 bytes",
            Close::Truncated => "the input was closed inside a frame",
            Close::Read => "a read failed",
            Close::Full => "more calls came than the setting allows",
        })
    }
}

impl Close {
    fn of(flags: u32) -> Self {
        match flags {
            sys::BM_OVER_CLEAN => Close::Clean,
            sys::BM_OVER_BAD_HEAD => Close::BadHead,
            sys::BM_OVER_BAD_LENGTH => Close::BadLength,
            sys::BM_OVER_TWO_LENGTHS => Close::TwoLengths,
            sys::BM_OVER_TOO_LARGE => Close::TooLarge,
            sys::BM_OVER_NO_LENGTH => Close::NoLength,
            sys::BM_OVER_HEAD_TOO_LONG => Close::HeadTooLong,
            sys::BM_OVER_TRUNCATED => Close::Truncated,
            sys::BM_OVER_READ => Close::Read,
            sys::BM_OVER_CALLS => Close::Full,
            _ => unreachable!("the library told an end {flags}"),
        }
    }
}

impl Defect {
    fn of(told: &sys::bm_event) -> Self {
        match told.flags {
            sys::BM_UNREADABLE => Defect::Unreadable,
            sys::BM_INVALID => Defect::Invalid { first: told.key, count: told.code as u64 },
            _ => unreachable!("the library told a defect {}", told.flags),
        }
    }
}

/// Bytes that are lent. (Of none the pointer may be anything.)
///
/// # Safety
///
/// So many bytes stay lent there as long as `'a`.
pub(crate) unsafe fn lent<'a>(at: *const u8, length: usize) -> &'a [u8] {
    if length == 0 {
        return b"";
    }
    // SAFETY: as above.
    unsafe { slice::from_raw_parts(at, length) }
}

/// (All texts that the library tells are UTF-8, but for the start of a broken content.)
fn text(bytes: &[u8]) -> &str {
    std::str::from_utf8(bytes).expect("the library tells UTF-8")
}

fn text_if_any(bytes: &[u8]) -> Option<&str> {
    (!bytes.is_empty()).then(|| text(bytes))
}
