use crate::sys;
use std::error::Error;
use std::fmt::{self, Display, Formatter};

/// Why a call was refused. It has then changed nothing.
///
/// Refusals are part of the conversation, not bugs: a request may be answered on one side while it is cancelled on the
/// other, so be ready for [`NotOpen`](Refusal::NotOpen) and [`NotWaiting`](Refusal::NotWaiting).
#[derive(Clone, Copy, Debug, PartialEq, Eq, Hash)]
pub enum Refusal {
    /// Memory was refused. The call may be made again.
    NoMemory,
    /// The number is no call that came, or it is answered already.
    NotOpen,
    /// The key is no call of yours that waits, or it is withdrawn already, or cancels are off.
    NotWaiting,
    /// The input is over.
    Over,
    /// A text isn't JSON, or params are neither an array nor an object, or a request is closed without an answer.
    NotJson,
    /// A method's name or an error's message isn't UTF-8.
    NotText,
    /// There are no such settings.
    Settings,
    /// A batch of no calls.
    Empty,
    /// The keys would go over 2^53 - 1.
    Full,
}

impl Refusal {
    /// What a code of the library's says.
    pub(crate) fn check(code: i32) -> Result<(), Refusal> {
        Err(match code {
            sys::BM_OK => return Ok(()),
            sys::BM_NO_MEMORY => Refusal::NoMemory,
            sys::BM_NOT_OPEN => Refusal::NotOpen,
            sys::BM_NOT_WAITING => Refusal::NotWaiting,
            sys::BM_OVER => Refusal::Over,
            sys::BM_NOT_JSON => Refusal::NotJson,
            sys::BM_NOT_TEXT => Refusal::NotText,
            sys::BM_SETTINGS => Refusal::Settings,
            sys::BM_EMPTY => Refusal::Empty,
            sys::BM_FULL => Refusal::Full,
            _ => unreachable!("the library gave the code {code}"),
        })
    }
}

impl Display for Refusal {
    fn fmt(&self, formatter: &mut Formatter<'_>) -> fmt::Result {
        formatter.write_str(match self {
            Refusal::NoMemory => "out of memory",
            Refusal::NotOpen => "the call isn't open",
            Refusal::NotWaiting => "no call with this key waits",
            Refusal::Over => "the input is over",
            Refusal::NotJson => "not a JSON text, or params that are neither an array nor an object",
            Refusal::NotText => "a method's name or a message that isn't UTF-8",
            Refusal::Settings => "there are no such settings",
            Refusal::Empty => "a batch of no calls",
            Refusal::Full => "no key is left",
        })
    }
}

impl Error for Refusal {}

#[cfg(test)]
mod tests {
    use super::*;

    /// Each code but `BM_OK` has a refusal with a text of its own.
    #[test]
    fn each_code_has_its_refusal() {
        let named = [
            (sys::BM_NO_MEMORY, Refusal::NoMemory),
            (sys::BM_NOT_OPEN, Refusal::NotOpen),
            (sys::BM_NOT_WAITING, Refusal::NotWaiting),
            (sys::BM_OVER, Refusal::Over),
            (sys::BM_NOT_JSON, Refusal::NotJson),
            (sys::BM_NOT_TEXT, Refusal::NotText),
            (sys::BM_SETTINGS, Refusal::Settings),
            (sys::BM_EMPTY, Refusal::Empty),
            (sys::BM_FULL, Refusal::Full),
        ];
        for (code, refusal) in named {
            assert_eq!(Refusal::check(code), Err(refusal));
            let alike = named.iter().filter(|it| it.1.to_string() == refusal.to_string());
            assert_eq!(alike.count(), 1, "{refusal}");
        }
        assert_eq!(Refusal::check(sys::BM_OK), Ok(()));
    }
}
