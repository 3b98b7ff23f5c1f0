use crate::Close;
use std::fmt::{self, Display, Formatter};
use std::io::ErrorKind;

/// How a session ended.
#[derive(Clone, Copy, Debug, PartialEq, Eq, Hash)]
#[non_exhaustive]
pub struct End {
    /// Why the input is over.
    pub reason: Close,
    /// How many bytes came before the frame or line at fault, where one is.
    pub place: Option<u64>,
    /// The error of the read, or else of the write, that failed.
    pub error: Option<ErrorKind>,
}

impl End {
    /// Whether the other side closed the input, with nothing at fault.
    #[must_use]
    pub fn is_clean(&self) -> bool {
        self.reason == Close::Clean && self.error.is_none()
    }
}

impl Display for End {
    fn fmt(&self, formatter: &mut Formatter<'_>) -> fmt::Result {
        Display::fmt(&self.reason, formatter)?;
        if let Some(place) = self.place {
            write!(formatter, ", at byte {place}")?;
        }
        self.error.map_or(Ok(()), |it| write!(formatter, ": {it:?}"))
    }
}
