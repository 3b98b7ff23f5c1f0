/// A JSON text that is passed, or none.
///
/// It is made from a text or from bytes, and from `None`. The library refuses what isn't JSON by
/// [`NotJson`](crate::Refusal::NotJson).
#[derive(Clone, Copy, Debug, Default, PartialEq, Eq, Hash)]
pub struct Json<'a>(Option<&'a [u8]>);

impl<'a> Json<'a> {
    /// As C has it: none are no bytes. A text of no bytes isn't JSON, and neither is a blank.
    pub(crate) fn bytes(self) -> &'a [u8] {
        match self.0 {
            None => b"",
            Some(b"") => b" ",
            Some(bytes) => bytes,
        }
    }
}

impl<'a> From<Option<&'a str>> for Json<'a> {
    fn from(text: Option<&'a str>) -> Self {
        Json(text.map(str::as_bytes))
    }
}

impl<'a> From<&'a str> for Json<'a> {
    fn from(text: &'a str) -> Self {
        Json(Some(text.as_bytes()))
    }
}

impl<'a> From<&'a String> for Json<'a> {
    fn from(text: &'a String) -> Self {
        Json(Some(text.as_bytes()))
    }
}

impl<'a> From<&'a [u8]> for Json<'a> {
    fn from(bytes: &'a [u8]) -> Self {
        Json(Some(bytes))
    }
}

impl<'a, const N: usize> From<&'a [u8; N]> for Json<'a> {
    fn from(bytes: &'a [u8; N]) -> Self {
        Json(Some(bytes))
    }
}

impl<'a> From<&'a Vec<u8>> for Json<'a> {
    fn from(bytes: &'a Vec<u8>) -> Self {
        Json(Some(bytes))
    }
}

/// A call of a batch: a method and its params.
#[derive(Clone, Copy, Debug, PartialEq, Eq, Hash)]
pub struct Outgoing<'a> {
    pub(crate) method: &'a [u8],
    pub(crate) params: Json<'a>,
}

impl<'a> Outgoing<'a> {
    /// A call of the method. `None` for no params.
    pub fn new(method: &'a (impl AsRef<[u8]> + ?Sized), params: impl Into<Json<'a>>) -> Self {
        Outgoing { method: method.as_ref(), params: params.into() }
    }
}
