//! Several things to say, in one call of the library.
use crate::{sys, Json, Outgoing, Refusal};

/// Things to say, which [`Connection::say_all`](crate::Connection::say_all) says in one call of the library, each by
/// itself. They may be put together while an [`EventRef`](crate::EventRef) borrows the connection, and be
/// [cleared](Self::clear) and used again.
#[derive(Clone, Debug, Default)]
pub struct Sayings {
    heads: Vec<sys::bm_saying>,
    bytes: Vec<u8>,
    refused: usize,
}

impl Sayings {
    /// Nothing to say.
    #[must_use]
    pub fn new() -> Self {
        Sayings::default()
    }

    /// How many they are, a batch with its calls being one.
    #[must_use]
    pub fn len(&self) -> usize {
        self.outcomes().count()
    }

    /// Whether there is nothing to say.
    #[must_use]
    pub fn is_empty(&self) -> bool {
        self.heads.is_empty()
    }

    /// Forgets them.
    pub fn clear(&mut self) {
        self.heads.clear();
        self.bytes.clear();
        self.refused = 0;
    }

    fn add(&mut self, head: sys::bm_saying, name: &[u8], text: &[u8]) {
        self.heads.push(sys::bm_saying { name_len: name.len(), text_len: text.len(), ..head });
        self.bytes.extend_from_slice(name);
        self.bytes.extend_from_slice(text);
    }

    /// As [`Connection::answer`](crate::Connection::answer).
    pub fn answer<'a>(&mut self, number: u64, result: impl Into<Json<'a>>) {
        let head = sys::bm_saying { kind: sys::BM_SAY_ANSWER, number, ..Default::default() };
        self.add(head, b"", result.into().bytes());
    }

    /// As [`Connection::close`](crate::Connection::close).
    pub fn close(&mut self, number: u64) {
        self.add(sys::bm_saying { kind: sys::BM_SAY_CLOSE, number, ..Default::default() }, b"", b"");
    }

    /// As [`Connection::fail`](crate::Connection::fail).
    pub fn fail<'a>(&mut self, number: u64, code: i64, message: impl AsRef<[u8]>, data: impl Into<Json<'a>>) {
        let head = sys::bm_saying { kind: sys::BM_SAY_FAIL, number, code, ..Default::default() };
        self.add(head, message.as_ref(), data.into().bytes());
    }

    /// As [`Connection::call`](crate::Connection::call).
    pub fn call<'a>(&mut self, number: u64, method: impl AsRef<[u8]>, params: impl Into<Json<'a>>) {
        let head = sys::bm_saying { kind: sys::BM_SAY_CALL, number, ..Default::default() };
        self.add(head, method.as_ref(), params.into().bytes());
    }

    /// As [`Connection::call_batch`](crate::Connection::call_batch).
    pub fn call_batch(&mut self, number: u64, calls: &[Outgoing<'_>]) {
        let head = sys::bm_saying { kind: sys::BM_SAY_BATCH, number, calls: calls.len(), ..Default::default() };
        self.add(head, b"", b"");
        for it in calls {
            self.add(sys::bm_saying::default(), it.method, it.params.bytes());
        }
    }

    /// As [`Connection::notify`](crate::Connection::notify).
    pub fn notify<'a>(&mut self, method: impl AsRef<[u8]>, params: impl Into<Json<'a>>) {
        let head = sys::bm_saying { kind: sys::BM_SAY_NOTIFY, ..Default::default() };
        self.add(head, method.as_ref(), params.into().bytes());
    }

    /// As [`Connection::withdraw`](crate::Connection::withdraw).
    pub fn withdraw(&mut self, key: u64) {
        self.add(sys::bm_saying { kind: sys::BM_SAY_WITHDRAW, key, ..Default::default() }, b"", b"");
    }

    /// As [`Connection::cancel`](crate::Connection::cancel).
    pub fn cancel(&mut self, number: u64) {
        self.add(sys::bm_saying { kind: sys::BM_SAY_CANCEL, number, ..Default::default() }, b"", b"");
    }

    /// How many were refused when they were said.
    #[must_use]
    pub fn refused(&self) -> usize {
        self.refused
    }

    /// What came of each when they were said: the key of a call, or the first key of a batch, and 0 for others; or why it
    /// was refused.
    pub fn outcomes(&self) -> impl Iterator<Item = Result<u64, Refusal>> + '_ {
        let mut passed = 0;
        self.heads.iter().filter_map(move |it| {
            if passed > 0 {
                passed -= 1;
                return None;
            }
            passed = if it.kind == sys::BM_SAY_BATCH { it.calls } else { 0 };
            let has_key = matches!(it.kind, sys::BM_SAY_CALL | sys::BM_SAY_BATCH);
            Some(Refusal::check(it.said).map(|()| if has_key { it.key } else { 0 }))
        })
    }

    /// Says them.
    pub(crate) fn say(&mut self, handle: &mut sys::bm_connection) {
        let (heads, count) = (self.heads.as_mut_ptr(), self.heads.len());
        let (bytes, length) = (self.bytes.as_ptr(), self.bytes.len());
        // SAFETY: as for the other calls; the lengths of the heads are those of the bytes, as `add` appends both.
        let code = unsafe { sys::bm_say_all(handle, heads, count, bytes, length, &mut self.refused) };
        assert_eq!(code, sys::BM_OK, "the lengths add up");
    }
}
