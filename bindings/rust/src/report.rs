use crate::sys;

/// What has happened so far.
#[derive(Clone, Copy, Debug, Default, PartialEq, Eq, Hash)]
pub struct Report {
    /// Calls that came, requests and notifications.
    pub calls: u64,
    /// Of these, the requests.
    pub requests: u64,
    /// Calls that came and aren't answered.
    pub open: u64,
    /// Your calls that wait for a reply.
    pub waiting: u64,
    /// Your calls, each of a batch.
    pub own_calls: u64,
    /// Answers that have gone out, whether taken or not. An array is one.
    pub answers_written: u64,
    /// Contents that couldn't be read.
    pub unreadable: u64,
    /// Entries that were neither a call nor a reply.
    pub invalid: u64,
    /// Replies that nobody waited for, and cancels that reached no request.
    pub ignored: u64,
}

impl From<sys::bm_report> for Report {
    fn from(it: sys::bm_report) -> Self {
        Report {
            calls: it.calls,
            requests: it.requests,
            open: it.open,
            waiting: it.waiting,
            own_calls: it.own_calls,
            answers_written: it.answers_written,
            unreadable: it.unreadable,
            invalid: it.invalid,
            ignored: it.ignored,
        }
    }
}
