//! The calls of `bullmyrtle.h`, as C has them. `checks/rust_crate.py` compares these declarations with the header.
use std::ffi::c_void;

pub const BM_INTERFACE: u32 = 1;

pub const BM_OK: i32 = 0;
pub const BM_NO_MEMORY: i32 = 1;
pub const BM_NOT_OPEN: i32 = 2;
pub const BM_NOT_WAITING: i32 = 3;
pub const BM_OVER: i32 = 4;
pub const BM_NOT_JSON: i32 = 5;
pub const BM_NOT_TEXT: i32 = 6;
pub const BM_SETTINGS: i32 = 7;
pub const BM_EMPTY: i32 = 8;
pub const BM_FULL: i32 = 9;

pub const BM_FRAMES: u32 = 0;
pub const BM_LINES: u32 = 1;
pub const BM_CONTENTS: u32 = 2;

pub const BM_AS_ANSWERED: u32 = 0;
pub const BM_AS_CAME: u32 = 1;

pub const BM_CANCELS_NONE: u32 = 0;
pub const BM_CANCELS_LSP: u32 = 1;
pub const BM_CANCELS_MCP: u32 = 2;

pub const BM_CLOSED: u32 = 0;
pub const BM_READ_FAILED: u32 = 1;

pub const BM_NONE: u32 = 0;
pub const BM_CALL: u32 = 1;
pub const BM_CANCELLED: u32 = 2;
pub const BM_REPLIED: u32 = 3;
pub const BM_UNANSWERED: u32 = 4;
pub const BM_INPUT_OVER: u32 = 5;
pub const BM_BROKEN: u32 = 6;

pub const BM_REQUEST: u32 = 1;
pub const BM_ERROR: u32 = 1;
pub const BM_UNREADABLE: u32 = 0;
pub const BM_INVALID: u32 = 1;

pub const BM_OVER_CLEAN: u32 = 0;
pub const BM_OVER_BAD_HEAD: u32 = 1;
pub const BM_OVER_BAD_LENGTH: u32 = 2;
pub const BM_OVER_TWO_LENGTHS: u32 = 3;
pub const BM_OVER_TOO_LARGE: u32 = 4;
pub const BM_OVER_NO_LENGTH: u32 = 5;
pub const BM_OVER_HEAD_TOO_LONG: u32 = 6;
pub const BM_OVER_TRUNCATED: u32 = 7;
pub const BM_OVER_READ: u32 = 8;
pub const BM_OVER_CALLS: u32 = 9;

pub const BM_SAY_ANSWER: u32 = 1;
pub const BM_SAY_FAIL: u32 = 2;
pub const BM_SAY_CLOSE: u32 = 3;
pub const BM_SAY_CALL: u32 = 4;
pub const BM_SAY_BATCH: u32 = 5;
pub const BM_SAY_NOTIFY: u32 = 6;
pub const BM_SAY_WITHDRAW: u32 = 7;
pub const BM_SAY_CANCEL: u32 = 8;

pub const BM_RULES_JSONRPC: u32 = 0;
pub const BM_RULES_LSP: u32 = 1;
pub const BM_RULES_MCP: u32 = 2;
pub const BM_RULES_MCP_2025_06_18: u32 = 3;
pub const BM_RULES_MCP_2025_03_26: u32 = 4;
pub const BM_RULES_MCP_2024_11_05: u32 = 5;

pub const BM_CLIENT: u32 = 0;
pub const BM_SERVER: u32 = 1;

pub const BM_MUST: u32 = 0;
pub const BM_SHOULD: u32 = 1;
pub const BM_NOTE: u32 = 2;

pub const BM_WHOSE_CONNECTION: u32 = 0;
pub const BM_WHOSE_HOST: u32 = 1;
pub const BM_WHOSE_NOBODY: u32 = 2;

pub const BM_RULE_HEAD: u32 = 0;
pub const BM_RULE_NOT_JSON: u32 = 1;
pub const BM_RULE_CHARSET: u32 = 2;
pub const BM_RULE_CUT_OFF: u32 = 3;
pub const BM_RULE_LINE_END: u32 = 4;
pub const BM_RULE_OBJECT: u32 = 5;
pub const BM_RULE_VERSION: u32 = 6;
pub const BM_RULE_METHOD: u32 = 7;
pub const BM_RULE_PARAMS: u32 = 8;
pub const BM_RULE_ID: u32 = 9;
pub const BM_RULE_OUTCOME: u32 = 10;
pub const BM_RULE_ERROR: u32 = 11;
pub const BM_RULE_EMPTY_ARRAY: u32 = 12;
pub const BM_RULE_BATCH: u32 = 13;
pub const BM_RULE_NOT_OWED: u32 = 14;
pub const BM_RULE_NOT_AS_ARRAY: u32 = 15;
pub const BM_RULE_ID_FRACTION: u32 = 16;
pub const BM_RULE_ID_NULL: u32 = 17;
pub const BM_RULE_ID_FORM: u32 = 18;
pub const BM_RULE_ID_AGAIN: u32 = 19;
pub const BM_RULE_RPC_NAME: u32 = 20;
pub const BM_RULE_CODE: u32 = 21;
pub const BM_RULE_CANCELLED_CODE: u32 = 22;
pub const BM_RULE_CANCEL_PARAMS: u32 = 23;
pub const BM_RULE_CANCEL_UNKNOWN: u32 = 24;
pub const BM_RULE_CANCEL_INITIALIZE: u32 = 25;
pub const BM_RULE_AFTER_CANCEL: u32 = 26;
pub const BM_RULE_UNANSWERED: u32 = 27;
pub const BM_RULE_NOT_JUDGED: u32 = 28;
pub const BM_RULE_BOTH_KINDS: u32 = 29;
pub const BM_RULE_TWICE: u32 = 30;
pub const BM_RULE_PARAMS_OBJECT: u32 = 31;
pub const BM_RULE_RESULT_OBJECT: u32 = 32;

#[repr(C)]
#[derive(Clone, Copy, Debug, Default)]
pub struct bm_options {
    pub size: u32,
    pub framing: u32,
    pub order: u32,
    pub cancels: u32,
    pub broken: u32,
    pub content: u32,
    pub calls: u64,
    pub entries: u32,
    pub null_params: u32,
}

/// A copy is the same connection.
#[repr(C)]
#[derive(Clone, Copy)]
pub struct bm_connection {
    pub at: *mut c_void,
}

#[repr(C)]
#[derive(Clone, Copy, Debug)]
pub struct bm_event {
    pub kind: u32,
    pub flags: u32,
    pub number: u64,
    pub key: u64,
    pub code: i64,
    pub name_len: usize,
    pub text_len: usize,
    pub id_len: usize,
    pub name: *const u8,
    pub text: *const u8,
    pub id: *const u8,
}

#[repr(C)]
#[derive(Clone, Copy, Debug, Default)]
pub struct bm_report {
    pub calls: u64,
    pub requests: u64,
    pub open: u64,
    pub waiting: u64,
    pub own_calls: u64,
    pub answers_written: u64,
    pub unreadable: u64,
    pub invalid: u64,
    pub ignored: u64,
}

#[repr(C)]
#[derive(Clone, Copy, Debug, Default)]
pub struct bm_saying {
    pub kind: u32,
    pub said: i32,
    pub number: u64,
    pub key: u64,
    pub code: i64,
    pub name_len: usize,
    pub text_len: usize,
    pub calls: usize,
}

#[repr(C)]
#[derive(Clone, Copy, Debug, Default)]
pub struct bm_judge_options {
    pub size: u32,
    pub rules: u32,
    pub framing: u32,
    pub content: u32,
    pub ids: u32,
}

/// A copy is the same judge.
#[repr(C)]
#[derive(Clone, Copy)]
pub struct bm_judge {
    pub at: *mut c_void,
}

#[repr(C)]
#[derive(Clone, Copy, Debug, Default)]
pub struct bm_finding {
    pub side: u32,
    pub rule: u32,
    pub level: u32,
    pub whose: u32,
    pub number: u64,
    pub offset: u64,
    pub entry: u64,
}

extern "C" {
    pub fn bm_interface() -> u32;
    pub fn bm_open(options: *const bm_options, at: *mut *mut c_void) -> i32;
    pub fn bm_free(connection: bm_connection);
    pub fn bm_feed(connection: *mut bm_connection, bytes: *const u8, length: usize) -> i32;
    pub fn bm_end(connection: *mut bm_connection, how: u32) -> i32;
    pub fn bm_fault_at(connection: *mut bm_connection, offset: *mut u64) -> bool;
    pub fn bm_next(connection: *mut bm_connection, event: *mut bm_event) -> i32;
    pub fn bm_say_all(
        connection: *mut bm_connection,
        sayings: *mut bm_saying,
        count: usize,
        bytes: *const u8,
        length: usize,
        refused: *mut usize,
    ) -> i32;
    pub fn bm_call(
        connection: *mut bm_connection,
        number: u64,
        method: *const u8,
        method_length: usize,
        params: *const u8,
        params_length: usize,
        key: *mut u64,
    ) -> i32;
    pub fn bm_call_batch(
        connection: *mut bm_connection,
        number: u64,
        bytes: *const u8,
        length: usize,
        lengths: *const usize,
        lengths_count: usize,
        first: *mut u64,
    ) -> i32;
    pub fn bm_notify(
        connection: *mut bm_connection,
        method: *const u8,
        method_length: usize,
        params: *const u8,
        params_length: usize,
    ) -> i32;
    pub fn bm_withdraw(connection: *mut bm_connection, key: u64) -> i32;
    pub fn bm_answer(connection: *mut bm_connection, number: u64, result: *const u8, length: usize) -> i32;
    pub fn bm_close_call(connection: *mut bm_connection, number: u64) -> i32;
    pub fn bm_fail(
        connection: *mut bm_connection,
        number: u64,
        code: i64,
        message: *const u8,
        message_length: usize,
        data: *const u8,
        data_length: usize,
    ) -> i32;
    pub fn bm_cancel(connection: *mut bm_connection, number: u64) -> i32;
    pub fn bm_output(connection: *mut bm_connection, bytes: *mut *const u8) -> usize;
    pub fn bm_written(connection: *mut bm_connection, length: usize) -> i32;
    pub fn bm_pending(connection: *mut bm_connection) -> usize;
    pub fn bm_held(connection: *mut bm_connection) -> usize;
    pub fn bm_is_done(connection: *mut bm_connection) -> bool;
    pub fn bm_counts(connection: *mut bm_connection, report: *mut bm_report);
    pub fn bm_judge_open(options: *const bm_judge_options, at: *mut *mut c_void) -> i32;
    pub fn bm_judge_free(judge: bm_judge);
    pub fn bm_judge_saw(judge: *mut bm_judge, side: u32, bytes: *const u8, length: usize) -> i32;
    pub fn bm_judge_ended(judge: *mut bm_judge, side: u32, how: u32) -> i32;
    pub fn bm_judge_next(judge: *mut bm_judge, findings: *mut bm_finding, most: usize) -> usize;
}

#[cfg(test)]
mod tests;
