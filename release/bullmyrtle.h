/* JSON-RPC 2.0 connections, and a judge of conversations.
 *
 * A connection (bm_open) is one end of a JSON-RPC 2.0 conversation; its methods are your own code. It does no input or
 * output, starts no threads and reads no clock. In any order, you feed it the bytes that you have read, ask it for
 * events, answer requests, send requests and notifications, and write the bytes that it lends you. docs/connection.md
 * defines what it does.
 *
 *     bm_feed(&connection, piece, length);
 *     while ((code = bm_next(&connection, &event)) == BM_OK && event.kind != BM_NONE)
 *         look at the event, and call bm_answer, bm_fail, bm_call, ..
 *     while ((length = bm_output(&connection, &bytes)) > 0)
 *         write some of the bytes, and say by bm_written how many
 *
 * A judge (bm_judge_open) is given what two sides wrote, and reports which of them broke which rule of the protocol.
 *
 * Rules for all functions
 *
 * Memory. The functions copy the bytes that you pass, and keep no pointer of yours. The library uses malloc, realloc
 *   and free of the C library.
 * Loans. Two things are lent to you, and lie in the memory of the connection: you may read them, and not change them.
 *   The texts of an event hold until the next bm_feed, bm_end, bm_next or bm_free on the connection. What bm_output
 *   lends holds until the next bm_written or bm_free. All other calls leave both as they are, and where they are: you
 *   may answer, call and write while you look at an event, and pass its texts, or parts of them, to these calls. Pass
 *   no other memory of the library to it.
 * Pointers. No pointer may be NULL, but one to bytes, lengths, sayings, events or findings whose length or count is 0.
 *   A pointer to a struct or an integer must have the alignment that C requires for its type. Memory that a function
 *   writes to (an event, a key, a count) must not overlap with anything else that is passed to it.
 * Lengths. They are in bytes, unless stated otherwise. Text that you pass needs no terminating zero byte.
 * Threads. On one connection, or on one judge, make one call at a time. It may come from any thread, as long as
 *   something, such as a lock, orders the calls. Hold the lock until you have stored the key of an outgoing request, so
 *   that no other thread gets the response before that. Calls on different connections and judges may be made at the
 *   same time. Make no call in a signal handler, nor in the child of a fork() if the process has other threads.
 * Codes. A function with the result int32_t returns one of the codes below. If it isn't BM_OK, the function has
 *   reported nothing, sent nothing and written nothing to what you passed, unless stated otherwise. If several codes
 *   apply, the first of these is returned: BM_SETTINGS, BM_NOT_OPEN, BM_NOT_WAITING, BM_NOT_TEXT, BM_NOT_JSON, BM_OVER,
 *   BM_EMPTY, BM_FULL. BM_NO_MEMORY may be returned in place of the last five, and never in place of the first three;
 *   the same call may then be made again, except on a judge. In a batch, a method that isn't UTF-8 comes before params
 *   that aren't JSON, whichever request has them.
 * JSON. A JSON text is one value in UTF-8. One that you pass may be nested at most 120 levels deep. It is reported and
 *   sent in compact form: without whitespace between its parts, with its members in their order, and with all digits of
 *   its numbers. Half of a surrogate pair, as in "\ud800", isn't valid, whether it is received or passed.
 * Versions. bm_interface() stays 1 as long as functions are only added.
 */
#ifndef BULLMYRTLE_H
#define BULLMYRTLE_H

#include <stdbool.h>
#include <stddef.h>
#include <stdint.h>

#ifdef __cplusplus
extern "C" {
#endif

/* The version of this header. bm_interface() returns the library's. */
#define BM_INTERFACE 1

/* The codes that functions return. */
enum {
    BM_OK,
    BM_NO_MEMORY,   /* out of memory; the call may be made again */
    BM_NOT_OPEN,    /* no request or notification with this number was received, or it is answered already */
    BM_NOT_WAITING, /* no outgoing request with this key is pending, or it is cancelled already, or cancels are off */
    BM_OVER,        /* the input has ended */
    BM_NOT_JSON,    /* not a JSON text, or params that are neither an array nor an object */
    BM_NOT_TEXT,    /* a method or an error message that isn't UTF-8 */
    BM_SETTINGS,    /* an invalid setting, end of the input, side, kind of saying, list of lengths or length written */
    BM_EMPTY,       /* a batch without requests */
    BM_FULL         /* the keys would exceed 2^53 - 1 */
};

/* How messages are framed. A message may be a batch. */
enum {
    BM_FRAMES,  /* after a header with the Content-Length, as in the Language Server Protocol */
    BM_LINES,   /* one message per line, as in MCP's stdio transport */
    BM_CONTENTS /* one message per call of bm_feed and of bm_output, as with WebSocket */
};

/* When responses are sent. */
enum {
    BM_AS_ANSWERED, /* as soon as all requests of their message are answered */
    BM_AS_CAME      /* in the order received: then, but not before the responses to earlier messages */
};

/* Which notification cancels a request, both when it is received and when you cancel an outgoing request. */
enum {
    BM_CANCELS_NONE, /* none: every notification is a BM_CALL, and no outgoing request can be cancelled */
    BM_CANCELS_LSP,  /* $/cancelRequest, whose params name a request by "id" */
    BM_CANCELS_MCP   /* notifications/cancelled, whose params name a request by "requestId". A cancelled request gets
                      * no response if you call bm_cancel, and a request that you cancel is no longer pending */
};

/* How the input ended, for bm_end and bm_judge_ended. */
enum { BM_CLOSED, BM_READ_FAILED };

/* The kinds of events. */
enum {
    BM_NONE,       /* there is no event now */
    BM_CALL,       /* a request or a notification was received */
    BM_CANCELLED,  /* a cancel was received for a request that was open at that time */
    BM_REPLIED,    /* the response to an outgoing request was received */
    BM_UNANSWERED, /* the input has ended, and an outgoing request has no response */
    BM_INPUT_OVER, /* the input has ended; the last event */
    BM_BROKEN      /* an invalid message was received, and is answered anyway; reported only if bm_options say so */
};

/* Flags of an event: of BM_CALL, of BM_REPLIED, of BM_BROKEN. */
enum { BM_REQUEST = 1 };
enum { BM_ERROR = 1 };
enum {
    BM_UNREADABLE, /* the message isn't JSON in UTF-8, is nested more than 127 levels deep, or has another charset */
    BM_INVALID     /* it, or an entry of a batch, isn't a request, a notification or a response */
};

/* Flags of BM_INPUT_OVER: why the input has ended. */
enum {
    BM_OVER_CLEAN,         /* bm_end was passed BM_CLOSED */
    BM_OVER_BAD_HEAD,      /* a header line isn't a field (BM_FRAMES) */
    BM_OVER_BAD_LENGTH,    /* a Content-Length isn't a number of at most 10 digits (BM_FRAMES) */
    BM_OVER_TWO_LENGTHS,   /* a header has two Content-Lengths (BM_FRAMES) */
    BM_OVER_TOO_LARGE,     /* a message is longer than the setting allows */
    BM_OVER_NO_LENGTH,     /* a header has no Content-Length (BM_FRAMES) */
    BM_OVER_HEAD_TOO_LONG, /* a header has more than 4,096 bytes (BM_FRAMES) */
    BM_OVER_TRUNCATED,     /* the input was closed inside a frame (BM_FRAMES) */
    BM_OVER_READ,          /* bm_end was passed BM_READ_FAILED */
    BM_OVER_CALLS          /* more requests and notifications were received than the setting allows */
};

/* The kinds of sayings: for each the function that does the same, and its fields, name and text. */
enum {
    BM_SAY_ANSWER = 1, /* bm_answer: number; text: the result */
    BM_SAY_FAIL,       /* bm_fail: number, code; name: the message; text: the data, or none */
    BM_SAY_CLOSE,      /* bm_close_call: number */
    BM_SAY_CALL,       /* bm_call: number; name: the method; text: the params, or none. key is written */
    BM_SAY_BATCH,      /* bm_call_batch: number; calls. key is written */
    BM_SAY_NOTIFY,     /* bm_notify: name: the method; text: the params, or none */
    BM_SAY_WITHDRAW,   /* bm_withdraw: key */
    BM_SAY_CANCEL      /* bm_cancel: number */
};

/* The judge: the rules that a conversation is checked against. */
enum {
    BM_RULES_JSONRPC,        /* JSON-RPC 2.0 alone */
    BM_RULES_LSP,            /* the Language Server Protocol */
    BM_RULES_MCP,            /* the Model Context Protocol of 2025-11-25 */
    BM_RULES_MCP_2025_06_18, /* that of 2025-06-18 */
    BM_RULES_MCP_2025_03_26, /* that of 2025-03-26, which has batches */
    BM_RULES_MCP_2024_11_05  /* that of 2024-11-05 */
};

/* The two sides: the client is the one that started the other. */
enum { BM_CLIENT, BM_SERVER };

/* The level of a finding. */
enum {
    BM_MUST,   /* the standard forbids it */
    BM_SHOULD, /* the standard advises against it */
    BM_NOTE    /* allowed, but worth a look; or the judge can't know which side is wrong */
};

/* Who is responsible for keeping a rule. */
enum {
    BM_WHOSE_CONNECTION, /* a connection of this library, whatever its host does */
    BM_WHOSE_HOST,       /* its host: the program that uses it */
    BM_WHOSE_NOBODY      /* nobody: BM_RULE_NOT_JUDGED isn't a rule */
};

/* The rules: docs/judge.md describes what breaks each of them. */
enum {
    BM_RULE_HEAD,
    BM_RULE_NOT_JSON,
    BM_RULE_CHARSET,
    BM_RULE_CUT_OFF,
    BM_RULE_LINE_END,
    BM_RULE_OBJECT,
    BM_RULE_VERSION,
    BM_RULE_METHOD,
    BM_RULE_PARAMS,
    BM_RULE_ID,
    BM_RULE_OUTCOME,
    BM_RULE_ERROR,
    BM_RULE_EMPTY_ARRAY,
    BM_RULE_BATCH,
    BM_RULE_NOT_OWED,
    BM_RULE_NOT_AS_ARRAY,
    BM_RULE_ID_FRACTION,
    BM_RULE_ID_NULL,
    BM_RULE_ID_FORM,
    BM_RULE_ID_AGAIN,
    BM_RULE_RPC_NAME,
    BM_RULE_CODE,
    BM_RULE_CANCELLED_CODE,
    BM_RULE_CANCEL_PARAMS,
    BM_RULE_CANCEL_UNKNOWN,
    BM_RULE_CANCEL_INITIALIZE,
    BM_RULE_AFTER_CANCEL,
    BM_RULE_UNANSWERED,
    BM_RULE_NOT_JUDGED, /* not a rule: the judge can't decide, or can't go on */
    BM_RULE_BOTH_KINDS,
    BM_RULE_TWICE,
    BM_RULE_PARAMS_OBJECT,
    BM_RULE_RESULT_OBJECT
};

/* The options of bm_open. All zero except the size is a good start: frames, responses as soon as possible, no cancels,
 * and the default limits. */
typedef struct {
    uint32_t size;    /* sizeof(bm_options): it tells the library which fields there are */
    uint32_t framing; /* BM_FRAMES, BM_LINES or BM_CONTENTS */
    uint32_t order;   /* BM_AS_ANSWERED or BM_AS_CAME */
    uint32_t cancels; /* BM_CANCELS_NONE, BM_CANCELS_LSP or BM_CANCELS_MCP */
    uint32_t broken;  /* 1 to report BM_BROKEN, else 0 */
    uint32_t content; /* maximum message size in bytes, at most 2,147,483,647; 0 means 16,777,216 */
    uint64_t calls;   /* maximum number of requests and notifications received; 0 means 2^64 - 1 */
    uint32_t entries; /* maximum batch size; 0 means 100,000, and UINT32_MAX unlimited. A longer batch is treated as one
                       * invalid entry: it gets one response, none of its requests and notifications is reported, and
                       * the responses in it are lost */
    uint32_t null_params; /* 1 to report params that are null as the text null, else 0: they count as absent then */
} bm_options;

/* A connection. A copy of this struct is the same connection. */
typedef struct {
    void *at;
} bm_connection;

/* An event. Its name, text and id are lent: they hold until the next bm_feed, bm_end, bm_next or bm_free. No
 * zero byte follows them. What isn't listed for a kind is 0, and has no bytes.
 *
 *   BM_CALL        number; flags: BM_REQUEST, or 0 for a notification; name: the method; text: the params as JSON, of
 *                  length 0 if they are absent, or if they are null and bm_options don't ask for null params; id: as
 *                  JSON, of length 0 for a notification
 *   BM_CANCELLED   number: that of the request, which you may have answered since the cancel was received
 *   BM_REPLIED     key: that of the outgoing request; flags: BM_ERROR or 0; text: the result as JSON. For an error:
 *                  code; name: its message; text: its data as JSON, of length 0 if it has none. An error that is null
 *                  beside a result isn't an error
 *   BM_UNANSWERED  key: that of the outgoing request
 *   BM_INPUT_OVER  flags: why, BM_OVER_CLEAN or one of the values after it
 *   BM_BROKEN      number: how many bytes were fed before the first byte of the message; flags: BM_UNREADABLE or
 *                  BM_INVALID; text: the first bytes of the message, at most 64, which may be any bytes, zeros too. For
 *                  BM_INVALID key: the index of the first invalid entry, from 0, or 0 if the message isn't a batch;
 *                  code: how many invalid entries there are
 */
typedef struct {
    uint32_t kind;
    uint32_t flags;
    uint64_t number; /* of a received request or notification: they are counted from 1; for BM_BROKEN an offset */
    uint64_t key;    /* of an outgoing request: they are counted from 1; for BM_BROKEN the index of an entry */
    int64_t code;    /* of an error; for BM_BROKEN a count */
    size_t name_len;
    size_t text_len;
    size_t id_len;
    const uint8_t *name;
    const uint8_t *text;
    const uint8_t *id;
} bm_event;

/* What has happened so far. */
typedef struct {
    uint64_t calls;           /* requests and notifications received */
    uint64_t requests;        /* of these, the requests */
    uint64_t open;            /* requests and notifications received that aren't answered yet */
    uint64_t waiting;         /* outgoing requests that are pending */
    uint64_t own_calls;       /* outgoing requests, each one of a batch counted */
    uint64_t answers_written; /* responses sent, whether written yet or not; an array counts as one */
    uint64_t unreadable;      /* messages that couldn't be read (BM_UNREADABLE) */
    uint64_t invalid;         /* invalid messages; in a batch, each invalid entry (BM_INVALID) */
    uint64_t ignored;         /* responses that no request waited for, and cancels that reached no request */
} bm_report;

/* One saying of bm_say_all: a response, an outgoing request or batch, a notification or a cancel. Its name and its text
 * are in the bytes that are passed with it, after those of the sayings before it: first the name, then the text, with
 * nothing between. A text of length 0 is an absent one, as in the functions. */
typedef struct {
    uint32_t kind;   /* BM_SAY_ANSWER or one of the values after it */
    int32_t said;    /* written: its code, BM_OK if it succeeded */
    uint64_t number; /* of a received request or notification; for BM_SAY_CALL and BM_SAY_BATCH, as in bm_call */
    uint64_t key;    /* for BM_SAY_WITHDRAW, of an outgoing request. Written with BM_OK: for BM_SAY_CALL its key, for
                      * BM_SAY_BATCH the first key */
    int64_t code;    /* of the error, for BM_SAY_FAIL */
    size_t name_len; /* the length of its name */
    size_t text_len; /* the length of its text */
    size_t calls;    /* for BM_SAY_BATCH, how many of the sayings right after it are its requests */
} bm_saying;

/* The options of bm_judge_open. All zero except the size is a good start: JSON-RPC, frames, and the default limits. */
typedef struct {
    uint32_t size;    /* sizeof(bm_judge_options) */
    uint32_t rules;   /* BM_RULES_JSONRPC or one of the values after it */
    uint32_t framing; /* BM_FRAMES, BM_LINES or BM_CONTENTS, for both sides */
    uint32_t content; /* maximum message size in bytes, at most 16,777,216; 0 means this maximum */
    uint32_t ids;     /* how many used ids of a side are kept, consecutive integers counted as one; 0 means 1,000,000 */
} bm_judge_options;

/* A judge. A copy of this struct is the same judge. */
typedef struct {
    void *at;
} bm_judge;

/* A finding: which side broke which rule, and in which message. That side wrote the message, except for
 * BM_RULE_UNANSWERED: there it is the request of the other side. A finding doesn't quote the message, since the judge
 * doesn't keep what it was passed: you have the text, at the offset. */
typedef struct {
    uint32_t side;   /* BM_CLIENT or BM_SERVER: which one broke the rule */
    uint32_t rule;   /* BM_RULE_HEAD or one of the values after it */
    uint32_t level;  /* BM_MUST, BM_SHOULD or BM_NOTE */
    uint32_t whose;  /* BM_WHOSE_CONNECTION or one of the values after it */
    uint64_t number; /* the message's index in the stream of the side that wrote it, from 1 */
    uint64_t offset; /* of the message's first byte in that stream, from 0; for a framing fault, of its frame or line */
    uint64_t entry;  /* the entry's index in its batch, from 1; 0 if the message isn't a batch, or all of it is meant */
} bm_finding;

/* Returns the version of the library's functions. Compare it with BM_INTERFACE before any other call. */
uint32_t bm_interface(void);

/* Creates a connection and writes it to *at, as in
 *     bm_options options = {.size = sizeof options, .framing = BM_LINES, .cancels = BM_CANCELS_MCP, .broken = 1};
 *     bm_connection connection;
 *     int32_t code = bm_open(&options, &connection.at);
 * *at needn't be initialized, and is written only if the code is BM_OK. Free the connection by bm_free.
 * BM_SETTINGS: the options aren't valid, or the library doesn't know their size. BM_NO_MEMORY. */
int32_t bm_open(const bm_options *options, void **at);

/* Frees the connection and all that it holds. Make no call on it afterwards, nor on a copy of the struct. */
void bm_free(bm_connection connection);

/* Passes bytes of the input, in pieces of any size. With BM_CONTENTS each call passes one message; otherwise a length
 * of 0 has no effect. After a fault of the input, bytes are accepted and ignored.
 * BM_OVER: bm_end was called. BM_NO_MEMORY: none of the bytes was accepted. */
int32_t bm_feed(bm_connection *connection, const uint8_t *bytes, size_t length);

/* Ends the input, and says how it ended: BM_CLOSED or BM_READ_FAILED. Once everything received before is reported, each
 * pending outgoing request is reported as BM_UNANSWERED, and then the end as BM_INPUT_OVER. It needs no memory.
 * BM_OVER: bm_end was called before. BM_SETTINGS: `how` is another value. */
int32_t bm_end(bm_connection *connection, uint32_t how);

/* Returns whether the bytes that were fed have a fault. After the events of the messages before it, BM_INPUT_OVER
 * reports which fault it is, from BM_OVER_BAD_HEAD to BM_OVER_TRUNCATED. Writes to *offset how many bytes were fed
 * before the frame or line with the fault; with BM_CONTENTS, before the message that is too long. If there is no
 * fault, *offset is left unchanged. An offset of 2^64 or more, here and in BM_BROKEN, is reported as 2^64 - 1. */
bool bm_fault_at(bm_connection *connection, uint64_t *offset);

/* Reports the next event: writes it to *event, and lends its texts. Call it until the kind is BM_NONE, since an invalid
 * message is answered only by the call that goes past it.
 * BM_NO_MEMORY: the event isn't reported yet. */
int32_t bm_next(bm_connection *connection, bm_event *event);

/* Carries out all sayings in their order, each as the function of its kind does: one that is refused changes nothing,
 * and the ones after it are carried out all the same. Writes the code of each to its field `said`, and to *refused how
 * many got a code other than BM_OK.
 *
 * BM_SAY_BATCH is followed by its requests, as many sayings as its field `calls` says. Only their two lengths are read,
 * and nothing is written to them. If fewer sayings follow, the code of the batch is BM_SETTINGS, and none of them is
 * sent. The code of a saying of an unknown kind is BM_SETTINGS too. Bytes of a saying that its kind doesn't use are
 * skipped.
 *
 * BM_SETTINGS: the lengths of all names and texts don't add up to `length`. Then nothing is sent or written. */
int32_t bm_say_all(bm_connection *connection, bm_saying *sayings, size_t count, const uint8_t *bytes, size_t length,
                   size_t *refused);

/* Sends a request on behalf of the open request or notification `number`, or of none if it is 0. Writes to *key the key
 * with which the response is reported. A params_length of 0 means no params. Once `number` is answered, responses to
 * its outgoing requests are ignored.
 * BM_NOT_OPEN, BM_NOT_TEXT, BM_NOT_JSON, BM_OVER, BM_FULL, BM_NO_MEMORY. */
int32_t bm_call(bm_connection *connection, uint64_t number, const uint8_t *method, size_t method_length,
                const uint8_t *params, size_t params_length, uint64_t *key);

/* Sends several requests in one batch, all or nothing, on behalf of `number` as with bm_call. `bytes` has the method
 * and the params of each request, one after the other. `lengths` has two lengths per request, of its method and of its
 * params (0: no params), so `lengths_count` is twice the number of requests. Writes the first key to *first; the other
 * keys follow it in order.
 * BM_SETTINGS: `lengths_count` is odd, or the lengths don't add up to `length`. BM_NOT_OPEN, BM_NOT_TEXT,
 * BM_NOT_JSON, BM_OVER, BM_EMPTY, BM_FULL, BM_NO_MEMORY. */
int32_t bm_call_batch(bm_connection *connection, uint64_t number, const uint8_t *bytes, size_t length,
                      const size_t *lengths, size_t lengths_count, uint64_t *first);

/* Sends a notification, also after the input has ended. A params_length of 0 means no params.
 * BM_NOT_TEXT, BM_NOT_JSON, BM_NO_MEMORY. */
int32_t bm_notify(bm_connection *connection, const uint8_t *method, size_t method_length, const uint8_t *params,
                  size_t params_length);

/* Cancels an outgoing request: sends the cancel notification. The request stays pending, and its response is reported.
 * With BM_CANCELS_MCP it is no longer pending: the key is no longer valid, and a late response is ignored.
 * BM_NOT_WAITING, BM_NO_MEMORY. */
int32_t bm_withdraw(bm_connection *connection, uint64_t key);

/* Answers a request with a result, or closes a notification. For a notification pass a length of 0, since nothing is
 * sent; a result is checked all the same. For a request a length of 0 isn't a result. Each received request and
 * notification is held until it is answered, including a notification that has the name of a cancel and isn't one.
 * BM_NOT_OPEN, BM_NOT_JSON, BM_NO_MEMORY. */
int32_t bm_answer(bm_connection *connection, uint64_t number, const uint8_t *result, size_t length);

/* Closes a notification: bm_answer with a length of 0. A request can't be closed so: it is BM_NOT_JSON, and stays open.
 * BM_NOT_OPEN, BM_NOT_JSON, BM_NO_MEMORY. */
int32_t bm_close_call(bm_connection *connection, uint64_t number);

/* Answers a request with an error, or closes a notification. A data_length of 0 means no data.
 * BM_NOT_OPEN, BM_NOT_TEXT, BM_NOT_JSON, BM_NO_MEMORY. */
int32_t bm_fail(bm_connection *connection, uint64_t number, int64_t code, const uint8_t *message, size_t message_length,
                const uint8_t *data, size_t data_length);

/* Answers a request as cancelled (-32800), or closes a notification. Before that it cancels the pending outgoing
 * requests made on its behalf. With BM_CANCELS_MCP a request for which a cancel was received is closed without a
 * response: nothing is sent for it. In a batch its response is left out, and a batch without responses sends nothing.
 * BM_NOT_OPEN, BM_NO_MEMORY. */
int32_t bm_cancel(bm_connection *connection, uint64_t number);

/* Lends bytes that are to be written: writes to *bytes where they begin, and returns how many they are, 0 only if
 * nothing is to be written. With BM_CONTENTS they are one whole message. Until bm_written is called it lends the same
 * ones again; what is sent meanwhile comes after them. It needs no memory. */
size_t bm_output(bm_connection *connection, const uint8_t **bytes);

/* Says that the first `length` bytes of those that bm_output lends were written, and ends the loan: what is left of
 * them is lent by the next bm_output. With BM_CONTENTS a message goes as a whole.
 * BM_SETTINGS: so many aren't lent; with BM_CONTENTS, `length` is neither 0 nor all of them. */
int32_t bm_written(bm_connection *connection, size_t length);

/* Returns how many bytes are to be written in all, lent or not; with BM_CONTENTS, the length of the next message. It
 * isn't limited: stop feeding while it is large, such as more than a mebibyte, or more than the longest response that
 * you send. */
size_t bm_pending(bm_connection *connection);

/* Returns for how many bytes its buffers have room: what is to be written, lent or not, the texts of the event that was
 * reported last, and the next message. Once all is written it is small again, whatever was written before: at most
 * 73,728, the block that bm_output lent last, and those texts. It doesn't count what has memory of its own: requests
 * and notifications that are open, events that aren't reported yet, what was fed and isn't whole, and with BM_CONTENTS
 * the messages that wait. */
size_t bm_held(bm_connection *connection);

/* Returns whether all is done: the input has ended, every event is reported, every received request and notification
 * is answered, and every byte is written. */
bool bm_is_done(bm_connection *connection);

/* Writes to *report what has happened so far. */
void bm_counts(bm_connection *connection, bm_report *report);

/* Creates a judge, which has seen nothing yet, and writes it to *at, as in
 *     bm_judge_options options = {.size = sizeof options, .rules = BM_RULES_LSP};
 *     int32_t code = bm_judge_open(&options, &judge.at);
 * *at needn't be initialized, and is written only if the code is BM_OK. Free the judge by bm_judge_free.
 * BM_SETTINGS: the options aren't valid, or the library doesn't know their size. BM_NO_MEMORY. */
int32_t bm_judge_open(const bm_judge_options *options, void **at);

/* Frees the judge and all that it holds. Make no call on it afterwards, nor on a copy of the struct. */
void bm_judge_free(bm_judge judge);

/* Passes bytes that a side wrote, in pieces of any size; with BM_CONTENTS each call passes one message. Pass them in
 * the order in which they were written, and before the other side can have read them: a response is judged by the
 * requests before it. Bytes after the end of their side are ignored.
 * BM_SETTINGS: there is no such side. BM_NO_MEMORY: these bytes are ignored, and so is all later input: from then on
 * this function and bm_judge_ended return BM_NO_MEMORY. What was found before is still reported. */
int32_t bm_judge_saw(bm_judge *judge, uint32_t side, const uint8_t *bytes, size_t length);

/* Ends a side's stream, and says how it ended: BM_CLOSED or BM_READ_FAILED. A second end of a side is ignored.
 * BM_SETTINGS: there is no such side, or `how` is another value. BM_NO_MEMORY, as in bm_judge_saw. */
int32_t bm_judge_ended(bm_judge *judge, uint32_t side, uint32_t how);

/* Moves the first findings that aren't reported yet to `findings`, an array of `most`, and returns how many. The
 * others follow with the next call, in their order: call it until it returns less than `most`. It needs no memory. */
size_t bm_judge_next(bm_judge *judge, bm_finding *findings, size_t most);

/* Returns what a code means, in English. */
static inline const char *bm_code_text(int32_t code)
{
    static const char *const texts[] = {
        "done",
        "out of memory",
        "the call isn't open",
        "no call with this key waits",
        "the input is over",
        "not a JSON text, or params that are neither an array nor an object",
        "a method's name or a message that isn't UTF-8",
        "there are no such settings",
        "a batch of no calls",
        "no key is left",
    };
    return code >= 0 && (size_t)code < sizeof texts / sizeof *texts ? texts[code] : "another code";
}

/* Returns why the input has ended, in English, by the flags of BM_INPUT_OVER. */
static inline const char *bm_over_text(uint32_t flags)
{
    static const char *const texts[] = {
        "the input was closed",
        "a header line isn't a field",
        "a Content-Length isn't a number",
        "a header has two Content-Lengths",
        "a content is longer than the setting allows",
        "a header has no Content-Length",
        "a header has more than 4,096 bytes",
        "the input was closed inside a frame",
        "a read failed",
        "more calls came than the setting allows",
    };
    return flags < sizeof texts / sizeof *texts ? texts[flags] : "another end";
}

/* Returns a rule's name, by which docs/judge.md lists it. */
static inline const char *bm_rule_name(uint32_t rule)
{
    static const char *const names[] = {
        "head",           "not-json",
        "charset",        "cut-off",
        "line-end",       "object",
        "version",        "method",
        "params",         "id",
        "outcome",        "error",
        "empty-array",    "batch",
        "not-owed",       "not-as-array",
        "id-fraction",    "id-null",
        "id-form",        "id-again",
        "rpc-name",       "code",
        "cancelled-code", "cancel-params",
        "cancel-unknown", "cancel-initialize",
        "after-cancel",   "unanswered",
        "not-judged",     "both-kinds",
        "twice",          "params-object",
        "result-object",
    };
    return rule < sizeof names / sizeof *names ? names[rule] : "another rule";
}

/* Returns the sections of the standards that a rule is from. */
static inline const char *bm_rule_section(uint32_t rule)
{
    static const char *const sections[] = {
        "LSP, Base Protocol",
        "JSON-RPC 4; RFC 8259; MCP, stdio",
        "LSP, Base Protocol",
        "LSP, Base Protocol; MCP, stdio",
        "MCP, stdio",
        "JSON-RPC 4",
        "JSON-RPC 4, 5",
        "JSON-RPC 4",
        "JSON-RPC 4.2",
        "JSON-RPC 4, 5",
        "JSON-RPC 4, 5",
        "JSON-RPC 5.1",
        "JSON-RPC 6",
        "LSP has no word on them; MCP 2025-06-18, changes",
        "JSON-RPC 4.1, 5",
        "JSON-RPC 6",
        "JSON-RPC 4; LSP, Request Message; MCP, messages",
        "JSON-RPC 4; LSP, Request Message; MCP, messages",
        "JSON-RPC 4",
        "JSON-RPC 6; MCP, messages",
        "JSON-RPC 4",
        "JSON-RPC 5.1; LSP, ErrorCodes",
        "LSP, Cancellation Support",
        "LSP, Cancellation Support; MCP, cancellation",
        "LSP, Cancellation Support; MCP, cancellation",
        "MCP, cancellation",
        "MCP, cancellation",
        "JSON-RPC 5; LSP, Cancellation Support",
        "",
        "JSON-RPC 4, 5",
        "JSON-RPC 4, 5; RFC 8259, 4",
        "MCP, messages",
        "MCP, messages",
    };
    return rule < sizeof sections / sizeof *sections ? sections[rule] : "";
}

/* Returns what a level means, in English. */
static inline const char *bm_level_text(uint32_t level)
{
    static const char *const texts[] = {"must", "should", "note"};
    return level < sizeof texts / sizeof *texts ? texts[level] : "another level";
}

#ifdef __cplusplus
}
#endif

#endif
