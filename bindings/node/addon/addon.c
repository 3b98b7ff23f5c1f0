/* The addon for Node.js: connections of libbullmyrtle, crossed as rarely as can be.
 *
 * Two crossings carry a piece of input and all that is said of it:
 *   fed    bytes in; out come the heads of events, as numbers in an array, and their texts as ONE string, whose first
 *          part is an array of JSON that has the params and results of all; a large event's texts are strings of its
 *          own, made from where the library lends them
 *   say    answers, calls, notifications and withdrawals in, as numbers in an array and ONE string; bytes out
 * since a crossing costs little, and a string much. The other calls are those of the header, one by one.
 *
 * Nothing here is global: what connections share belongs to the thread of JavaScript that loaded the addon. No call of
 * JavaScript is made from here, so rooms are free again when a crossing is over. */
#include "outside.h"

#include "bullmyrtle.h"

/* How many numbers stand before the heads of events, how many an event has, and how many events are told at most: what
 * they ask for is said before the next are told, and a connection with few open calls is quicker than one with many. */
enum { BEFORE_HEADS = 4, HEAD = 6, MOST_EVENTS = 64 };
/* The same of what is said. */
enum { BEFORE_SAYINGS = 1, SAYING = 3, MOST_SAYINGS = 1024 };
/* The room for texts that cross together. Of events, names and ids have the last part of it, and bodies the first. */
enum { ROOM = 1 << 16, NAMES_ROOM = 1 << 13, BODIES_ROOM = ROOM - NAMES_ROOM };
/* A room for what is said that had to grow over this is given back once it was used. One below it is kept: a block of
 * some megabytes that is given back at each message costs more in faults of its pages than it holds. */
enum { KEPT = 1 << 23 };
/* What is told of broken input: an index of 20 digits at most, and 64 letters of two bytes. */
enum { BROKEN_ROOM = 20 + 2 * 64 };
/* What V8 is told that a connection holds outside of its heap. */
enum { OUTSIDE = 4096 };
/* Bits of a kind that is told, beside the event's kind and, 16 times, its flags. */
enum { FLAG = 16, LARGE_CODE = 256 };
/* Beside the kind of a saying that may have two texts: the second is absent. */
enum { ALONE = 16 };

typedef struct {
    uint8_t *at;
    size_t length;
} bytes;

/* What the connections of a thread share. */
typedef struct {
    uint8_t room[ROOM];           /* texts that cross together, on their way to a string or from one */
    uint8_t letters[BROKEN_ROOM]; /* what is told of broken input */
    bytes texts;                  /* what is said and has no room there */
    bytes sayings;                /* what is said, as bm_say_all takes it */
    double **heads;               /* arrays of JavaScript that are never given back, one for each depth of nesting */
    size_t heads_count;
    double *says;
} shared;

typedef struct {
    bm_connection at;
    bool is_contents;
} connection;

/* What a crossing is made with. */
typedef struct {
    napi_env env;
    napi_value given[6];
    shared *shared;
    connection *it;
} crossing;

/* Values */

static napi_value thrown(napi_env env, const char *code, const char *text)
{
    napi_throw_error(env, code, text);
    return NULL;
}

static napi_value no_memory(napi_env env)
{
    return thrown(env, "ERR_MEMORY_ALLOCATION_FAILED", "memory was refused");
}

static napi_value number(napi_env env, double value)
{
    napi_value made = NULL;
    napi_create_double(env, value, &made);
    return made;
}

/* A whole number, as a number or a BigInt; JavaScript has looked whether it is one. */
static uint64_t whole(napi_env env, napi_value value)
{
    uint64_t got = 0;
    double other = 0;
    bool is_whole;
    if (napi_get_value_bigint_uint64(env, value, &got, &is_whole) == napi_ok)
        return got;
    napi_get_value_double(env, value, &other);
    return (uint64_t)other;
}

static int64_t error_code(napi_env env, napi_value value)
{
    int64_t got = 0;
    double other = 0;
    bool is_whole;
    if (napi_get_value_bigint_int64(env, value, &got, &is_whole) == napi_ok)
        return got;
    napi_get_value_double(env, value, &other);
    return (int64_t)other;
}

static bool flag(napi_env env, napi_value value)
{
    bool got = false;
    napi_get_value_bool(env, value, &got);
    return got;
}

/* The bytes of a Uint8Array. (napi_get_buffer_info ends the process where it gets anything else, up to Node.js 18.) */
static bool bytes_of(napi_env env, napi_value value, bytes *got)
{
    napi_typedarray_type type;
    napi_status status = napi_get_typedarray_info(env, value, &type, &got->length, (void **)&got->at, NULL, NULL);
    return status == napi_ok && type == napi_uint8_array;
}

/* Makes a room at least so long. What it held is gone. */
static bool grow(bytes *room, size_t length)
{
    if (room->length >= length)
        return true;
    free(room->at);
    room->at = malloc(length);
    room->length = room->at ? length : 0;
    return room->at != NULL;
}

static void give_back(bytes *room)
{
    if (room->length <= KEPT)
        return;
    free(room->at);
    *room = (bytes){NULL, 0};
}

/* Reads what a call was given. Its first value is a connection's handle. */
static bool begin(crossing *to, napi_env env, napi_callback_info info)
{
    size_t count = sizeof to->given / sizeof *to->given;
    to->env = env;
    to->it = NULL;
    napi_get_instance_data(env, (void **)&to->shared);
    napi_get_cb_info(env, info, &count, to->given, NULL, NULL);
    if (napi_get_value_external(env, to->given[0], (void **)&to->it) == napi_ok && to->it->at.at)
        return true;
    thrown(env, "ERR_BULLMYRTLE_CLOSED", "the connection is closed");
    return false;
}

/* A connection's life */

static void forget(napi_env env, void *data, void *hint)
{
    connection *it = data;
    int64_t now;
    (void)hint;
    if (it->at.at)
        bm_free(it->at);
    napi_adjust_external_memory(env, -OUTSIDE, &now);
    free(it);
}

/* open(framing, order, cancels, content, calls, broken, entries, nullParams): a handle, or a code */
static napi_value open_one(napi_env env, napi_callback_info info)
{
    napi_value given[8], made = NULL;
    size_t count = 8;
    int64_t now;
    bm_options asked = {.size = sizeof asked};
    napi_get_cb_info(env, info, &count, given, NULL, NULL);
    napi_get_value_uint32(env, given[0], &asked.framing);
    napi_get_value_uint32(env, given[1], &asked.order);
    napi_get_value_uint32(env, given[2], &asked.cancels);
    napi_get_value_uint32(env, given[3], &asked.content);
    asked.calls = whole(env, given[4]);
    asked.broken = flag(env, given[5]);
    napi_get_value_uint32(env, given[6], &asked.entries);
    asked.null_params = flag(env, given[7]);
    connection *it = calloc(1, sizeof *it);
    if (it == NULL)
        return number(env, BM_NO_MEMORY);
    it->is_contents = asked.framing == BM_CONTENTS;
    int32_t code = bm_open(&asked, &it->at.at);
    if (code != BM_OK) {
        free(it);
        return number(env, code);
    }
    napi_adjust_external_memory(env, OUTSIDE, &now);
    if (napi_create_external(env, it, forget, NULL, &made) != napi_ok)
        forget(env, it, NULL);
    return made;
}

/* close(handle) */
static napi_value close_one(napi_env env, napi_callback_info info)
{
    crossing to;
    if (!begin(&to, env, info))
        return NULL;
    bm_free(to.it->at);
    to.it->at.at = NULL;
    return NULL;
}

/* Events */

/* Writes an event's head, but the lengths of its texts. */
static void put_head(const bm_event *event, double *head)
{
    const int64_t largest = ((int64_t)1 << 53) - 1;
    bool is_large = event->code > largest || event->code < -largest;
    bool has_key = event->kind == BM_REPLIED || event->kind == BM_UNANSWERED;
    head[0] = event->kind + event->flags * FLAG + (is_large ? LARGE_CODE : 0);
    head[1] = (double)(has_key ? event->key : event->number);
    head[2] = (double)event->code;
    if (is_large)
        memcpy(&head[2], &event->code, sizeof event->code);
}

static const uint64_t HIGH_BITS = 0x8080808080808080;

static bool is_ascii(const uint8_t *at, size_t length)
{
    uint64_t seen = 0, word;
    size_t i = 0;
    for (; i + 8 <= length; i += 8) {
        memcpy(&word, at + i, 8);
        seen |= word;
    }
    for (; i < length; i++)
        seen |= at[i];
    return !(seen & HIGH_BITS);
}

/* How many units of UTF-16 some UTF-8 is. */
static double units(const uint8_t *at, size_t length)
{
    size_t count = 0;
    for (size_t i = 0; i < length; i++)
        count += ((at[i] & 0xc0) != 0x80) + (at[i] >= 0xf0);
    return (double)count;
}

/* Writes a number in digits, and gives how many. */
static size_t put_digits(uint64_t number, uint8_t *to)
{
    uint64_t power = 1;
    size_t count = 0;
    while (number / power >= 10)
        power *= 10;
    for (; power > 0; power /= 10)
        to[count++] = (uint8_t)('0' + number / power % 10);
    return count;
}

/* Writes bytes as letters of Latin-1, and gives how many bytes these are. */
static size_t put_letters(const uint8_t *from, size_t length, uint8_t *to)
{
    const uint8_t *begin = to;
    for (size_t i = 0; i < length; i++) {
        if (from[i] >= 0x80)
            *to++ = 0xc0 | from[i] >> 6;
        *to++ = from[i] >= 0x80 ? (0x80 | (from[i] & 0x3f)) : from[i];
    }
    return (size_t)(to - begin);
}

typedef struct {
    const uint8_t *at;
    size_t length;
} text;

/* An event's texts, in the order of their lengths in its head. */
enum { NAME, BODY, ID, TEXTS };

static text text_at(const uint8_t *at, size_t length)
{
    return (text){length ? at : (const uint8_t *)"", length};
}

/* An event's texts as they are told. Broken input begins with any bytes, which no string has: JavaScript gets each as a
 * letter of Latin-1, in the place of an id, and the index of the first invalid entry as the name. */
static void texts_to_tell(const bm_event *event, bool wants_ids, uint8_t letters[BROKEN_ROOM], text texts[TEXTS])
{
    texts[NAME] = text_at(event->name, event->name_len);
    texts[BODY] = text_at(event->text, event->text_len);
    texts[ID] = text_at(event->id, wants_ids ? event->id_len : 0);
    if (event->kind != BM_BROKEN)
        return;
    size_t digits = put_digits(event->key, letters);
    texts[NAME] = text_at(letters, digits);
    texts[ID] = text_at(letters + digits, put_letters(event->text, event->text_len, letters + digits));
    texts[BODY].length = 0;
}

/* What one crossing tells. */
typedef struct {
    uint8_t *bodies, *names; /* where the next ones go */
    double units;            /* of the bodies */
    uint32_t count;
    bool wants_ids, has_more, is_plain;
    napi_value large; /* the texts of the last event, if it had no room */
} telling;

static napi_value string_of(napi_env env, text it, bool is_plain)
{
    napi_value made = NULL;
    if (is_plain)
        napi_create_string_latin1(env, (const char *)it.at, it.length, &made);
    else
        napi_create_string_utf8(env, (const char *)it.at, it.length, &made);
    return made;
}

/* An event's texts, each as a string, made from where the library has it; and a place for the string of what is told
 * before it. Where a text is longer than a string can be, there is nothing. */
static napi_value strings_of(napi_env env, const text texts[TEXTS])
{
    napi_value made = NULL;
    napi_create_array_with_length(env, TEXTS + 1, &made);
    for (uint32_t i = 0; i < TEXTS; i++) {
        napi_value one = string_of(env, texts[i], is_ascii(texts[i].at, texts[i].length));
        if (one == NULL)
            return NULL;
        napi_set_element(env, made, i, one);
    }
    return made;
}

/* Puts a text behind those before, writes how many units it has, and gives whether it is ASCII. */
static bool put(text it, uint8_t **end, double *length)
{
    bool is_plain = is_ascii(it.at, it.length);
    memcpy(*end, it.at, it.length);
    *end += it.length;
    *length = is_plain ? (double)it.length : units(it.at, it.length);
    return is_plain;
}

/* Puts an event's texts behind those before: its body with a comma, and its name and its id. Gives whether there was
 * room. */
static bool put_texts(shared *rooms, telling *how, const text texts[TEXTS], double *head)
{
    size_t bodies = BODIES_ROOM - (size_t)(how->bodies - rooms->room),
           names = ROOM - (size_t)(how->names - rooms->room);
    if (texts[BODY].length + 1 >= bodies || texts[NAME].length > names || texts[ID].length > names - texts[NAME].length)
        return false;
    how->is_plain &= put(texts[NAME], &how->names, &head[3]);
    how->is_plain &= put(texts[BODY], &how->bodies, &head[4]);
    how->is_plain &= put(texts[ID], &how->names, &head[5]);
    if (texts[BODY].length) {
        *how->bodies++ = ',';
        how->units += head[4] + 1;
    }
    return true;
}

/* Tells the next event, if there is one, and gives a code. */
static int32_t tell(crossing *to, telling *how, double *head)
{
    text texts[TEXTS];
    bm_event event;
    int32_t code = bm_next(&to->it->at, &event);
    if (code != BM_OK)
        return code;
    how->has_more = event.kind != BM_NONE;
    if (!how->has_more)
        return BM_OK;
    put_head(&event, head);
    texts_to_tell(&event, how->wants_ids, to->shared->letters, texts);
    bool has_room = put_texts(to->shared, how, texts, head);
    if (!has_room)
        how->large = strings_of(to->env, texts);
    how->count += has_room || how->large;
    return BM_OK;
}

/* Ends the bodies, and gives the string of all that had room. */
static napi_value string_of_all(crossing *to, telling *how)
{
    uint8_t *room = to->shared->room, *names = room + BODIES_ROOM;
    size_t length = (size_t)(how->names - names);
    if (how->bodies == room + 1) {
        how->bodies++;
        how->units++;
    }
    how->bodies[-1] = ']';
    memmove(how->bodies, names, length);
    return string_of(to->env, (text){room, (size_t)(how->bodies - room) + length}, how->is_plain);
}

/* Tells events. Writes a code to heads[0], how many events there are to [1], whether there may be more to [2], and then
 * the heads. Gives their texts, or nothing where there is no event: an array of JSON, whose elements are the bodies of
 * those that have one, and whose length stands in heads[3]; and behind it the name and the id of each. Where the last
 * event has no room in it, it is an array of that event's texts and this string. */
static napi_value told(crossing *to, double *heads, uint32_t most, bool wants_ids)
{
    uint8_t *room = to->shared->room;
    telling how = {room, room + BODIES_ROOM, 1, 0, wants_ids, true, true, NULL};
    int32_t code = BM_OK;
    *how.bodies++ = '[';
    while (code == BM_OK && how.has_more && !how.large && how.count < most)
        code = tell(to, &how, heads + BEFORE_HEADS + how.count * HEAD);
    heads[0] = how.count ? BM_OK : code;
    heads[1] = how.count;
    heads[2] = how.has_more;
    if (how.count == 0)
        return NULL;
    napi_value all = string_of_all(to, &how);
    heads[3] = how.units;
    if (how.large)
        napi_set_element(to->env, how.large, TEXTS, all);
    return how.large ? how.large : all;
}

/* An array of heads, by its place; it is thrown over where there is none. */
static double *heads_at(crossing *to, napi_value value)
{
    uint32_t place;
    if (napi_get_value_uint32(to->env, value, &place) == napi_ok && place < to->shared->heads_count)
        return to->shared->heads[place];
    thrown(to->env, "ERR_OUT_OF_RANGE", "there are no such heads");
    return NULL;
}

/* events(handle, heads, wantsIds, isOne): with the latter, one event is told, and nothing is read behind it */
static napi_value events(napi_env env, napi_callback_info info)
{
    crossing to;
    double *heads;
    if (!begin(&to, env, info) || !(heads = heads_at(&to, to.given[1])))
        return NULL;
    return told(&to, heads, flag(env, to.given[3]) ? 1 : MOST_EVENTS, flag(env, to.given[2]));
}

/* fed(handle, bytes, heads, wantsIds). A code is that of the bytes, none of which were taken then; where they were, and
 * there is no memory for an event, none is told, and there may be more. */
static napi_value fed(napi_env env, napi_callback_info info)
{
    crossing to;
    double *heads;
    bytes piece;
    if (!begin(&to, env, info) || !(heads = heads_at(&to, to.given[2])))
        return NULL;
    if (!bytes_of(env, to.given[1], &piece))
        return thrown(env, "ERR_INVALID_ARG_TYPE", "bytes are needed");
    int32_t code = bm_feed(&to.it->at, piece.at, piece.length);
    napi_value made = code == BM_OK ? told(&to, heads, MOST_EVENTS, flag(env, to.given[3])) : NULL;
    heads[0] = code;
    return made;
}

/* feed(handle, bytes): a code */
static napi_value feed(napi_env env, napi_callback_info info)
{
    crossing to;
    bytes piece;
    if (!begin(&to, env, info))
        return NULL;
    if (!bytes_of(env, to.given[1], &piece))
        return thrown(env, "ERR_INVALID_ARG_TYPE", "bytes are needed");
    return number(env, bm_feed(&to.it->at, piece.at, piece.length));
}

/* end(handle, isFailed): a code */
static napi_value end(napi_env env, napi_callback_info info)
{
    crossing to;
    if (!begin(&to, env, info))
        return NULL;
    return number(env, bm_end(&to.it->at, flag(env, to.given[1]) ? BM_READ_FAILED : BM_CLOSED));
}

/* Saying */

enum { SAYING_SIZE = sizeof(bm_saying) };

typedef struct {
    uint32_t kind;
    uint64_t number; /* of a call that came, or the key of one of ours */
    int64_t code;
    bytes first, second;
} saying;

/* Says one thing, and gives its code; for a call it writes the key. */
static int32_t say_one(bm_connection *at, const saying *it, uint64_t *key)
{
    bytes first = it->first, second = it->second;
    switch (it->kind) {
    case BM_SAY_ANSWER:
        return bm_answer(at, it->number, first.at, first.length);
    case BM_SAY_FAIL:
        return bm_fail(at, it->number, it->code, first.at, first.length, second.at, second.length);
    case BM_SAY_CLOSE:
        return bm_close_call(at, it->number);
    case BM_SAY_CALL:
        return bm_call(at, it->number, first.at, first.length, second.at, second.length, key);
    case BM_SAY_NOTIFY:
        return bm_notify(at, first.at, first.length, second.at, second.length);
    case BM_SAY_WITHDRAW:
        return bm_withdraw(at, it->number);
    case BM_SAY_CANCEL:
        return bm_cancel(at, it->number);
    }
    return BM_SETTINGS;
}

/* The next of some texts, each of which ends with LF. */
static bytes next_text(bytes *rest)
{
    uint8_t *end = memchr(rest->at, '\n', rest->length);
    bytes text = {rest->at, end ? (size_t)(end - rest->at) : rest->length};
    size_t over = text.length + (end ? 1 : 0);
    rest->at += over;
    rest->length -= over;
    return text;
}

static saying read_saying(const double *said, bytes *rest)
{
    uint32_t word = (uint32_t)said[0];
    saying it = {.kind = word & (ALONE - 1), .number = (uint64_t)said[1], .code = (int64_t)said[2]};
    it.first = it.second = (bytes){rest->at, 0};
    bool has_two = it.kind == BM_SAY_FAIL || it.kind == BM_SAY_CALL || it.kind == BM_SAY_NOTIFY;
    if (it.kind == BM_SAY_ANSWER || has_two)
        it.first = next_text(rest);
    if (has_two && !(word & ALONE))
        it.second = next_text(rest);
    return it;
}

/* Writes a thing to say as bm_say_all takes it, and moves its texts to where those before end: there they lie without
 * line feeds. */
static void put_saying(bm_saying *to, const saying *it, uint8_t **end)
{
    bool is_answer = it->kind == BM_SAY_ANSWER;
    bool is_withdrawal = it->kind == BM_SAY_WITHDRAW;
    *to = (bm_saying){.kind = it->kind, .code = it->code};
    to->number = is_withdrawal ? 0 : it->number;
    to->key = is_withdrawal ? it->number : 0;
    to->name_len = is_answer ? 0 : it->first.length;
    to->text_len = is_answer ? it->first.length : it->second.length;
    memmove(*end, it->first.at, it->first.length);
    memmove(*end + it->first.length, it->second.at, it->second.length);
    *end += it->first.length + it->second.length;
}

/* Writes what came of a thing that was said. */
static void put_said(double *said, const bm_saying *it)
{
    said[0] = it->said;
    if (it->kind == BM_SAY_CALL)
        said[1] = (double)it->key;
}

/* Says all, in their order, each by itself. In the place of each kind comes its code, and in that of a call's number
 * its key; in the first place how many were refused. */
static void say_all(crossing *to, uint32_t count, bytes texts)
{
    double *says = to->shared->says;
    uint8_t *begin = texts.at, *end = texts.at;
    bm_saying *sayings = (bm_saying *)to->shared->sayings.at;
    size_t refused = 0;
    for (uint32_t i = 0; i < count; i++) {
        saying it = read_saying(says + BEFORE_SAYINGS + i * SAYING, &texts);
        put_saying(&sayings[i], &it, &end);
    }
    bm_say_all(&to->it->at, sayings, count, begin, (size_t)(end - begin), &refused);
    for (uint32_t i = 0; i < count; i++)
        put_said(says + BEFORE_SAYINGS + i * SAYING, &sayings[i]);
    says[0] = (double)refused;
}

/* The same where there is no memory for the texts. */
static void refuse_all(double *says, uint32_t count)
{
    for (uint32_t i = 0; i < count; i++)
        says[BEFORE_SAYINGS + i * SAYING] = BM_NO_MEMORY;
    says[0] = count;
}

/* The UTF-8 of a string, in a shared room. A short one has room in any case, and isn't measured. */
static bool texts_of(crossing *to, napi_value value, bytes *texts)
{
    shared *rooms = to->shared;
    uint32_t length_in_units = 0;
    napi_get_value_uint32(to->env, to->given[3], &length_in_units);
    *texts = (bytes){rooms->room, ROOM};
    if ((size_t)length_in_units * 3 >= ROOM) {
        size_t length = 0;
        napi_get_value_string_utf8(to->env, value, NULL, 0, &length);
        if (!grow(&rooms->texts, length + 1))
            return false;
        *texts = rooms->texts;
    }
    napi_get_value_string_utf8(to->env, value, (char *)texts->at, texts->length, &texts->length);
    return true;
}

/* Moves bytes that are to be written to a room, as many as fit, and gives how many. A content goes as a whole, and
 * alone. */
static size_t take_bytes(connection *it, bytes out)
{
    const uint8_t *lent;
    size_t taken = 0, length;
    while (taken < out.length && (length = bm_output(&it->at, &lent)) > 0) {
        size_t left = out.length - taken;
        if (length > left && it->is_contents)
            break;
        length = length < left ? length : left;
        memcpy(out.at + taken, lent, length);
        bm_written(&it->at, length);
        taken += length;
        if (it->is_contents)
            break;
    }
    return taken;
}

/* say(handle, count, texts, units, out): how many bytes were taken to `out` */
static napi_value say(napi_env env, napi_callback_info info)
{
    crossing to;
    uint32_t count = 0;
    bytes out, texts;
    if (!begin(&to, env, info))
        return NULL;
    napi_get_value_uint32(env, to.given[1], &count);
    if (!bytes_of(env, to.given[4], &out) || count > MOST_SAYINGS)
        return thrown(env, "ERR_INVALID_ARG_TYPE", "a room is needed");
    if (count && grow(&to.shared->sayings, count * SAYING_SIZE) && texts_of(&to, to.given[2], &texts)) {
        say_all(&to, count, texts);
        give_back(&to.shared->texts);
    } else if (count)
        refuse_all(to.shared->says, count);
    return number(env, (double)take_bytes(to.it, out));
}

/* sayOne(handle, kind, number, code, first, second): a code; says[2] is a call's key. The texts are Uint8Arrays. */
static napi_value say_alone(napi_env env, napi_callback_info info)
{
    crossing to;
    uint64_t key = 0;
    saying it = {0};
    if (!begin(&to, env, info))
        return NULL;
    napi_get_value_uint32(env, to.given[1], &it.kind);
    it.number = whole(env, to.given[2]);
    it.code = error_code(env, to.given[3]);
    if (!bytes_of(env, to.given[4], &it.first) || !bytes_of(env, to.given[5], &it.second))
        return thrown(env, "ERR_INVALID_ARG_TYPE", "bytes are needed");
    int32_t code = say_one(&to.it->at, &it, &key);
    to.shared->says[2] = (double)key;
    return number(env, code);
}

/* callBatch(handle, number, bytes, lengths): a code; says[2] is the first key */
static napi_value call_batch(napi_env env, napi_callback_info info)
{
    crossing to;
    bytes texts;
    uint32_t *lengths = NULL;
    size_t count = 0;
    uint64_t first = 0;
    napi_typedarray_type type;
    if (!begin(&to, env, info))
        return NULL;
    if (!bytes_of(env, to.given[2], &texts) ||
        napi_get_typedarray_info(env, to.given[3], &type, &count, (void **)&lengths, NULL, NULL) != napi_ok ||
        type != napi_uint32_array)
        return thrown(env, "ERR_INVALID_ARG_TYPE", "bytes and their lengths are needed");
    size_t *wide = malloc((count + 1) * sizeof *wide);
    if (wide == NULL)
        return number(env, BM_NO_MEMORY);
    for (size_t i = 0; i < count; i++)
        wide[i] = lengths[i];
    int32_t code = bm_call_batch(&to.it->at, whole(env, to.given[1]), texts.at, texts.length, wide, count, &first);
    free(wide);
    to.shared->says[2] = (double)first;
    return number(env, code);
}

/* Taking, and what has happened */

/* take(handle, out): how many bytes were taken */
static napi_value take(napi_env env, napi_callback_info info)
{
    crossing to;
    bytes out;
    if (!begin(&to, env, info))
        return NULL;
    if (!bytes_of(env, to.given[1], &out))
        return thrown(env, "ERR_INVALID_ARG_TYPE", "a room is needed");
    return number(env, (double)take_bytes(to.it, out));
}

/* pending(handle) */
static napi_value pending(napi_env env, napi_callback_info info)
{
    crossing to;
    return begin(&to, env, info) ? number(env, (double)bm_pending(&to.it->at)) : NULL;
}

/* held(handle) */
static napi_value held(napi_env env, napi_callback_info info)
{
    crossing to;
    return begin(&to, env, info) ? number(env, (double)bm_held(&to.it->at)) : NULL;
}

/* isDone(handle) */
static napi_value is_done(napi_env env, napi_callback_info info)
{
    crossing to;
    napi_value made = NULL;
    if (begin(&to, env, info))
        napi_get_boolean(env, bm_is_done(&to.it->at), &made);
    return made;
}

/* counts(handle): the nine counts, in the header's order */
static napi_value counts(napi_env env, napi_callback_info info)
{
    crossing to;
    bm_report it;
    napi_value made = NULL;
    if (!begin(&to, env, info))
        return NULL;
    bm_counts(&to.it->at, &it);
    const uint64_t all[] = {it.calls,           it.requests,   it.open,    it.waiting, it.own_calls,
                            it.answers_written, it.unreadable, it.invalid, it.ignored};
    const uint32_t count = sizeof all / sizeof *all;
    napi_create_array_with_length(env, count, &made);
    for (uint32_t i = 0; i < count; i++)
        napi_set_element(env, made, i, number(env, (double)all[i]));
    return made;
}

/* faultAt(handle): the offset of the frame or line at fault, or undefined */
static napi_value fault_at(napi_env env, napi_callback_info info)
{
    crossing to;
    uint64_t offset = 0;
    if (!begin(&to, env, info) || !bm_fault_at(&to.it->at, &offset))
        return NULL;
    return number(env, (double)offset);
}

/* Loading */

/* An array of numbers that JavaScript and this addon both see, and which is never given back. */
static napi_value numbers(napi_env env, size_t count, double **at)
{
    napi_value buffer, made = NULL;
    napi_ref kept;
    if (napi_create_arraybuffer(env, count * sizeof **at, (void **)at, &buffer) == napi_ok &&
        napi_create_typedarray(env, napi_float64_array, count, buffer, 0, &made) == napi_ok)
        napi_create_reference(env, made, 1, &kept);
    return made;
}

/* heads(): an array for heads. The first that is made has the place 0, and so on. */
static napi_value heads(napi_env env, napi_callback_info info)
{
    shared *it;
    (void)info;
    napi_get_instance_data(env, (void **)&it);
    double **longer = malloc((it->heads_count + 1) * sizeof *longer);
    if (longer == NULL)
        return no_memory(env);
    if (it->heads_count)
        memcpy(longer, it->heads, it->heads_count * sizeof *longer);
    free(it->heads);
    it->heads = longer;
    napi_value made = numbers(env, BEFORE_HEADS + HEAD * MOST_EVENTS, &longer[it->heads_count]);
    if (made)
        it->heads_count++;
    return made;
}

static void forget_shared(napi_env env, void *data, void *hint)
{
    shared *it = data;
    (void)env, (void)hint;
    free(it->texts.at);
    free(it->sayings.at);
    free(it->heads);
    free(it);
}

__attribute__((visibility("default"))) int32_t node_api_module_get_api_version_v1(void)
{
    return 8;
}

__attribute__((visibility("default"))) napi_value napi_register_module_v1(napi_env env, napi_value exports)
{
    static const struct {
        const char *name;
        napi_callback call;
    } calls[] = {
        {"open", open_one},        {"close", close_one}, {"heads", heads},     {"feed", feed}, {"fed", fed},
        {"events", events},        {"end", end},         {"say", say},         {"take", take}, {"sayOne", say_alone},
        {"callBatch", call_batch}, {"counts", counts},   {"pending", pending}, {"held", held}, {"isDone", is_done},
        {"faultAt", fault_at},
    };
    if (bm_interface() != BM_INTERFACE)
        return thrown(env, "ERR_BULLMYRTLE_INTERFACE", "the library has another interface");
    shared *it = calloc(1, sizeof *it);
    if (it == NULL)
        return no_memory(env);
    napi_set_instance_data(env, it, forget_shared, NULL);
    for (size_t i = 0; i < sizeof calls / sizeof *calls; i++) {
        napi_value call;
        napi_create_function(env, calls[i].name, NAPI_AUTO_LENGTH, calls[i].call, NULL, &call);
        napi_set_named_property(env, exports, calls[i].name, call);
    }
    napi_set_named_property(env, exports, "says", numbers(env, BEFORE_SAYINGS + SAYING * MOST_SAYINGS, &it->says));
    return exports;
}
