/* usage: play_script [together]
 *
 * Plays a script for a connection through the C library: an action a line on the standard input, what it gives on the
 * standard output. connection_script.py has the grammar. With `together`, what is said in lines that follow one another
 * is said by one bm_say_all. What is given is the same.
 *
 * What the library lends is compared with a copy of it behind each action, as long as the loan lasts. Texts that lie in
 * a lent event are passed from there. */
#include "bullmyrtle.h"

#include <errno.h>
#include <stddef.h>
#include <stdio.h>
#include <stdlib.h>
#include <string.h>

/* The texts of the codes, as scripts have them. */
static const char *const refusals[] = {"",         "memory",   "not_open", "not_waiting", "over",
                                       "not_json", "not_text", "settings", "empty",       "full"};
static const char *const endings[] = {"Clean",    "BadHead",     "BadLength", "TwoLengths", "TooLarge",
                                      "NoLength", "HeadTooLong", "Truncated", "Read",       "Full"};

typedef struct {
    uint8_t *at; /* malloc'd at its exact length, so that valgrind sees each byte that is read outside of it */
    size_t length;
    bool is_none;
} bytes;

static bm_connection connection;
static bool has_connection, has_begun, in_contents;

static void give_up(void)
{
    exit(2);
}

/* Something that the library promises and doesn't keep. */
static void check(bool is_so, const char *what)
{
    if (!is_so) {
        fprintf(stderr, "play_script: %s\n", what);
        exit(6);
    }
}

static void *taken(size_t size)
{
    void *at = malloc(size ? size : 1);
    if (!at)
        exit(3);
    return at;
}

static int digit(char it)
{
    if (it >= '0' && it <= '9')
        return it - '0';
    if (it >= 'a' && it <= 'f')
        return it - 'a' + 10;
    give_up();
    return 0;
}

/* The next word of the line. */
static char *word(char **line)
{
    char *at = *line, *end;
    if (!at || !*at)
        give_up();
    end = strchr(at, ' ');
    if (end) {
        *end = 0;
        *line = end + 1;
    } else
        *line = NULL;
    if (!*at)
        give_up();
    return at;
}

static void no_more(const char *line)
{
    if (line)
        give_up();
}

static bool is_decimal(const char *it)
{
    return *it && strspn(it, "0123456789") == strlen(it) && (*it != '0' || !it[1]);
}

static uint64_t number(const char *it)
{
    if (!is_decimal(it))
        give_up();
    errno = 0;
    uint64_t value = strtoull(it, NULL, 10);
    if (errno)
        give_up();
    return value;
}

static int64_t code_in(const char *it)
{
    if (!is_decimal(it + (*it == '-')) || !strcmp(it, "-0"))
        give_up();
    errno = 0;
    int64_t value = strtoll(it, NULL, 10);
    if (errno)
        give_up();
    return value;
}

static bytes unhex(const char *it, bool may_be_none)
{
    bytes made = {NULL, 0, false};
    if (may_be_none && !strcmp(it, "-")) {
        made.is_none = true;
        made.at = taken(0);
        return made;
    }
    /* In C no bytes are none. A script's empty text stands for bytes that aren't JSON, and so does a blank. */
    if (may_be_none && !strcmp(it, "."))
        it = "20";
    size_t length = strcmp(it, ".") ? strlen(it) : 0;
    if (length % 2 || !*it)
        give_up();
    made.at = taken(length / 2);
    made.length = length / 2;
    for (size_t i = 0; i < made.length; i++)
        made.at[i] = (uint8_t)(digit(it[2 * i]) * 16 + digit(it[2 * i + 1]));
    return made;
}

static void put_hex(const uint8_t *at, size_t length)
{
    if (!length)
        putchar('.');
    for (size_t i = 0; i < length; i++)
        printf("%02x", at[i]);
}

/* Of an event, a text of no bytes is none. */
static void put_text(const uint8_t *at, size_t length)
{
    putchar(' ');
    if (length)
        put_hex(at, length);
    else
        putchar('-');
}

static void say(int32_t code)
{
    if (code == BM_OK)
        puts("ok");
    else
        printf("refused %s\n", refusals[code]);
}

static void say_key(int32_t code, uint64_t key)
{
    if (code == BM_OK)
        printf("key %llu\n", (unsigned long long)key);
    else
        say(code);
}

static void say_event(const bm_event *event)
{
    switch (event->kind) {
    case BM_NONE:
        puts("none");
        return;
    case BM_CALL:
        printf("call %llu ", (unsigned long long)event->number);
        put_hex(event->name, event->name_len);
        put_text(event->text, event->text_len);
        put_text(event->id, event->id_len);
        break;
    case BM_CANCELLED:
        printf("cancelled %llu", (unsigned long long)event->number);
        break;
    case BM_REPLIED:
        printf("replied %llu ", (unsigned long long)event->key);
        if (event->flags == BM_ERROR) {
            printf("error %lld ", (long long)event->code);
            put_hex(event->name, event->name_len);
            put_text(event->text, event->text_len);
        } else {
            printf("result ");
            put_hex(event->text, event->text_len);
        }
        break;
    case BM_UNANSWERED:
        printf("unanswered %llu", (unsigned long long)event->key);
        break;
    case BM_INPUT_OVER:
        printf("over %s", endings[event->flags]);
        break;
    case BM_BROKEN:
        printf("broken %llu ", (unsigned long long)event->number);
        if (event->flags == BM_INVALID)
            printf("invalid %llu %lld ", (unsigned long long)event->key, (long long)event->code);
        else
            printf("unreadable ");
        put_hex(event->text, event->text_len);
        break;
    }
    putchar('\n');
}

/* ---- what is lent */

typedef struct {
    const uint8_t *at;
    uint8_t *copy;
    size_t length;
} loan;

/* The three texts of an event, and what is to be written. */
enum { NAME, TEXT, ID, OUTPUT, LOANS };
static loan loans[LOANS];

static void end_loan(loan *it)
{
    free(it->copy);
    *it = (loan){NULL, NULL, 0};
}

static void begin_loan(loan *it, const uint8_t *at, size_t length)
{
    end_loan(it);
    *it = (loan){at, taken(length), length};
    if (length)
        memcpy(it->copy, at, length);
}

static void check_loans(void)
{
    for (int i = 0; i < LOANS; i++)
        check(!loans[i].length || !memcmp(loans[i].at, loans[i].copy, loans[i].length), "what is lent has changed");
}

/* The texts of the event go back. */
static void end_event(void)
{
    check_loans();
    for (int i = NAME; i <= ID; i++)
        end_loan(&loans[i]);
}

/* Where these bytes lie in the event that is lent, or else where they are. */
static const uint8_t *lent(const uint8_t *own, size_t length)
{
    for (int i = NAME; length && i <= ID; i++)
        for (size_t at = 0; at + length <= loans[i].length; at++)
            if (loans[i].at[at] == *own && !memcmp(loans[i].at + at, own, length))
                return loans[i].at + at;
    return own;
}

/* What bm_output lends, which is the same until something of it was written. */
static const uint8_t *output(size_t *length)
{
    const uint8_t *at = NULL;
    size_t pending = bm_pending(&connection);
    *length = bm_output(&connection, &at);
    check((*length > 0) == (pending > 0) && *length <= pending, "it lends as much as isn't pending");
    check(!in_contents || *length == pending, "it lends other than a message");
    check(pending == bm_pending(&connection), "other bytes are pending once they are lent");
    check(bm_held(&connection) >= pending, "there is room for less than is pending");
    if (loans[OUTPUT].at)
        check(at == loans[OUTPUT].at && *length == loans[OUTPUT].length, "it lends other bytes than before");
    else if (*length)
        begin_loan(&loans[OUTPUT], at, *length);
    check_loans();
    return at;
}

static void written(size_t length, size_t of)
{
    check(bm_written(&connection, of + 1) == BM_SETTINGS, "more was written than is lent");
    check(bm_written(&connection, SIZE_MAX) == BM_SETTINGS, "more was written than is lent");
    check(!in_contents || of == 1 || bm_written(&connection, of - 1) == BM_SETTINGS, "a part of a message was written");
    check_loans();
    size_t pending = bm_pending(&connection);
    check(bm_written(&connection, length) == BM_OK, "what was written isn't taken note of");
    check(in_contents || pending - length == bm_pending(&connection), "other bytes are pending");
    end_loan(&loans[OUTPUT]);
}

/* Takes so many bytes, or in Contents a message that has no more; an odd number byte by byte, where few are lent, since
 * each byte looks at all of them. */
enum { FEW = 4096 };

static void take(size_t most)
{
    /* (no more than there is, so that a script may ask for 2^40 bytes) */
    size_t pending = bm_pending(&connection), length, count = 0;
    if (most > pending)
        most = pending;
    else if (in_contents && most < pending)
        most = 0;
    uint8_t *bytes = taken(most);
    while (count < most) {
        const uint8_t *at = output(&length);
        size_t part = length < most - count ? length : most - count;
        if (!in_contents && most % 2 && length <= FEW)
            part = 1;
        check(0 < part && (!in_contents || part == length), "it lends as much as isn't pending");
        memcpy(bytes + count, at, part);
        written(part, length);
        count += part;
    }
    printf("bytes ");
    put_hex(bytes, count);
    putchar('\n');
    free(bytes);
}

/* What isn't listed for a kind is 0. */
static void check_fields(const bm_event *it)
{
    bm_event only = {.kind = it->kind};
    bool is_error = it->kind == BM_REPLIED && it->flags == BM_ERROR;
    bool is_invalid = it->kind == BM_BROKEN && it->flags == BM_INVALID;
    bool has_text = it->kind == BM_CALL || it->kind == BM_REPLIED || it->kind == BM_BROKEN;
    if (has_text || it->kind == BM_INPUT_OVER)
        only.flags = it->flags;
    if (it->kind == BM_CALL || it->kind == BM_CANCELLED || it->kind == BM_BROKEN)
        only.number = it->number;
    if (it->kind == BM_REPLIED || it->kind == BM_UNANSWERED || is_invalid)
        only.key = it->key;
    if (is_error || is_invalid)
        only.code = it->code;
    if (it->kind == BM_CALL || is_error)
        only.name_len = it->name_len;
    if (has_text)
        only.text_len = it->text_len;
    if (it->kind == BM_CALL && it->flags == BM_REQUEST)
        only.id_len = it->id_len;
    size_t head = (size_t)((const char *)&only.name - (const char *)&only);
    check(!memcmp(it, &only, head), "an event has more than its kind");
}

static void next(void)
{
    bm_event event;
    memset(&event, 0xa5, sizeof event);
    end_event();
    int32_t code = bm_next(&connection, &event);
    if (code != BM_OK) {
        say(code);
        return;
    }
    check_fields(&event);
    begin_loan(&loans[NAME], event.name, event.name_len);
    begin_loan(&loans[TEXT], event.text, event.text_len);
    begin_loan(&loans[ID], event.id, event.id_len);
    say_event(&event);
}

static void end_connection(void)
{
    check_loans();
    for (int i = 0; i < LOANS; i++)
        end_loan(&loans[i]);
    if (has_connection)
        bm_free(connection);
    has_connection = false;
}

static uint32_t one_of(const char *it, const char *const *names, uint32_t count)
{
    for (uint32_t i = 0; i < count; i++)
        if (!strcmp(it, names[i]))
            return i;
    give_up();
    return 0;
}

/* Whether the next word is this one; it is passed over then. */
static bool takes(char **line, const char *name)
{
    size_t length = strlen(name);
    if (!*line || strncmp(*line, name, length) || ((*line)[length] && (*line)[length] != ' '))
        return false;
    word(line);
    return true;
}

/* How many entries a batch may have, by the word `entries=MOST`; where no word is left, any number. */
static uint32_t most_entries(char **line)
{
    static const char name[] = "entries=";
    if (!*line)
        return UINT32_MAX;
    const char *it = word(line);
    if (strncmp(it, name, sizeof name - 1))
        give_up();
    uint64_t most = number(it + sizeof name - 1);
    if (!most)
        give_up();
    return most > UINT32_MAX ? UINT32_MAX : (uint32_t)most;
}

static void begin(char *line)
{
    static const char *const framings[] = {"frames", "lines", "contents"};
    static const char *const orders[] = {"as-answered", "as-came"};
    static const char *const cancels[] = {"no-cancels", "cancels", "mcp"};
    bm_options options = {.size = sizeof options};
    options.framing = one_of(word(&line), framings, 3);
    options.order = one_of(word(&line), orders, 2);
    options.cancels = one_of(word(&line), cancels, 3);
    uint64_t content = number(word(&line));
    options.calls = number(word(&line));
    options.broken = takes(&line, "broken");
    options.null_params = takes(&line, "nulls");
    options.entries = most_entries(&line);
    no_more(line);
    has_begun = true;
    end_connection();
    in_contents = options.framing == BM_CONTENTS;
    /* a limit of 0 is the greatest here, and none in a script */
    options.content = content > UINT32_MAX ? UINT32_MAX : (uint32_t)content;
    int32_t code = content && options.calls ? bm_open(&options, &connection.at) : BM_SETTINGS;
    has_connection = code == BM_OK;
    say(code);
}

static void batch(char *line)
{
    uint64_t of = number(word(&line)), first = 0;
    size_t capacity = 0, total = 0, count = 0;
    for (char *it = line; it && *it; it++)
        capacity += *it == ' ';
    bytes *parts = taken((capacity + 2) * sizeof *parts);
    while (line) {
        parts[count] = unhex(word(&line), false);
        parts[count + 1] = unhex(word(&line), true);
        total += parts[count].length + parts[count + 1].length;
        count += 2;
    }
    uint8_t *all = taken(total), *end = all;
    size_t *lengths = taken(count * sizeof *lengths);
    for (size_t i = 0; i < count; i++) {
        if (parts[i].length)
            memcpy(end, parts[i].at, parts[i].length);
        end += parts[i].length;
        lengths[i] = parts[i].length;
        free(parts[i].at);
    }
    int32_t code = bm_call_batch(&connection, of, lent(all, total), total, lengths, count, &first);
    say_key(code, first);
    free(parts);
    free(all);
    free(lengths);
}

static void fault_place(void)
{
    const uint64_t untouched = 0xa5a5a5a5a5a5a5a5;
    uint64_t place = untouched;
    if (bm_fault_at(&connection, &place))
        printf("place %llu\n", (unsigned long long)place);
    else {
        check(place == untouched, "a place was written where there is no fault");
        puts("none");
    }
}

static void counts(void)
{
    bm_report it;
    bm_counts(&connection, &it);
    const uint64_t all[] = {it.calls,           it.requests,   it.open,    it.waiting, it.own_calls,
                            it.answers_written, it.unreadable, it.invalid, it.ignored};
    printf("report");
    for (size_t i = 0; i < sizeof all / sizeof *all; i++)
        printf(" %llu", (unsigned long long)all[i]);
    putchar('\n');
}

static void play(char *line)
{
    const char *action = word(&line);
    if (!strcmp(action, "settings")) {
        begin(line);
        return;
    }
    if (!has_begun)
        give_up();
    if (!has_connection) {
        puts("refused settings");
        return;
    }
    if (!strcmp(action, "feed")) {
        bytes it = unhex(word(&line), false);
        end_event();
        say(bm_feed(&connection, it.at, it.length));
        free(it.at);
    } else if (!strcmp(action, "end")) {
        end_event();
        static const char *const ways[] = {"closed", "failed"};
        say(bm_end(&connection, one_of(word(&line), ways, 2)));
    } else if (!strcmp(action, "next"))
        next();
    else if (!strcmp(action, "call")) {
        uint64_t of = number(word(&line)), key = 0;
        bytes method = unhex(word(&line), false), params = unhex(word(&line), true);
        int32_t code = bm_call(&connection, of, lent(method.at, method.length), method.length,
                               lent(params.at, params.length), params.length, &key);
        say_key(code, key);
        free(method.at);
        free(params.at);
    } else if (!strcmp(action, "batch")) {
        batch(line);
        line = NULL;
    } else if (!strcmp(action, "notify")) {
        bytes method = unhex(word(&line), false), params = unhex(word(&line), true);
        say(bm_notify(&connection, lent(method.at, method.length), method.length, lent(params.at, params.length),
                      params.length));
        free(method.at);
        free(params.at);
    } else if (!strcmp(action, "withdraw"))
        say(bm_withdraw(&connection, number(word(&line))));
    else if (!strcmp(action, "answer")) {
        uint64_t of = number(word(&line));
        bytes result = unhex(word(&line), true);
        /* (either call closes a notification) */
        if (result.is_none && of % 2)
            say(bm_close_call(&connection, of));
        else
            say(bm_answer(&connection, of, lent(result.at, result.length), result.length));
        free(result.at);
    } else if (!strcmp(action, "fail")) {
        uint64_t of = number(word(&line));
        int64_t code = code_in(word(&line));
        bytes message = unhex(word(&line), false), data = unhex(word(&line), true);
        say(bm_fail(&connection, of, code, lent(message.at, message.length), message.length, lent(data.at, data.length),
                    data.length));
        free(message.at);
        free(data.at);
    } else if (!strcmp(action, "cancel"))
        say(bm_cancel(&connection, number(word(&line))));
    else if (!strcmp(action, "take"))
        take((size_t)number(word(&line)));
    else if (!strcmp(action, "pending"))
        printf("pending %zu\n", bm_pending(&connection));
    else if (!strcmp(action, "is_done"))
        puts(bm_is_done(&connection) ? "true" : "false");
    else if (!strcmp(action, "fault_place"))
        fault_place();
    else if (!strcmp(action, "report"))
        counts();
    else
        give_up();
    no_more(line);
}

/* Has some of the output lent at one line in LOOK, and looks whether all that is lent is as it was. */
enum { LOOK = 3, MOST_LENT = 1 << 16 };

static void look(void)
{
    static unsigned long lines;
    size_t length;
    if (!has_connection)
        return;
    if (++lines % LOOK == 0 && bm_pending(&connection) <= MOST_LENT)
        output(&length);
    check_loans();
}

/* ---- several actions in one call */

static bool is(const char *line, const char *action)
{
    size_t length = strlen(action);
    return !strncmp(line, action, length) && (!line[length] || line[length] == ' ');
}

/* What is to be said. */
static bm_saying *sayings;
static uint8_t *texts;
static size_t saying_count, text_length;

/* One more, in memory of just the size that is needed. What its kind has no use for holds any bytes. */
static bm_saying *one_more(uint32_t kind, bytes name, bytes text)
{
    bm_saying *more = taken((saying_count + 1) * sizeof *more);
    uint8_t *more_texts = taken(text_length + name.length + text.length);
    if (saying_count)
        memcpy(more, sayings, saying_count * sizeof *more);
    if (text_length)
        memcpy(more_texts, texts, text_length);
    if (name.length)
        memcpy(more_texts + text_length, name.at, name.length);
    if (text.length)
        memcpy(more_texts + text_length + name.length, text.at, text.length);
    free(sayings);
    free(texts);
    free(name.at);
    free(text.at);
    sayings = more;
    texts = more_texts;
    text_length += name.length + text.length;
    bm_saying *made = &sayings[saying_count++];
    memset(made, 0xa5, sizeof *made);
    made->kind = kind;
    made->name_len = name.length;
    made->text_len = text.length;
    return made;
}

static bool is_saying(const char *line)
{
    static const char *const kinds[] = {"call", "batch", "notify", "withdraw", "answer", "fail", "cancel"};
    for (size_t i = 0; i < sizeof kinds / sizeof *kinds; i++)
        if (is(line, kinds[i]))
            return true;
    return false;
}

/* Reads a line that says something. */
static void read_saying(char *line)
{
    bytes none = {NULL, 0, true};
    const char *action = word(&line);
    if (!strcmp(action, "withdraw")) {
        one_more(BM_SAY_WITHDRAW, none, none)->key = number(word(&line));
    } else if (!strcmp(action, "cancel")) {
        one_more(BM_SAY_CANCEL, none, none)->number = number(word(&line));
    } else if (!strcmp(action, "notify")) {
        bytes method = unhex(word(&line), false), params = unhex(word(&line), true);
        one_more(BM_SAY_NOTIFY, method, params);
    } else if (!strcmp(action, "answer")) {
        uint64_t of = number(word(&line));
        bytes result = unhex(word(&line), true);
        one_more(result.is_none ? BM_SAY_CLOSE : BM_SAY_ANSWER, none, result)->number = of;
    } else if (!strcmp(action, "fail")) {
        uint64_t of = number(word(&line));
        int64_t code = code_in(word(&line));
        bytes message = unhex(word(&line), false), data = unhex(word(&line), true);
        bm_saying *it = one_more(BM_SAY_FAIL, message, data);
        it->number = of;
        it->code = code;
    } else if (!strcmp(action, "call")) {
        uint64_t of = number(word(&line));
        bytes method = unhex(word(&line), false), params = unhex(word(&line), true);
        one_more(BM_SAY_CALL, method, params)->number = of;
    } else {
        size_t at = saying_count, calls = 0;
        one_more(BM_SAY_BATCH, none, none)->number = number(word(&line));
        for (; line; calls++) {
            bytes method = unhex(word(&line), false), params = unhex(word(&line), true);
            one_more(0xa5a5a5a5, method, params);
        }
        sayings[at].calls = calls;
    }
    no_more(line);
}

/* Prints what came of each, and gives how many were refused. */
static size_t say_said(const bm_saying *before)
{
    size_t refused = 0;
    for (size_t i = 0; i < saying_count; i++) {
        bm_saying wanted = before[i], *it = &sayings[i];
        bool is_call = it->kind == BM_SAY_CALL || it->kind == BM_SAY_BATCH;
        wanted.said = it->said;
        if (is_call && it->said == BM_OK)
            wanted.key = it->key;
        check(!memcmp(it, &wanted, sizeof wanted), "more was written than the code and the key");
        refused += it->said != BM_OK;
        if (is_call)
            say_key(it->said, it->key);
        else
            say(it->said);
        if (it->kind == BM_SAY_BATCH) {
            check(!memcmp(it + 1, &before[i + 1], it->calls * sizeof *it), "the calls of a batch were written to");
            i += it->calls;
        }
    }
    return refused;
}

/* Says what these lines say. Gives how many lines it played. */
static size_t say_some(char **lines, size_t count)
{
    size_t played = 0, refused = SIZE_MAX;
    saying_count = text_length = 0;
    while (played < count && is_saying(lines[played]))
        read_saying(lines[played++]);
    bm_saying *before = taken(saying_count * sizeof *before);
    memcpy(before, sayings, saying_count * sizeof *before);
    const uint8_t *bytes = text_length ? lent(texts, text_length) : NULL;
    int32_t code = bm_say_all(&connection, sayings, saying_count, bytes, text_length, &refused);
    check(code == BM_OK, "what was to be said wasn't read");
    check(refused == say_said(before), "others were refused");
    free(before);
    return played;
}

/* Plays the next line, and with `together` those behind it that are said in the same call. Gives how many these are. */
static size_t play_some(char **lines, size_t count, bool together)
{
    size_t played = 1;
    if (together && has_connection && is_saying(lines[0]))
        played = say_some(lines, count);
    else
        play(lines[0]);
    look();
    return played;
}

/* The lines of the standard input. */
static char **read_lines(size_t *count)
{
    char **lines = NULL, *line = NULL;
    size_t size = 0;
    ssize_t length;
    *count = 0;
    while ((length = getline(&line, &size, stdin)) > 0) {
        if (line[length - 1] != '\n')
            give_up();
        line[length - 1] = 0;
        if (strlen(line) != (size_t)length - 1)
            give_up();
        lines = realloc(lines, (*count + 1) * sizeof *lines);
        if (!lines)
            exit(3);
        lines[(*count)++] = line;
        line = NULL;
    }
    free(line);
    return lines;
}

static void free_all(char **lines, size_t count)
{
    while (count--)
        free(lines[count]);
    free(lines);
    free(sayings);
    free(texts);
    end_connection();
}

int main(int words, char **given)
{
    bool together = words > 1 && !strcmp(given[1], "together");
    size_t count;
    if (bm_interface() != BM_INTERFACE)
        return 5;
    char **lines = read_lines(&count);
    for (size_t at = 0; at < count;)
        at += play_some(lines + at, count - at, together);
    free_all(lines, count);
    return 0;
}
