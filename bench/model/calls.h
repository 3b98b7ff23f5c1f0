/* The calls of both sides that the model keeps until they are over: in windows by their numbers; and those of the other
 * side by their ids too, once others have come behind them. */
#ifndef CALLS_H
#define CALLS_H

#include "compact.h"

/* Places by ascending numbers, from the first one that is used to the last one that was made. */
typedef struct {
    uint8_t *places;
    uint64_t first, last, mask;
} window;

static inline uint64_t window_length(const window *it)
{
    return it->last + 1 - it->first;
}

static inline void *place_at(const window *it, uint64_t number, size_t size)
{
    return it->places + (number & it->mask) * size;
}

/* The place of a number, or NULL. */
static inline void *place_of(const window *it, uint64_t number, size_t size)
{
    return number >= it->first && number <= it->last ? place_at(it, number, size) : NULL;
}

static inline void double_window(window *it, size_t size)
{
    window wider = *it;
    wider.mask = it->places ? 2 * it->mask + 1 : 15;
    wider.places = sized(NULL, (wider.mask + 1) * size);
    for (uint64_t number = it->first; number <= it->last; number++)
        memcpy(place_at(&wider, number, size), place_at(it, number, size), size);
    free(it->places);
    *it = wider;
}

/* The place of one more number. */
static inline void *add_place(window *it, size_t size)
{
    if (!it->places || window_length(it) > it->mask)
        double_window(it, size);
    return place_at(it, ++it->last, size);
}

/* ---- ids */

enum { SHORT = 16 };

/* An id as it is written: a short one in place. */
typedef struct {
    union {
        uint8_t bytes[SHORT];
        uint8_t *far;
    };
    size_t length;
} id;

static inline text text_of(const id *it)
{
    return (text){it->length <= SHORT ? it->bytes : it->far, it->length};
}

static inline void keep_id(id *it, text named)
{
    it->length = named.length;
    if (named.length > SHORT)
        put(it->far = sized(NULL, named.length), named);
    else if (named.length)
        copy_block(it->bytes, named.at);
}

static inline void release_id(id *it)
{
    if (it->length > SHORT)
        free(it->far);
}

static inline uint64_t hash_of(text it)
{
    uint64_t hash = it.length;
    for (size_t i = 0; i < it.length; i++)
        hash = (hash ^ it.at[i]) * 0x100000001b3u;
    return hash ^ hash >> 32;
}

/* ---- the other side's */

/* Where an answer stands. */
typedef struct {
    size_t at, length;
} span;

/* The answers of a batch so far, and where that of each entry which gets one stands there. */
typedef struct {
    buffer answers;
    span *places;
    size_t count, lacking;
} batch;

/* A call of the other side: its id, the place of its answer where it came in a batch, the next one in the same chain of
 * the index, and the last call of ours on its behalf. */
typedef struct {
    id id;
    batch *array;
    size_t place;
    uint64_t next, key;
    bool is_open, is_cancelled;
} their_call;

/* So many are found by their ids one after the other: most are answered soon. */
enum { UNINDEXED = 128 };

/* All calls of the other side. Those up to `indexed` that have an id are in chains by the hashes of their ids. */
typedef struct {
    window calls;
    uint64_t open, indexed, count, mask;
    uint64_t *chains;
} their_calls;

static inline their_call *their_place(const their_calls *it, uint64_t number)
{
    return place_at(&it->calls, number, sizeof(their_call));
}

/* The call, where it is open, or NULL. */
static inline their_call *open_call(const their_calls *it, uint64_t number)
{
    their_call *call = place_of(&it->calls, number, sizeof *call);
    return call && call->is_open ? call : NULL;
}

static inline uint64_t *chain_of(const their_calls *it, text named)
{
    return &it->chains[hash_of(named) & it->mask];
}

static inline void chain(their_calls *it, uint64_t number)
{
    their_call *call = their_place(it, number);
    uint64_t *first = chain_of(it, text_of(&call->id));
    call->next = *first;
    *first = number;
}

static inline bool is_indexed(const their_calls *it, uint64_t number)
{
    const their_call *call = their_place(it, number);
    return number <= it->indexed && call->is_open && call->id.length;
}

static inline void double_chains(their_calls *it)
{
    it->mask = it->chains ? 2 * it->mask + 1 : 127;
    free(it->chains);
    if (!(it->chains = calloc(it->mask + 1, sizeof *it->chains)))
        fail("out of memory");
    for (uint64_t number = it->calls.first; number <= it->indexed; number++)
        if (is_indexed(it, number))
            chain(it, number);
}

/* Puts the next call into the index, where it is open and has an id. */
static inline void index_next(their_calls *it)
{
    if (it->count >= it->mask)
        double_chains(it);
    if (!is_indexed(it, ++it->indexed))
        return;
    chain(it, it->indexed);
    it->count++;
}

static inline void unchain(their_calls *it, uint64_t number)
{
    uint64_t *at = chain_of(it, text_of(&their_place(it, number)->id));
    while (*at != number)
        at = &their_place(it, *at)->next;
    *at = their_place(it, number)->next;
    it->count--;
}

/* Opens a call, and gives its number. */
static inline uint64_t open_their_call(their_calls *it, text named, batch *array, size_t place)
{
    their_call *call = add_place(&it->calls, sizeof *call);
    call->array = array;
    call->place = place;
    call->next = call->key = 0;
    call->is_open = true;
    call->is_cancelled = false;
    keep_id(&call->id, named);
    it->open++;
    if (it->calls.last - it->indexed > UNINDEXED)
        index_next(it);
    return it->calls.last;
}

static inline void close_their_call(their_calls *it, uint64_t number)
{
    their_call *call = their_place(it, number);
    if (is_indexed(it, number))
        unchain(it, number);
    release_id(&call->id);
    call->is_open = false;
    it->open--;
    while (it->calls.first <= it->calls.last && !their_place(it, it->calls.first)->is_open)
        it->calls.first++;
    if (it->indexed < it->calls.first - 1)
        it->indexed = it->calls.first - 1;
}

static inline bool is_reached(const their_call *it, text named)
{
    return it->is_open && !it->is_cancelled && is(text_of(&it->id), named);
}

/* The number of a call with this id that no cancel has reached, or 0. */
static inline uint64_t found_call(const their_calls *it, text named)
{
    for (uint64_t number = it->calls.last; number > it->indexed; number--)
        if (is_reached(their_place(it, number), named))
            return number;
    if (!it->count)
        return 0;
    uint64_t number = *chain_of(it, named);
    while (number && !is_reached(their_place(it, number), named))
        number = their_place(it, number)->next;
    return number;
}

/* ---- ours */

enum { OVER, WAITS, IGNORED };

/* A call of ours: the one before it on behalf of the same call, and whether its reply is waited for. */
typedef struct {
    uint64_t next;
    uint8_t state;
} our_call;

static inline our_call *our_place(const window *it, uint64_t key)
{
    return place_at(it, key, sizeof(our_call));
}

static inline uint64_t open_our_call(window *it, uint64_t next)
{
    our_call *call = add_place(it, sizeof *call);
    *call = (our_call){next, WAITS};
    return it->last;
}

/* Ends a call of ours, and says whether its reply was waited for. */
static inline bool end_our_call(window *it, uint64_t key)
{
    our_call *call = place_of(it, key, sizeof *call);
    bool waited = call && call->state == WAITS;
    if (call)
        call->state = OVER;
    while (it->first <= it->last && our_place(it, it->first)->state == OVER)
        it->first++;
    return waited;
}
#endif
