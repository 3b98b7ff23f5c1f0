/* The host of host.c for a protocol with the cancels of MCP, which says on the standard error what is broken in its
 * input, and where. The library answers it all the same. */
#include "bullmyrtle.h"

#include <ctype.h>
#include <stdio.h>
#include <stdlib.h>
#include <string.h>
#include <unistd.h>

static bm_connection connection;

/* A call that is refused ends the program: there is no memory. */
static void check(int32_t code)
{
    if (code != BM_OK) {
        fprintf(stderr, "host: %s\n", bm_code_text(code));
        exit(1);
    }
}

static void handle(const bm_event *event)
{
    static const char message[] = "Method not found";
    if (!(event->flags & BM_REQUEST))
        check(bm_close_call(&connection, event->number)); /* done with the notification */
    else if (event->name_len == 4 && !memcmp(event->name, "echo", 4) && event->text_len)
        check(bm_answer(&connection, event->number, event->text, event->text_len));
    else
        check(bm_fail(&connection, event->number, -32601, (const uint8_t *)message, sizeof message - 1, NULL, 0));
}

static void explain(const bm_event *event)
{
    fprintf(stderr, "byte %llu: ", (unsigned long long)event->number);
    if (event->flags == BM_INVALID)
        fprintf(stderr, "%lld invalid, the first is entry %llu: ", (long long)event->code,
                (unsigned long long)event->key);
    else
        fprintf(stderr, "unreadable: ");
    for (size_t i = 0; i < event->text_len; i++)
        putc(isprint(event->text[i]) ? event->text[i] : '?', stderr); /* (they may be any bytes) */
    putc('\n', stderr);
}

static void end(const bm_event *event)
{
    uint64_t offset;
    if (bm_fault_at(&connection, &offset))
        fprintf(stderr, "byte %llu: %s\n", (unsigned long long)offset, bm_over_text(event->flags));
}

static void hear(void)
{
    bm_event event;
    while (check(bm_next(&connection, &event)), event.kind != BM_NONE)
        switch (event.kind) {
        case BM_CALL:
            handle(&event);
            break;
        case BM_BROKEN:
            explain(&event);
            break;
        case BM_INPUT_OVER:
            end(&event);
            break;
        }
}

static void put(void)
{
    const uint8_t *bytes;
    for (size_t length; (length = bm_output(&connection, &bytes)) > 0;) {
        ssize_t count = write(STDOUT_FILENO, bytes, length);
        if (count < 0)
            exit(1);
        check(bm_written(&connection, (size_t)count));
    }
}

int main(void)
{
    bm_options options = {
        .size = sizeof options, .framing = BM_LINES, .cancels = BM_CANCELS_MCP, .broken = 1, .content = 100000};
    uint8_t bytes[4096];
    check(bm_open(&options, &connection.at));
    while (!bm_is_done(&connection)) {
        ssize_t count = read(STDIN_FILENO, bytes, sizeof bytes);
        if (count > 0)
            check(bm_feed(&connection, bytes, (size_t)count));
        else
            check(bm_end(&connection, count ? BM_READ_FAILED : BM_CLOSED));
        hear();
        put();
    }
    bm_free(connection);
    return 0;
}
