/* The smallest host: it serves standard input, a content a line, and has one method, which gives its params back. */
#include "bullmyrtle.h"

#include <stdio.h>
#include <stdlib.h>
#include <string.h>
#include <unistd.h>

static bm_connection connection;

/* A call that is refused ends the program: there is no memory. */
static void check(int32_t code)
{
    if (code != BM_OK) {
        fprintf(stderr, "host: %s\n", bm_code_text(code));
        exit(1);
    }
}

static void handle(const bm_event *event)
{
    static const char message[] = "Method not found";
    if (!(event->flags & BM_REQUEST))
        check(bm_close_call(&connection, event->number)); /* done with the notification */
    else if (event->name_len == 4 && !memcmp(event->name, "echo", 4) && event->text_len)
        check(bm_answer(&connection, event->number, event->text, event->text_len));
    else
        check(bm_fail(&connection, event->number, -32601, (const uint8_t *)message, sizeof message - 1, NULL, 0));
}

int main(void)
{
    bm_options options = {.size = sizeof options, .framing = BM_LINES};
    bm_event event;
    uint8_t input[4096];
    const uint8_t *output;
    check(bm_open(&options, &connection.at));
    while (!bm_is_done(&connection)) {
        ssize_t count = read(STDIN_FILENO, input, sizeof input);
        if (count > 0)
            check(bm_feed(&connection, input, (size_t)count));
        else
            check(bm_end(&connection, count ? BM_READ_FAILED : BM_CLOSED));
        while (check(bm_next(&connection, &event)), event.kind != BM_NONE)
            if (event.kind == BM_CALL)
                handle(&event);
        for (size_t length; (length = bm_output(&connection, &output)) > 0;) {
            if ((count = write(STDOUT_FILENO, output, length)) < 0)
                return 1; /* the output is gone */
            check(bm_written(&connection, (size_t)count));
        }
    }
    bm_free(connection);
    return 0;
}
