/* A client: it starts a server, calls it over the server's standard streams, prints the reply, and ends. It waits by
 * poll(2) for the one descriptor to be readable and for the other to be writable, and no longer than it is told to.
 *
 *     ./client [-f] [-s SECONDS] METHOD PARAMS SERVER [WORD]..          as in: ./client echo '["a",1.50]' ./host
 *
 * Each message is a line, or with -f a frame: a header with its Content-Length, and a content. All has to be done
 * within the seconds, 30 if there are none: then the server is killed. The status is 0 for a result, 1 for an error as
 * the reply, and 2 without a reply. */
#include "bullmyrtle.h"

#include <errno.h>
#include <fcntl.h>
#include <poll.h>
#include <signal.h>
#include <spawn.h>
#include <stdio.h>
#include <stdlib.h>
#include <string.h>
#include <sys/wait.h>
#include <time.h>
#include <unistd.h>

extern char **environ;

enum { SECONDS = 30, MOST_SECONDS = 86400 };

/* What the command line asks for. */
typedef struct {
    bool frames;
    long seconds;
    const char *method, *params;
    char **server; /* its words */
} request;

typedef struct {
    bm_connection connection;
    long seconds;
    struct timespec end; /* when they are over */
    int in, out;         /* -1 where it is closed */
    uint64_t key;
    int status; /* -1 until there is a reply, or can be none */
    bool is_unanswered;
} client;

static void fail(const char *why)
{
    fprintf(stderr, "client: %s\n", why);
    exit(2);
}

static void check(int32_t code)
{
    if (code != BM_OK)
        fail(bm_code_text(code));
}

static void print(const bm_event *event)
{
    if (event->flags & BM_ERROR) {
        printf("error %lld ", (long long)event->code);
        fwrite(event->name, 1, event->name_len, stdout);
        fputs(event->text_len ? " " : "", stdout);
    }
    fwrite(event->text, 1, event->text_len, stdout);
    putchar('\n');
}

/* How many milliseconds are left: 0 where the time is over. */
static int left(const client *it)
{
    struct timespec now;
    clock_gettime(CLOCK_MONOTONIC, &now);
    long long all = (long long)(it->end.tv_sec - now.tv_sec) * 1000 + (it->end.tv_nsec - now.tv_nsec) / 1000000;
    return all > 0 ? (int)all : 0;
}

/* Says why there will be no reply. */
static void explain(client *it, uint32_t over)
{
    uint64_t offset;
    if (bm_fault_at(&it->connection, &offset))
        fprintf(stderr, "client: byte %llu of the server's output: %s\n", (unsigned long long)offset,
                bm_over_text(over));
    else
        fprintf(stderr, "client: the server ended without a reply\n");
    it->status = 2;
}

static void handle(client *it, const bm_event *event)
{
    static const uint8_t message[] = "Method not found";
    switch (event->kind) {
    case BM_CALL: /* it has no methods; this closes a notification too */
        check(bm_fail(&it->connection, event->number, -32601, message, sizeof message - 1, NULL, 0));
        break;
    case BM_REPLIED:
        print(event);
        it->status = event->flags & BM_ERROR ? 1 : 0;
        break;
    case BM_UNANSWERED:
        it->is_unanswered = true;
        break;
    case BM_INPUT_OVER:
        if (it->is_unanswered)
            explain(it, event->flags);
        break;
    }
}

static void hear(client *it)
{
    bm_event event;
    while (check(bm_next(&it->connection, &event)), event.kind != BM_NONE)
        handle(it, &event);
}

static void read_some(client *it)
{
    uint8_t bytes[4096];
    ssize_t count = read(it->in, bytes, sizeof bytes);
    if (count < 0 && (errno == EAGAIN || errno == EINTR))
        return;
    if (count > 0)
        check(bm_feed(&it->connection, bytes, (size_t)count));
    else {
        check(bm_end(&it->connection, count ? BM_READ_FAILED : BM_CLOSED));
        it->in = -1;
    }
    hear(it);
}

static bool has_output(client *it)
{
    return bm_pending(&it->connection) > 0;
}

static void close_output(client *it)
{
    close(it->out);
    it->out = -1;
}

static void write_some(client *it)
{
    const uint8_t *bytes;
    size_t length = bm_output(&it->connection, &bytes);
    ssize_t count = write(it->out, bytes, length);
    if (count >= 0)
        check(bm_written(&it->connection, (size_t)count));
    else if (errno != EAGAIN && errno != EINTR)
        close_output(it); /* the server reads no more; it may still have written a reply */
}

/* Once the reply is there and all is written, the server's input is closed; then its output is read to its end. */
static void serve(client *it)
{
    while (it->in >= 0 && left(it) > 0) {
        bool writes = it->out >= 0 && has_output(it);
        if (it->out >= 0 && !writes && it->status >= 0)
            close_output(it);
        struct pollfd ready[2] = {{.fd = it->in, .events = POLLIN}, {.fd = writes ? it->out : -1, .events = POLLOUT}};
        if (poll(ready, 2, left(it)) < 0 && errno != EINTR)
            fail("poll");
        if (ready[0].revents)
            read_some(it);
        if (ready[1].revents)
            write_some(it);
    }
}

/* Starts the server, and keeps the other ends of its standard streams. */
static pid_t start(client *it, char **words)
{
    int to[2], from[2];
    pid_t server;
    posix_spawn_file_actions_t actions;
    if (pipe(to) || pipe(from) || posix_spawn_file_actions_init(&actions))
        fail("no pipe");
    posix_spawn_file_actions_adddup2(&actions, to[0], STDIN_FILENO);
    posix_spawn_file_actions_adddup2(&actions, from[1], STDOUT_FILENO);
    for (int i = 0; i < 2; i++) {
        posix_spawn_file_actions_addclose(&actions, to[i]);
        posix_spawn_file_actions_addclose(&actions, from[i]);
    }
    if (posix_spawnp(&server, words[0], &actions, NULL, words, environ))
        fail("the server doesn't start");
    posix_spawn_file_actions_destroy(&actions);
    close(to[0]);
    close(from[1]);
    it->in = from[0];
    it->out = to[1];
    if (fcntl(it->in, F_SETFL, O_NONBLOCK) < 0 || fcntl(it->out, F_SETFL, O_NONBLOCK) < 0)
        fail("fcntl");
    return server;
}

/* Waits until the server has ended, and kills it where it hasn't in time. */
static void end(client *it, pid_t server)
{
    const struct timespec pause = {.tv_nsec = 10000000};
    bool is_late = it->status < 0;
    if (is_late) {
        fprintf(stderr, "client: no reply within %ld s\n", it->seconds);
        it->status = 2;
    }
    while (waitpid(server, NULL, WNOHANG) == 0) {
        if (left(it) > 0) {
            nanosleep(&pause, NULL);
            continue;
        }
        if (!is_late)
            fprintf(stderr, "client: the server didn't end within %ld s\n", it->seconds);
        kill(server, SIGKILL);
        waitpid(server, NULL, 0);
        return;
    }
}

static long seconds_in(const char *word)
{
    char *rest;
    long seconds = strtol(word, &rest, 10);
    return *word == '\0' || *rest != '\0' || seconds > MOST_SECONDS ? 0 : seconds;
}

static request read_words(int count, char **words)
{
    request it = {.seconds = SECONDS};
    bool is_well = true;
    for (int option; (option = getopt(count, words, "+:fs:")) != -1;) {
        if (option == 'f')
            it.frames = true;
        else if (option == 's')
            it.seconds = seconds_in(optarg);
        else
            is_well = false;
    }
    if (!is_well || it.seconds < 1 || count - optind < 3)
        fail("usage: client [-f] [-s SECONDS] METHOD PARAMS SERVER [WORD]..");
    it.method = words[optind];
    it.params = words[optind + 1];
    it.server = words + optind + 2;
    return it;
}

int main(int count, char **words)
{
    request asked = read_words(count, words);
    bm_options options = {.size = sizeof options, .framing = asked.frames ? BM_FRAMES : BM_LINES};
    client it = {.seconds = asked.seconds, .status = -1};
    clock_gettime(CLOCK_MONOTONIC, &it.end);
    it.end.tv_sec += it.seconds;
    check(bm_open(&options, &it.connection.at));
    check(bm_call(&it.connection, 0, (const uint8_t *)asked.method, strlen(asked.method), (const uint8_t *)asked.params,
                  strlen(asked.params), &it.key));
    signal(SIGPIPE, SIG_IGN); /* a write to a server that is gone fails, and doesn't end the client */
    pid_t server = start(&it, asked.server);
    serve(&it);
    end(&it, server);
    bm_free(it.connection);
    return it.status;
}
