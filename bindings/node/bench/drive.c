/* drive ROUNDS COUNT ROW .. -- COMMAND .. [-- COMMAND ..]: starts servers, each over two pipes, and drives them with as
 * little as possible. Each round of a row is made with each server in turn, so that what slows a processor down for a
 * while slows all of them. For each row and server it prints the least of the rounds, microseconds of the wall and of
 * the server's processor for each request (of one after the other: the median of a round), and the median of how many
 * times the first server's wall time in the same round it took. The last lines are the greatest resident memories. */
#define _GNU_SOURCE
#include <dirent.h>
#include <fcntl.h>
#include <poll.h>
#include <stdbool.h>
#include <stdio.h>
#include <stdlib.h>
#include <string.h>
#include <sys/wait.h>
#include <time.h>
#include <unistd.h>

#define PLACE                                                                                                          \
    "{\"textDocument\":{\"uri\":\"file:///home/someone/project/src/main.py\"},\"position\":{\"line\":12,"              \
    "\"character\":4}}"
enum { LARGE = 4000000, PIECE = 1 << 16, IN_BATCH = 100, LARGE_COUNT = 5, FEWER = 10, MOST_SERVERS = 8 };
/* Before a row is measured, a server answers so many times as many of its requests as a round of many has: a
 * just-in-time compiler has compiled what they take by then. */
enum { WARMING = 6 };

/* Growing bytes. */
typedef struct {
    char *at;
    size_t length, room;
} text;

typedef struct {
    int to, from; /* pipes */
    pid_t process;
    text got; /* what it wrote that isn't read yet */
} server;

static server servers[MOST_SERVERS];
static int servers_count;
static server *driven;

static text made;

static void need(text *it, size_t more)
{
    if (it->length + more + 1 <= it->room)
        return;
    it->room = (it->length + more + 1) * 2;
    it->at = realloc(it->at, it->room);
    if (!it->at)
        exit(3);
}

static void put(text *it, const char *from, size_t length)
{
    need(it, length);
    memcpy(it->at + it->length, from, length);
    it->length += length;
    it->at[it->length] = 0;
}

static void put_frame(const char *content)
{
    char head[64];
    size_t length = strlen(content);
    put(&made, head, (size_t)sprintf(head, "Content-Length: %zu\r\n\r\n", length));
    put(&made, content, length);
}

static void put_request(const char *method, const char *params, int id)
{
    char *content = malloc(strlen(params) + 200);
    sprintf(content, "{\"jsonrpc\":\"2.0\",\"id\":%d,\"method\":\"%s\",\"params\":%s}", id, method, params);
    put_frame(content);
    free(content);
}

static void put_batch(int first)
{
    text batch = {0};
    char one[400];
    for (int i = 0; i < IN_BATCH; i++) {
        int length = sprintf(one, "%s{\"jsonrpc\":\"2.0\",\"id\":%d,\"method\":\"hover\",\"params\":" PLACE "}",
                             i ? "," : "[", first + i);
        put(&batch, one, (size_t)length);
    }
    put(&batch, "]", 1);
    put_frame(batch.at);
    free(batch.at);
}

/* Time */

static double now(void)
{
    struct timespec it;
    clock_gettime(CLOCK_MONOTONIC, &it);
    return (double)it.tv_sec * 1e6 + (double)it.tv_nsec / 1e3;
}

/* What all threads of the server have used of the processor. */
static double used(void)
{
    char path[64], file[400];
    double all = 0;
    sprintf(path, "/proc/%d/task", driven->process);
    DIR *tasks = opendir(path);
    for (struct dirent *it; tasks && (it = readdir(tasks));) {
        unsigned long long nanoseconds = 0;
        snprintf(file, sizeof file, "%s/%s/schedstat", path, it->d_name);
        FILE *stat = it->d_name[0] == '.' ? NULL : fopen(file, "r");
        if (stat && fscanf(stat, "%llu", &nanoseconds) == 1)
            all += (double)nanoseconds / 1e3;
        if (stat)
            fclose(stat);
    }
    if (tasks)
        closedir(tasks);
    return all;
}

/* Many at once: writes all that was made, and reads so many answers, which are counted by a member that each has. */

static void ended(void)
{
    fprintf(stderr, "drive: the server ended\n");
    exit(1);
}

static size_t answers_in(const char *at, ssize_t length)
{
    static const char word[] = "\"jsonrpc\"";
    static size_t state;
    size_t count = 0;
    for (ssize_t i = 0; i < length; i++) {
        if (at[i] == word[state]) {
            if (!word[++state]) {
                count++;
                state = 0;
            }
        } else
            state = at[i] == '"';
    }
    return count;
}

static void flood(size_t wanted)
{
    static char room[PIECE];
    size_t written = 0, count = 0;
    while (count < wanted) {
        struct pollfd ready[] = {{driven->from, POLLIN, 0}, {written < made.length ? driven->to : -1, POLLOUT, 0}};
        poll(ready, 2, -1);
        if (ready[1].revents) {
            size_t rest = made.length - written;
            ssize_t length = write(driven->to, made.at + written, rest > PIECE ? PIECE : rest);
            written += length > 0 ? (size_t)length : 0;
        }
        if (ready[0].revents) {
            ssize_t length = read(driven->from, room, sizeof room);
            if (length <= 0)
                ended();
            count += answers_in(room, length);
        }
    }
}

/* One after the other */

static void write_all(void)
{
    for (size_t at = 0; at < made.length;) {
        ssize_t length = write(driven->to, made.at + at, made.length - at);
        struct pollfd ready = {driven->to, POLLOUT, 0};
        if (length > 0)
            at += (size_t)length;
        else
            poll(&ready, 1, -1);
    }
    made.length = 0;
}

/* Reads a frame, and gives its content and how long the frame is. */
static char *read_frame(size_t *length)
{
    text *got = &driven->got;
    for (;;) {
        char *head = got->length ? memmem(got->at, got->length, "\r\n\r\n", 4) : NULL;
        if (head) {
            *length = (size_t)(head + 4 - got->at) + (size_t)atol(got->at + strlen("Content-Length: "));
            if (got->length >= *length)
                return head + 4;
        }
        need(got, PIECE);
        ssize_t count = read(driven->from, got->at + got->length, PIECE);
        if (count <= 0)
            ended();
        got->length += (size_t)count;
        got->at[got->length] = 0;
    }
}

static void drop(size_t length)
{
    text *got = &driven->got;
    got->length -= length;
    memmove(got->at, got->at + length, got->length);
}

static double trip(const char *method, const char *params, int id)
{
    put_request(method, params, id);
    double begun = now();
    write_all();
    for (;;) {
        size_t length;
        char *content = read_frame(&length), *end = driven->got.at + length, reply[100];
        bool is_call = memmem(content, (size_t)(end - content), "\"method\":", 9) != NULL;
        if (is_call) {
            char *key = memmem(content, (size_t)(end - content), "\"id\":", 5);
            sprintf(reply, "{\"jsonrpc\":\"2.0\",\"id\":%d,\"result\":{\"n\":8}}", atoi(key + 5));
            put_frame(reply);
        }
        drop(length);
        if (!is_call)
            return now() - begun;
        write_all();
    }
}

static int order(const void *one, const void *other)
{
    double a = *(const double *)one, b = *(const double *)other;
    return (a > b) - (a < b);
}

static double median(double *numbers, int count)
{
    qsort(numbers, (size_t)count, sizeof *numbers, order);
    return numbers[count / 2];
}

static double trips(const char *method, const char *params, int count)
{
    double *took = calloc((size_t)count, sizeof *took);
    for (int i = 0; i < count; i++)
        took[i] = trip(method, params, i + 1);
    double middle = median(took, count);
    free(took);
    return middle;
}

/* Rows */

static char large[LARGE + 16];

static int flood_row(const char *row, int count)
{
    made.length = 0;
    if (!strcmp(row, "batches"))
        for (int i = 0; i < count; i += IN_BATCH)
            put_batch(i);
    else if (!strcmp(row, "notifications")) {
        for (int i = 0; i < count; i++)
            put_frame("{\"jsonrpc\":\"2.0\",\"method\":\"note\",\"params\":{\"version\":3}}");
        put_request("hover", PLACE, 1);
        return 1;
    } else
        for (int i = 0; i < count; i++)
            put_request(strcmp(row, "async") ? "hover" : "hoverAsync", PLACE, i + 1);
    return count;
}

/* So many requests of a row make a round. */
static int round_of(const char *row, int count)
{
    bool is_trip = !strcmp(row, "ping") || !strcmp(row, "back");
    return !strcmp(row, "large") ? LARGE_COUNT : is_trip ? count / FEWER : count;
}

/* What a row takes for each of so many requests: the wall's time and, to *processor, the server's. */
static double row_once(const char *row, int count, double *processor)
{
    bool is_large = !strcmp(row, "large"), is_back = !strcmp(row, "back");
    bool is_trip = is_large || is_back || !strcmp(row, "ping");
    int answers = is_trip ? 0 : flood_row(row, count);
    double before = used(), begun = now(), wall;
    if (is_large)
        wall = trips("size", large, count);
    else if (is_trip)
        wall = trips(is_back ? "back" : "hover", is_back ? "{\"n\":4}" : PLACE, count);
    else {
        flood((size_t)answers);
        wall = (now() - begun) / count;
        made.length = 0;
    }
    *processor = (used() - before) / count;
    return wall;
}

static void warm_up(const char *row, int count)
{
    double ignored;
    for (int i = 0; i < servers_count; i++) {
        driven = &servers[i];
        for (int j = 0; j < WARMING; j++)
            row_once(row, !strcmp(row, "large") ? LARGE_COUNT : count, &ignored);
    }
}

static void measure(const char *row, int rounds, int count)
{
    double wall[MOST_SERVERS], processor[MOST_SERVERS], *times[MOST_SERVERS], first = 0;
    warm_up(row, count);
    for (int i = 0; i < servers_count; i++) {
        wall[i] = processor[i] = 1e18;
        times[i] = calloc((size_t)rounds, sizeof **times);
    }
    for (int round = 0; round < rounds; round++)
        for (int i = 0; i < servers_count; i++) {
            driven = &servers[i];
            double processor_now, wall_now = row_once(row, round_of(row, count), &processor_now);
            first = i ? first : wall_now;
            times[i][round] = wall_now / first;
            wall[i] = wall_now < wall[i] ? wall_now : wall[i];
            processor[i] = processor_now < processor[i] ? processor_now : processor[i];
        }
    printf("%s", row);
    for (int i = 0; i < servers_count; i++) {
        printf(" %.3f %.3f %.4f", wall[i], processor[i], median(times[i], rounds));
        free(times[i]);
    }
    printf("\n");
    fflush(stdout);
}

static void start(char **command)
{
    int in[2], out[2];
    if (pipe(in) || pipe(out))
        exit(3);
    driven = &servers[servers_count++];
    driven->process = fork();
    if (!driven->process) {
        dup2(in[0], 0);
        dup2(out[1], 1);
        for (int i = 0; i < 2; i++) {
            close(in[i]);
            close(out[i]);
        }
        execvp(*command, command);
        _exit(127);
    }
    close(in[0]);
    close(out[1]);
    driven->to = in[1];
    driven->from = out[0];
    fcntl(driven->to, F_SETFL, O_NONBLOCK);
    fcntl(driven->to, F_SETFD, FD_CLOEXEC); /* (another server would keep it open) */
    fcntl(driven->from, F_SETFD, FD_CLOEXEC);
}

static void print_peak(const server *it)
{
    char path[64], line[256];
    sprintf(path, "/proc/%d/status", it->process);
    FILE *status = fopen(path, "r");
    while (status && fgets(line, sizeof line, status))
        if (!strncmp(line, "VmHWM:", 6))
            printf("peak %d\n", atoi(line + 6));
    if (status)
        fclose(status);
}

/* Starts the servers whose commands stand behind each "--". */
static void start_all(char **words)
{
    for (char **end = words; *end;) {
        char **command = end + 1;
        for (end = command; *end && strcmp(*end, "--"); end++) {
        }
        char *behind = *end;
        *end = NULL;
        if (servers_count == MOST_SERVERS || !*command)
            exit(2);
        start(command);
        *end = behind;
    }
}

int main(int count, char **words)
{
    int command = 3;
    while (command < count && strcmp(words[command], "--"))
        command++;
    if (command + 1 >= count)
        return 2;
    memset(large, 'x', LARGE);
    memcpy(large, "{\"text\":\"", 9);
    strcpy(large + LARGE, "\"}");
    start_all(words + command);
    for (int i = 3; i < command; i++)
        measure(words[i], atoi(words[1]), atoi(words[2]));
    for (int i = 0; i < servers_count; i++) {
        print_peak(&servers[i]);
        close(servers[i].to);
        waitpid(servers[i].process, NULL, 0);
    }
    return 0;
}
