/* usage: invalid_batch BYTES [frames] [limited]
 *
 * Has one batch of so many bytes come, in lines or in frames, of the shortest invalid entries, `[1,1,..]`: each is
 * answered with 80 bytes. With `limited` a batch may have 100,000 entries, and this one gets one answer. Prints the
 * length of the batch, how many bytes more than before were resident at most until its answer was written, and how many
 * more the library holds once it is written. */
#include "bullmyrtle.h"

#include <malloc.h>
#include <stdio.h>
#include <stdlib.h>
#include <string.h>

static void check(bool is_so, const char *what)
{
    if (!is_so) {
        fprintf(stderr, "invalid_batch: %s\n", what);
        exit(1);
    }
}

/* Like the most resident memory so far, in bytes. */
static uint64_t most_resident(void)
{
    char line[256];
    long most = 0;
    FILE *status = fopen("/proc/self/status", "r");
    check(status, "/proc/self/status");
    while (fgets(line, sizeof line, status))
        sscanf(line, "VmHWM: %ld", &most);
    fclose(status);
    return (uint64_t)most * 1024;
}

static uint64_t held(void)
{
    struct mallinfo2 info = mallinfo2();
    return info.uordblks + info.hblkhd;
}

/* So many bytes at most, `[1,1,..]`. */
static uint8_t *batch_of(size_t most, size_t *length)
{
    uint8_t *bytes = malloc(most);
    check(bytes && most >= 3, "a batch");
    *length = 0;
    bytes[(*length)++] = '[';
    while (*length + 2 < most) {
        bytes[(*length)++] = '1';
        bytes[(*length)++] = ',';
    }
    bytes[*length - 1] = ']';
    return bytes;
}

int main(int count, char **words)
{
    const uint8_t *bytes;
    check(count >= 2 && count <= 4, "usage: invalid_batch BYTES [frames] [limited]");
    bool in_frames = count > 2 && !strcmp(words[2], "frames");
    bool is_limited = count > 2 && !strcmp(words[count - 1], "limited");
    bm_options options = {.size = sizeof options, .framing = in_frames ? BM_FRAMES : BM_LINES};
    options.entries = is_limited ? 0 : UINT32_MAX;
    bm_connection connection;
    check(bm_open(&options, &connection.at) == BM_OK, "bm_open");
    size_t length;
    uint8_t *batch = batch_of(strtoull(words[1], NULL, 10), &length);
    char head[64];
    snprintf(head, sizeof head, "Content-Length: %zu\r\n\r\n", length);
    uint64_t before = most_resident(), held_before = held() - malloc_usable_size(batch);
    if (in_frames)
        check(bm_feed(&connection, (const uint8_t *)head, strlen(head)) == BM_OK, "bm_feed");
    check(bm_feed(&connection, batch, length) == BM_OK, "bm_feed");
    if (!in_frames)
        check(bm_feed(&connection, (const uint8_t *)"\n", 1) == BM_OK, "bm_feed");
    free(batch);
    bm_event event;
    check(bm_next(&connection, &event) == BM_OK && event.kind == BM_NONE, "no event");
    uint64_t most = most_resident() - before;
    uint64_t written = 0;
    for (size_t lent; (lent = bm_output(&connection, &bytes)); written += lent)
        check(bm_written(&connection, lent) == BM_OK, "bm_written");
    check(is_limited ? written < 200 : written / 40 >= length - 2, "an answer for each entry, or one");
    printf("%zu %llu %llu\n", length, (unsigned long long)most, (unsigned long long)(held() - held_before));
    bm_free(connection);
    return 0;
}
