/* Shows conversations to the library's judge, and writes what it finds. It reads lines:
 *
 *     judge RULES FRAMING CONTENT IDS     a new judge, the numbers as in bullmyrtle.h
 *     saw SIDE HEX                        (`.` for no bytes, which are passed as NULL)
 *     ended SIDE HOW
 *     next MOST                           the findings that a room of so many has, a line each, and then their count
 *
 * Each line is answered by its code, and `next` by `found SIDE RULE LEVEL WHOSE NUMBER OFFSET ENTRY` and `count N`. */
#include "bullmyrtle.h"

#include <stdio.h>
#include <stdlib.h>
#include <string.h>

static bm_judge judge;
static bool is_there;

static void *taken(size_t size)
{
    void *room = malloc(size);
    if (!room)
        exit(3);
    return room;
}

static void bad(const char *line)
{
    fprintf(stderr, "judge_talks: not a line that it reads: %.60s\n", line);
    exit(2);
}

static void let_go(void)
{
    if (is_there)
        bm_judge_free(judge);
    is_there = false;
}

static void begin(const char *line)
{
    bm_judge_options options = {.size = sizeof options};
    let_go();
    if (sscanf(line, "judge %u %u %u %u", &options.rules, &options.framing, &options.content, &options.ids) != 4)
        bad(line);
    int32_t code = bm_judge_open(&options, &judge.at);
    is_there = code == BM_OK;
    printf("code %d\n", code);
}

static unsigned digit(char it)
{
    return it <= '9' ? (unsigned)(it - '0') : (unsigned)(it - 'a') + 10;
}

static void see(const char *line)
{
    unsigned side;
    int at;
    if (sscanf(line, "saw %u %n", &side, &at) != 1)
        bad(line);
    size_t length = line[at] == '.' ? 0 : strcspn(line + at, "\n") / 2;
    /* (just so many bytes, so that valgrind sees a read behind them) */
    uint8_t *bytes = length ? taken(length) : NULL;
    for (size_t i = 0; i < length; i++)
        bytes[i] = (uint8_t)(digit(line[at + 2 * (int)i]) << 4 | digit(line[at + 2 * (int)i + 1]));
    printf("code %d\n", bm_judge_saw(&judge, side, bytes, length));
    free(bytes);
}

static void end(const char *line)
{
    unsigned side, how;
    if (sscanf(line, "ended %u %u", &side, &how) != 2)
        bad(line);
    printf("code %d\n", bm_judge_ended(&judge, side, how));
}

static void next(const char *line)
{
    size_t most;
    if (sscanf(line, "next %zu", &most) != 1)
        bad(line);
    bm_finding *room = most ? taken(most * sizeof *room) : NULL;
    size_t count = bm_judge_next(&judge, room, most);
    if (count > most)
        exit(4);
    for (size_t i = 0; i < count; i++)
        printf("found %u %u %u %u %llu %llu %llu\n", room[i].side, room[i].rule, room[i].level, room[i].whose,
               (unsigned long long)room[i].number, (unsigned long long)room[i].offset,
               (unsigned long long)room[i].entry);
    printf("count %zu\n", count);
    free(room);
}

int main(void)
{
    char *line = NULL;
    size_t size = 0;
    while (getline(&line, &size, stdin) > 0) {
        if (!strncmp(line, "judge ", 6))
            begin(line);
        else if (!is_there)
            bad(line);
        else if (!strncmp(line, "saw ", 4))
            see(line);
        else if (!strncmp(line, "ended ", 6))
            end(line);
        else if (!strncmp(line, "next ", 5))
            next(line);
        else
            bad(line);
    }
    free(line);
    let_go();
    return 0;
}
