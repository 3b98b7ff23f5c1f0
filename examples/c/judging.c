/* Judges a conversation that is written down: it reads lines from its standard input, `> ` before what the client wrote
 * and `< ` before what the server wrote, and says which of them broke which rule. Each line is a content. Where the
 * lines end both sides have closed, first the server. Its status is 1 where a must was broken.
 *
 *     ./judging <talk
 */
#include "bullmyrtle.h"

#include <stdio.h>
#include <stdlib.h>

static const char *const sides[] = {"client", "server"};

static void check(int32_t code)
{
    if (code != BM_OK) {
        fprintf(stderr, "judging: %s\n", bm_code_text(code));
        exit(2);
    }
}

static void print(const bm_finding *it)
{
    /* a request without an answer is the other side's */
    uint32_t writer = it->rule == BM_RULE_UNANSWERED ? 1 - it->side : it->side;
    printf("%s %s %s: message %llu of the %s", sides[it->side], bm_level_text(it->level), bm_rule_name(it->rule),
           (unsigned long long)it->number, sides[writer]);
    if (it->entry)
        printf(", entry %llu", (unsigned long long)it->entry);
    printf(", at byte %llu (%s)\n", (unsigned long long)it->offset, bm_rule_section(it->rule));
}

/* Prints what was found since the last time, and says whether a must was broken. */
static bool tell(bm_judge *judge)
{
    bm_finding found[16];
    size_t count;
    bool is_broken = false;
    do {
        count = bm_judge_next(judge, found, 16);
        for (size_t at = 0; at < count; at++) {
            print(&found[at]);
            is_broken = is_broken || found[at].level == BM_MUST;
        }
    } while (count == 16);
    return is_broken;
}

int main(void)
{
    bm_judge judge;
    bm_judge_options options = {.size = sizeof options, .rules = BM_RULES_JSONRPC, .framing = BM_LINES};
    if (bm_interface() != BM_INTERFACE) {
        fprintf(stderr, "judging: the library has another interface\n");
        return 2;
    }
    check(bm_judge_open(&options, &judge.at));
    bool is_broken = false;
    char *line = NULL;
    size_t size = 0;
    for (ssize_t length; (length = getline(&line, &size, stdin)) > 0;) {
        if (length < 2 || (line[0] != '<' && line[0] != '>') || line[1] != ' ') {
            fprintf(stderr, "judging: a line begins with '> ' or '< '\n");
            exit(2);
        }
        uint32_t side = line[0] == '>' ? BM_CLIENT : BM_SERVER;
        check(bm_judge_saw(&judge, side, (const uint8_t *)line + 2, (size_t)length - 2));
        is_broken = tell(&judge) || is_broken;
    }
    check(bm_judge_ended(&judge, BM_SERVER, BM_CLOSED));
    check(bm_judge_ended(&judge, BM_CLIENT, BM_CLOSED));
    is_broken = tell(&judge) || is_broken;
    free(line);
    bm_judge_free(judge);
    return is_broken;
}
