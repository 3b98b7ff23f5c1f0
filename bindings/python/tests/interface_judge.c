/* The judge's calls, made so that they write down what they are given, beside those of interface.c:
 * test_judge_interface.py compiles both with include/bullmyrtle.h. What is said goes to the file that the variable SAID
 * names. */
#include "bullmyrtle.h"

#include <stdio.h>
#include <stdlib.h>

#define U(it) ((unsigned long long)(it))

static FILE *said(void)
{
    static FILE *file;
    if (!file)
        file = fopen(getenv("SAID"), "w");
    setvbuf(file, NULL, _IONBF, 0);
    return file;
}

static int told;

int32_t bm_judge_open(const bm_judge_options *options, void **at)
{
    fprintf(said(), "open %d %u %u %u %u\n", options->size == sizeof *options, options->rules, options->framing,
            options->content, options->ids);
    if (options->rules == BM_RULES_MCP)
        return BM_NO_MEMORY;
    *at = &told;
    return BM_OK;
}

int32_t bm_judge_saw(bm_judge *judge, uint32_t side, const uint8_t *bytes, size_t length)
{
    fprintf(said(), "saw %d %u %llu %d\n", judge->at == &told, side, U(length), length ? bytes[length - 1] : -1);
    return length == 3 ? BM_NO_MEMORY : BM_OK;
}

int32_t bm_judge_ended(bm_judge *judge, uint32_t side, uint32_t how)
{
    fprintf(said(), "ended %d %u %u\n", judge->at == &told, side, how);
    return BM_OK;
}

size_t bm_judge_next(bm_judge *judge, bm_finding *findings, size_t most)
{
    size_t count = 0;
    fprintf(said(), "next %d %llu\n", judge->at == &told, U(most));
    for (; count < most && told < 70; count++, told++) {
        findings[count].side = BM_SERVER;
        findings[count].rule = told ? BM_RULE_NOT_JUDGED : BM_RULE_UNANSWERED;
        findings[count].level = BM_NOTE;
        findings[count].whose = BM_WHOSE_NOBODY;
        findings[count].number = (1ull << 40) + (uint64_t)told;
        findings[count].offset = 1ull << 63;
        findings[count].entry = 7;
    }
    return count;
}

void bm_judge_free(bm_judge judge)
{
    fprintf(said(), "free %d\n", judge.at == &told);
}

/* What bm_rule_name, bm_rule_section and bm_level_text say, in the order of the rules. */
void say_tables(void)
{
    for (uint32_t it = BM_RULE_HEAD; it <= BM_RULE_RESULT_OBJECT; it++)
        fprintf(said(), "%s: %s\n", bm_rule_name(it), bm_rule_section(it));
    for (uint32_t it = BM_MUST; it <= BM_NOTE; it++)
        fprintf(said(), "%s\n", bm_level_text(it));
}
