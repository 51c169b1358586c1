/* Keeps the calls of a small run as a trace, replays the trace on a second mesh, and shows that both agree. */
#include <inttypes.h>
#include <stdbool.h>
#include <stdio.h>
#include <stdlib.h>
#include <string.h>

#include "yagbolshen.h"

enum { WIDTH = 3, HEIGHT = 3, CHIPS = WIDTH * HEIGHT, RECORDS = 16, LONGEST_RECORD = 15 };
enum { INJECTION = 1, ROUND, LINK_CHANGE, REGISTERS }; /* the kinds of a kept call */

static const uint32_t rows[] = {                     /* key, mask, route */
    0x1200, 0xffffff00, 1 << 0 | 1 << 2,             /* chip 0: links 0 and 2, to chips 1 and 3 */
    0x1200, 0xffffff00, 1 << 0 | 1 << (6 + 1),       /* chip 1: link 0, to chip 2, and processor 1 */
    0x1200, 0xffffff00, 1 << (6 + 2),                /* chip 2: processor 2 */
    0x1200, 0xffffff00, 1 << (6 + 3) | 1 << (6 + 4), /* chip 3: processors 3 and 4 */
};
static const uint32_t starts[CHIPS + 1] = {0, 1, 2, 3, 4, 4, 4, 4, 4, 4}; /* chips 4 to 8 have no rows */
static uint8_t codes[CHIPS * CHIPS];
static const uint32_t fixed[CHIPS]; /* zeros: no fixed-route packet is sent here */

/* A packet that branches to three chips, before and after a link of its way is taken down. */
static const yb_call calls[] = {
    {.kind = INJECTION, .chip = 0, .length = 5, .bytes = {0x01, 0x00, 0x00, 0x12, 0x35}},
    {.kind = ROUND},
    {.kind = ROUND},
    {.kind = LINK_CHANGE, .chip = 0, .link = 0, .up = 0},
    {.kind = INJECTION, .chip = 0, .length = 5, .bytes = {0x01, 0x00, 0x00, 0x12, 0x35}},
    {.kind = ROUND},
    {.kind = ROUND},
    {.kind = REGISTERS, .chip = 0},
};
enum { CALLS = sizeof calls / sizeof *calls };

/* A mesh, and the log of all that was done on it. */
typedef struct {
    uint32_t *mesh;
    size_t words;
    uint32_t log[6 * RECORDS];
    size_t added;
} run;

static bool open_run(run *r)
{
    memset(r, 0, sizeof *r);
    r->words = yagbolshen_size(WIDTH, HEIGHT).words;
    r->mesh = malloc(r->words * sizeof *r->mesh);
    return r->mesh != NULL && yagbolshen_open(r->mesh, r->words, WIDTH, HEIGHT, 100, 0) == 0;
}

/* Makes a call directly, with the rest of the log, and answers its refusal. */
static uint32_t make(run *r, yb_call call)
{
    uint32_t *rest = r->log + 6 * r->added;
    const size_t left = 6 * (RECORDS - r->added);
    yb_added answer = {0};
    if (call.kind == INJECTION)
        answer = yagbolshen_inject(r->mesh, r->words, rest, left, call.chip, call.bytes, call.length, rows, 12, starts,
                                   CHIPS + 1, codes, sizeof codes, fixed, CHIPS, NULL, 0);
    else if (call.kind == ROUND)
        answer = yagbolshen_round(r->mesh, r->words, rest, left, rows, 12, starts, CHIPS + 1, codes, sizeof codes,
                                  fixed, CHIPS, NULL, 0);
    else if (call.kind == LINK_CHANGE)
        answer.refusal = yagbolshen_set_link(r->mesh, r->words, call.chip, call.link, call.up == 1);
    else
        answer.refusal = yagbolshen_read_registers(r->mesh, r->words, call.chip).refusal;
    r->added += answer.added;
    return answer.refusal;
}

/* Replays a trace on a new mesh, and says how that went. */
static bool replay(run *r, const char *what, const uint8_t *trace, size_t length)
{
    if (!open_run(r))
        return false;
    yb_replayed answer = yagbolshen_replay(r->mesh, r->words, r->log, 6 * RECORDS, trace, length, rows, 12, starts,
                                           CHIPS + 1, codes, sizeof codes, fixed, CHIPS, NULL, 0);
    r->added = answer.added;
    printf("%s: refusal %" PRIu32 ", stopped at byte %zu of %zu, %zu log records\n", what, answer.refusal, answer.at,
           length, answer.added);
    return true;
}

/* Whether two meshes look alike: their phase, their links, what is in flight on these, and their counters. */
static bool same_mesh(const run *a, const run *b)
{
    yb_mesh one = yagbolshen_mesh(a->mesh, a->words), other = yagbolshen_mesh(b->mesh, b->words);
    bool same = memcmp(&one, &other, sizeof one) == 0;
    for (uint32_t chip = 0; chip < CHIPS; chip++) {
        for (uint32_t link = 0; link < 6; link++) {
            yb_link here = yagbolshen_link(a->mesh, a->words, chip, link);
            yb_link there = yagbolshen_link(b->mesh, b->words, chip, link);
            same = same && memcmp(&here, &there, sizeof here) == 0;
            for (uint32_t place = 0; same && place < here.held; place++) {
                yb_flight first = yagbolshen_flight(a->mesh, a->words, chip, link, place);
                yb_flight second = yagbolshen_flight(b->mesh, b->words, chip, link, place);
                same = memcmp(&first, &second, sizeof first) == 0;
            }
        }
        for (uint32_t counter = 0; counter < 10; counter++)
            same = same && yagbolshen_read_counter(a->mesh, a->words, chip, counter).count ==
                               yagbolshen_read_counter(b->mesh, b->words, chip, counter).count;
    }
    return same;
}

int main(void)
{
    uint8_t trace[CALLS * LONGEST_RECORD];
    size_t length = 0;
    run direct, replayed, cut;
    memset(codes, 6, sizeof codes); /* nowhere: no point-to-point packet is sent here */

    if (!open_run(&direct))
        return 1;
    for (int i = 0; i < CALLS; i++) {
        if (make(&direct, calls[i]) != 0)
            return 1; /* only accepted calls are kept */
        yb_written written = yagbolshen_write_record(trace + length, sizeof trace - length, calls[i]);
        if (written.refusal != 0)
            return 1;
        length += written.length;
    }
    printf("%d calls made and kept in %zu bytes, %zu log records\n", CALLS, length, direct.added);

    if (!replay(&replayed, "replayed", trace, length))
        return 1;
    bool same_log = direct.added == replayed.added && memcmp(direct.log, replayed.log, sizeof direct.log) == 0;
    printf("same log: %s; same mesh: %s\n", same_log ? "yes" : "no", same_mesh(&direct, &replayed) ? "yes" : "no");

    /* A trace whose end is lost: the calls of its whole records are made. */
    if (!replay(&cut, "cut short", trace, length - 12))
        return 1;
    free(direct.mesh);
    free(replayed.mesh);
    free(cut.mesh);
    return 0;
}
