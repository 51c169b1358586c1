/* A mesh of three by three chips: one packet branches to three of them, and the log shows who gets it, and when. Then a row is
 * made wrong, and the refusal tells which. */
#include <inttypes.h>
#include <stdio.h>
#include <stdlib.h>
#include <string.h>

#include "yagbolshen.h"

enum { WIDTH = 3, HEIGHT = 3, CHIPS = WIDTH * HEIGHT, RECORDS = 8 };

static uint32_t records[YB_LOG_WORDS * RECORDS];

static void show(int round, yb_added answer)
{
    printf("round %d: refusal %" PRIu32 ", %" PRIu32 " records\n", round, answer.refusal, answer.added);
    for (uint32_t i = 0; i < answer.added; i++) {
        const uint32_t *r = records + YB_LOG_WORDS * i;
        for (int k = 0; k < 20; k++)
            if (r[YB_LOG_PROCESSORS] >> k & 1)
                printf("  chip %" PRIu32 ", processor %d gets %02" PRIx32 " %08" PRIx32 "\n", r[YB_LOG_CHIP], k, r[YB_LOG_CONTROL],
                       r[YB_LOG_WORD]);
    }
}

int main(void)
{
    const uint8_t packet[] = {0x01, 0x00, 0x00, 0x12, 0x35}; /* mark 00, stamp 00, parity right; key 0x1235 */
    uint32_t rows[] = {                                      /* key, mask, route: the rows of chips 0, 1, 2 and 3 */
        0x1200, 0xffffff00, YB_TO_LINK(YB_EAST) | YB_TO_LINK(YB_NORTH),   /* to chips 1 and 3 */
        0x1200, 0xffffff00, YB_TO_LINK(YB_EAST) | YB_TO_PROCESSOR(1),     /* to chip 2, and processor 1 */
        0x1200, 0xffffff00, YB_TO_PROCESSOR(2),
        0x1200, 0xffffff00, YB_TO_PROCESSOR(3) | YB_TO_PROCESSOR(4),
    };
    const uint32_t starts[CHIPS + 1] = {0, 1, 2, 3, 4, 4, 4, 4, 4, 4}; /* chips 4 to 8 have no rows */
    uint8_t codes[CHIPS * CHIPS];
    memset(codes, 6, sizeof codes); /* nowhere: no point-to-point packet is sent here */
    const uint32_t fixed[CHIPS] = {0}; /* nor is a fixed-route packet */
    yb_tables tables = {0};
    tables.rows = rows;
    tables.rows_len = sizeof rows / sizeof *rows;
    tables.starts = starts;
    tables.starts_len = CHIPS + 1;
    tables.codes = codes;
    tables.codes_len = sizeof codes;
    tables.fixed = fixed;
    tables.fixed_len = CHIPS;

    const size_t words = yagbolshen_size(WIDTH, HEIGHT).words;
    uint32_t *mesh = malloc(words * sizeof *mesh);
    if (mesh == NULL || yagbolshen_open(mesh, words, WIDTH, HEIGHT, 100, 0) != 0)
        return 1;
    show(0, yb_inject(mesh, words, records, YB_LOG_WORDS * RECORDS, 0, packet, sizeof packet, &tables));
    for (int round = 1; round <= 9 && yagbolshen_mesh(mesh, words).in_flight > 0; round++)
        show(round, yb_round(mesh, words, records, YB_LOG_WORDS * RECORDS, &tables));

    rows[3 * 2 + 2] |= YB_TO_PROCESSOR(20); /* there is none */
    const yb_added refused = yb_round(mesh, words, records, YB_LOG_WORDS * RECORDS, &tables);
    if (refused.refusal == YB_ROUTE)
        printf("refusal %" PRIu32 ": the route of row %" PRIu32 "\n", refused.refusal, refused.place);
    free(mesh);
    return 0;
}
