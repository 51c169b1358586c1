/* One multicast packet through one router whose link 0 is blocked. */
#include <inttypes.h>
#include <stdio.h>

#include "yagbolshen.h"

int main(void)
{
    const uint8_t packet[] = {0x01, 0x00, 0x00, 0x12, 0x35}; /* mark 00, stamp 00, parity right; key 0x1235 */
    const uint32_t rows[] = {                                /* key, mask, route */
        0x1234, 0xffffffff, 1 << 2,                          /* this key alone: link 2 */
        0x1200, 0xffffff00, 1 << 0 | 1 << 2 | 1 << (6 + 3),  /* every other 0x12..: links 0 and 2, processor 3 */
    };
    const uint8_t codes[] = {7}; /* a mesh of one chip */
    const uint32_t ready = 63 & ~(1u << 0);
    const uint32_t fixed = 0; /* no fixed-route packet comes here */

    yb_pass pass = yagbolshen_pass(packet, sizeof packet, 3, 1, 1, rows, 6, codes, 1, 0, 0, ready, fixed, NULL, 0);

    printf("refusal %" PRIu32 ", errors %" PRIu32 "\n", pass.refusal, pass.errors);
    for (int link = 0; link < 6; link++)
        if (pass.sent >> link & 1)
            printf("link %d sends %02" PRIx32 " %08" PRIx32 "\n", link, pass.packets[link].control, pass.packets[link].word);
    for (int k = 0; k < 20; k++)
        if (pass.processors >> k & 1)
            printf("processor %d gets %02" PRIx32 " %08" PRIx32 "\n", k, pass.delivered.control, pass.delivered.word);
    return 0;
}
