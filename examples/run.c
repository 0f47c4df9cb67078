/* The cache's side: writes a full run of a table of two records, as a cache answers a Reset Query, to standard output. Usage: run [VERSION]. Built and run by tests/c-library:
 * run | rtr-table lists the table again. */
#include <stdio.h>
#include <string.h>

#include "hingemoss.h"

/* A record is six numbers: family x 65,536 + prefix length x 256 + max, the address in four (IPv4 in the first), the AS number. Records ascend by family, then address,
 * then length, max and AS number, and behind them the room is all zeros. */
static const uint32_t records[][6] = {
    { 4 << 16 | 24 << 8 | 24, 0xc0000200, 0, 0, 0, 64496 }, /* 192.0.2.0/24, max 24, AS 64496 */
    { 6 << 16 | 32 << 8 | 48, 0x20010db8, 0, 0, 0, 64497 }, /* 2001:db8::/32, max 48, AS 64497 */
};
static const uint64_t end[HINGEMOSS_END_NUMBERS] = { 4660, 7, 1800, 300, 5400 }; /* session, serial, refresh, retry, expire */
static uint32_t table[HINGEMOSS_ROOM_NUMBERS];
static uint8_t out[HINGEMOSS_FULL_RUN_MOST];

int main(int count, char **words)
{
    if (count > 2 || (count == 2 && strcmp(words[1], "0") && strcmp(words[1], "1"))) {
        fprintf(stderr, "usage: run [VERSION], which is 0 or 1\n");
        return 2;
    }
    uint8_t version = count == 2 && words[1][0] == '0' ? 0 : 1;
    uint64_t written;
    memcpy(table, records, sizeof records);
    uint8_t answer = hingemoss_full_run(version, end, HINGEMOSS_END_NUMBERS, table, HINGEMOSS_ROOM_NUMBERS, sizeof records / sizeof records[0], out, sizeof out, &written);
    if (answer) {
        fprintf(stderr, "run: refused by %u\n", answer);
        return 1;
    }
    return fwrite(out, 1, (size_t)written, stdout) == written && !fflush(stdout) ? 0 : 1;
}
