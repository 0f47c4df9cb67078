/* What a run of the cache's side costs: makes two tables and writes a run N times.
 *   runs N RECORDS OUT VERSION    writes the run's length and a check sum of its bytes
 * RECORDS: ipv4 | ipv6 | both (three IPv4 records to one IPv6), 1,024 of them. OUT: full, or how many of them are out of the second table, each with another in its place (a change run). */
#include <stdint.h>
#include <stdio.h>
#include <stdlib.h>
#include <string.h>

#include "../include/hingemoss.h"

enum { SIX = 6, RECORDS = HINGEMOSS_RECORDS };

static uint32_t first[HINGEMOSS_ROOM_NUMBERS], second[HINGEMOSS_ROOM_NUMBERS];
static const uint64_t end[HINGEMOSS_END_NUMBERS] = { 4660, 7, 1800, 300, 5400 };
static uint8_t out[HINGEMOSS_CHANGE_RUN_MOST];

int main(int count, char **words)
{
    if (count != 5)
        return 2;
    int rounds = atoi(words[1]), is_full = !strcmp(words[3], "full"), gone = is_full ? 0 : atoi(words[3]);
    int fours = !strcmp(words[2], "ipv4") ? RECORDS : !strcmp(words[2], "ipv6") ? 0 : RECORDS * 3 / 4;
    uint8_t version = (uint8_t)atoi(words[4]), answer = 0;
    uint64_t written = 0, sum = 0;
    for (int i = 0; i < RECORDS; i++) {
        const uint32_t record[SIX] = { (i < fours ? 4u : 6u) << 16 | 24 << 8 | 24, (uint32_t)i << 12, 0, 0, 0, 64496 };
        memcpy(first + SIX * i, record, sizeof record);
        memcpy(second + SIX * i, record, sizeof record);
        if (gone && i % (RECORDS / gone) == 0)
            second[SIX * i + SIX - 1]++;
    }
    for (int i = 0; i < rounds && !answer; i++)
        answer = is_full ? hingemoss_full_run(version, end, HINGEMOSS_END_NUMBERS, first, HINGEMOSS_ROOM_NUMBERS, RECORDS, out, sizeof out, &written)
                         : hingemoss_change_run(version, end, HINGEMOSS_END_NUMBERS, first, HINGEMOSS_ROOM_NUMBERS, RECORDS, second, HINGEMOSS_ROOM_NUMBERS, RECORDS, out, sizeof out, &written);
    for (uint64_t i = 0; i < written; i++)
        sum = sum * 31 + out[i];
    printf("%llu %llu\n", (unsigned long long)written, (unsigned long long)sum);
    return answer;
}
