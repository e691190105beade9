/* Boot, write, damage, read: the smallest use of the library. */
#include "rank.h"
#include <stdio.h>

#define MAP_TASK 3 /* this firmware's number for the task that reads the map, 0 to 7 */

static uint8_t memory[RANK_MEMORY_BYTES(4)];

static int refused(RankRefusal refusal) {
    printf("refused with %u: %s\n", (unsigned)refusal, rank_refusal_text(refusal));
    return 1;
}

int main(void) {
    const uint64_t catch_words[RANK_CHIPS] = {11, 22, 33, 44, 55, 66, 77, 88, 99}; /* better: random numbers */
    const uint8_t data[RANK_DATA_BYTES] = "page 7 lies in block 3";
    const uint8_t damage[RANK_PATTERN_BYTES] = {0xff, 0x0f};
    uint8_t buffer[RANK_DATA_BYTES];

    if (rank_version() != RANK_VERSION)
        return 1; /* the archive is not that of this header */
    RankCalled called = rank_boot(memory, sizeof memory, catch_words, RANK_CHIPS);
    if (called.refusal == RANK_OK)
        called = rank_write(called.rank, memory, sizeof memory, 2, data, sizeof data);
    if (called.refusal == RANK_OK)
        called = rank_fault(called.rank, memory, sizeof memory, 2, 1, damage, sizeof damage);
    if (called.refusal != RANK_OK)
        return refused(called.refusal);

    RankRead read = rank_read(called.rank, memory, sizeof memory, MAP_TASK, 2, buffer, sizeof buffer);
    if (read.refusal != RANK_OK)
        return refused(read.refusal);
    printf("%.64s (chips repaired: mask %03x)\n", (const char *)buffer, (unsigned)read.flagged);
    printf("words repaired for the map task: %u\n", (unsigned)read.rank.repairs[MAP_TASK]);
    return 0; /* the next call takes read.rank */
}
