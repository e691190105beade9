/*
 * Mistakes that a compiler can see. `make test` asks for a warning at each line that is marked `dropped`, and at no
 * other line but those marked `lent`, which a compiler with the attribute `access` warns of.
 */
#include "rank.h"

void drop(Rank rank, uint8_t *memory, size_t memory_len, uint8_t *bytes, const uint64_t *catch_words);
uint32_t lend_too_little(Rank rank);

void drop(Rank rank, uint8_t *memory, size_t memory_len, uint8_t *bytes, const uint64_t *catch_words) {
    rank_boot(memory, memory_len, catch_words, RANK_CHIPS); /* dropped */
    rank_write(rank, memory, memory_len, 0, bytes, RANK_DATA_BYTES); /* dropped */
    rank_read(rank, memory, memory_len, 0, 0, bytes, RANK_DATA_BYTES); /* dropped */
    rank_patrol(rank, memory, memory_len, 0, 0, 1); /* dropped */
    rank_renew(rank, 0, 1); /* dropped */
    rank_fault(rank, memory, memory_len, 0, 0, bytes, RANK_PATTERN_BYTES); /* dropped */
}

static uint8_t memory[RANK_MEMORY_BYTES(1)];
static uint8_t buffer[RANK_DATA_BYTES];
static uint64_t eight[8];

uint32_t lend_too_little(Rank rank) {
    uint32_t refusals = 0;
    refusals |= rank_boot(memory, sizeof memory, eight, RANK_CHIPS).refusal; /* lent */
    refusals |= rank_write(rank, memory, sizeof memory, 0, 0, RANK_DATA_BYTES).refusal; /* lent */
    refusals |= rank_read(rank, memory, sizeof memory, 0, 0, buffer, RANK_LINE_BYTES).refusal; /* lent */
    refusals |= rank_patrol(rank, memory, RANK_MEMORY_BYTES(2), 0, 0, 1).refusal; /* lent */
    refusals |= rank_fault(rank, memory, sizeof memory, 0, 0, buffer, 100).refusal; /* lent */
    return refusals;
}
