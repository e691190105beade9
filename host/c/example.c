/*
 * A mapping table in a rank of four lines, with a copy of it elsewhere. Two tasks use it: one reads the table, the
 * other patrols. Each step makes a call, looks at the refusal and keeps the returned record. The program checks what it
 * finds and ends with status 1 if something is not as expected.
 */
#include "rank.h"

#include <stdio.h>
#include <stdlib.h>
#include <string.h>

#define LINES 4

/* Which numbers the tasks have is the firmware's choice. The record counts repairs for each. */
enum { MAP_TASK = 0, PATROL_TASK = 1 };

/* What a refusal asks of the caller. */
typedef enum { FINE, CALLER_ERROR, RANK_LOST, LINE_LOST } Kind;

static uint8_t memory[RANK_MEMORY_BYTES(LINES)];
static Rank rank;

/* Where a lost line is taken from: on a flash card, the copy on flash. */
static uint8_t copy[LINES][RANK_DATA_BYTES];

/* Fixed here so that each run prints the same. A device takes nine random numbers at each boot. */
static const uint64_t catch_words[RANK_CHIPS] = {
    0x3c6ef372fe94f82b, 0xa54ff53a5f1d36f1, 0x510e527fade682d1, 0x9b05688c2b3e6c1f, 0x1f83d9abfb41bd6b,
    0x5be0cd19137e2179, 0xcbbb9d5dc1059ed8, 0x629a292a367cd507, 0x9159015a3070dd17,
};

static void expect(bool met, const char *what) {
    if (!met) {
        fprintf(stderr, "not as expected: %s\n", what);
        exit(1);
    }
}

static Kind kind_of(RankRefusal refusal) {
    switch (refusal) {
    case RANK_OK: return FINE;
    case RANK_REFUSED_NOT_READY:
    case RANK_REFUSED_REGISTER_DIFFERS: return RANK_LOST;
    case RANK_REFUSED_UNLOCATED:
    case RANK_REFUSED_UNCORRECTABLE: return LINE_LOST;
    default: return CALLER_ERROR;
    }
}

static void boot(void) {
    RankCalled called = rank_boot(memory, sizeof memory, catch_words, RANK_CHIPS);
    expect(called.refusal == RANK_OK, "boot");
    rank = called.rank;
    printf("boot: %u lines\n", (unsigned)rank.lines);
}

/* Puts the copy of a line in the rank. */
static void restore(uint32_t line) {
    RankCalled called = rank_write(rank, memory, sizeof memory, line, copy[line], RANK_DATA_BYTES);
    rank = called.rank;
    expect(called.refusal == RANK_OK, "write");
    printf("line %u: written\n", (unsigned)line);
}

/* Says why a call was refused and does what that kind of refusal asks for. `line` is the line of that call. */
static void act_on(RankRefusal refusal, uint32_t line) {
    printf("refused with %u: %s\n", (unsigned)refusal, rank_refusal_text(refusal));
    switch (kind_of(refusal)) {
    case FINE: break;
    case CALLER_ERROR: printf("  an error in the call: nothing has changed, correct the program\n"); break;
    case RANK_LOST:
        printf("  the record is not one that a call returned: boot again, write every line from the copy\n");
        boot();
        for (uint32_t each = 0; each < LINES; each++)
            restore(each);
        break;
    case LINE_LOST:
        printf("  line %u is lost: write it again from the copy\n", (unsigned)line);
        restore(line);
        break;
    }
}

static void print_chips(uint32_t mask) {
    const char *gap = "";
    for (uint32_t chip = 0; chip < RANK_CHIPS; chip++)
        if (mask >> chip & 1) {
            printf("%s%u", gap, (unsigned)chip);
            gap = " and ";
        }
}

/* Says what an answered read found. */
static void tell(uint32_t line, const RankRead *read) {
    bool one = (read->flagged & (read->flagged - 1)) == 0;
    printf("line %u: ", (unsigned)line);
    if (read->flagged == 0) {
        printf("no chip was bad");
    } else if (one) {
        printf("chip ");
        print_chips(read->flagged);
        printf(" was rebuilt from the other eight");
    } else {
        printf("chips ");
        print_chips(read->flagged);
        /* Which of them, if any, was rebuilt is not reported. */
        printf(" were mended by their own codes, or one of them rebuilt");
    }
    if (read->collisions != 0) {
        printf(", data equalled the catch-word of chip ");
        print_chips(read->collisions);
        printf(", which has a new one");
    }
    printf(" (passes: %u)\n", (unsigned)read->passes);
}

/*
 * Reads a line for the map task, acts on a refusal, and returns what the call returned. An answered line has to be the
 * copy's.
 */
static RankRead look(uint32_t line) {
    uint8_t buffer[RANK_DATA_BYTES];
    RankRead read = rank_read(rank, memory, sizeof memory, MAP_TASK, line, buffer, sizeof buffer);
    rank = read.rank;
    if (read.refusal != RANK_OK) {
        act_on(read.refusal, line);
        return read;
    }
    expect(memcmp(buffer, copy[line], sizeof buffer) == 0, "the line that was written");
    tell(line, &read);
    return read;
}

static void damage(uint32_t line, uint32_t chip, const uint8_t pattern[RANK_PATTERN_BYTES]) {
    RankCalled called = rank_fault(rank, memory, sizeof memory, line, chip, pattern, RANK_PATTERN_BYTES);
    rank = called.rank;
    expect(called.refusal == RANK_OK, "fault");
}

/* Five patterns: word, highest byte first, then check byte. Two bits are always beyond mending; these three are mended
   as one, by inverting a bit that was right. */
static const uint8_t whole_chip[] = {0xde, 0xad, 0xbe, 0xef, 0xde, 0xad, 0xbe, 0xef, 0x5a};
static const uint8_t one_bit[] = {0, 0, 0x10, 0, 0, 0, 0, 0, 0};
static const uint8_t two_bits[] = {0, 0, 0x10, 0, 0, 0, 0x01, 0, 0};
static const uint8_t three_bits[] = {0, 0, 0, 0, 0, 0, 0, 0, 0x07};
static const uint8_t codeword[] = {0, 0, 0, 0, 0, 0, 0, 1, 0x07};

static void damage_that_is_undone(void) {
    printf("\nDamage that is undone\n");
    RankRead read = look(2);
    expect(read.refusal == RANK_OK && read.passes == 1 && read.flagged == 0, "a clean line");

    damage(2, 5, whole_chip);
    read = look(2);
    expect(read.refusal == RANK_OK && read.passes == 2 && read.flagged == 1u << 5, "one chip rebuilt");

    damage(2, 3, one_bit);
    damage(2, 8, one_bit);
    read = look(2);
    expect(read.refusal == RANK_OK && read.passes == 3 && read.flagged == (1u << 3 | 1u << 8), "two chips mended");

    /* Chip 0 says that it can't mend its word, and chip 6 mends its own: chip 0 is rebuilt from the other eight. */
    damage(2, 0, two_bits);
    damage(2, 6, one_bit);
    read = look(2);
    expect(read.refusal == RANK_OK && read.passes == 3 && read.flagged == (1u << 0 | 1u << 6),
           "one chip mended and one rebuilt");

    /* Each visit repairs the memory too. */
    read = look(2);
    expect(read.refusal == RANK_OK && read.passes == 1 && rank.repairs[MAP_TASK] == 5, "a repaired line");
}

/* Data that equals a chip's catch-word: the chip is sound, and the read finds that out. */
static void collision(void) {
    printf("\nData equal to a catch-word\n");
    uint64_t word = rank.catch_words[4];
    for (int i = 0; i < 8; i++)
        copy[1][4 * 8 + i] = (uint8_t)(word >> (56 - 8 * i));
    restore(1);
    RankRead read = look(1);
    expect(read.refusal == RANK_OK && read.flagged == 0 && read.collisions == 1u << 4, "a collision");
    expect(rank.catch_words[4] != word && rank.registers[4] == rank.catch_words[4], "a new catch-word");
    read = look(1);
    expect(read.refusal == RANK_OK && read.collisions == 0, "no collision with the new catch-word");

    /* The caller too can give a chip another catch-word at any time. */
    RankCalled called = rank_renew(rank, 4, 0xbb67ae8584caa73b);
    rank = called.rank;
    expect(called.refusal == RANK_OK && rank.registers[4] == 0xbb67ae8584caa73b, "renew");
}

/* A patrol repairs lines before a second chip fails there. It counts lost lines and does not name them. */
static void patrol(void) {
    printf("\nPatrol\n");
    damage(0, 0, whole_chip);
    damage(1, 6, one_bit);
    damage(1, 7, one_bit);
    damage(3, 2, codeword);
    RankPatrol result = rank_patrol(rank, memory, sizeof memory, PATROL_TASK, 0, LINES);
    rank = result.rank;
    if (result.refusal != RANK_OK) {
        act_on(result.refusal, 0);
        return;
    }
    printf("lines visited: %u, lines refused: %u, words rewritten: %u\n", (unsigned)result.visited,
           (unsigned)result.refused, (unsigned)result.rewritten);
    expect(result.visited == LINES && result.refused == 1 && result.rewritten == 3, "patrol's counts");

    /* Reads find the lost line. */
    uint32_t lost = 0;
    for (uint32_t line = 0; line < LINES; line++)
        if (kind_of(look(line).refusal) == LINE_LOST)
            lost++;
    expect(lost == result.refused, "as many lost lines as the patrol refused");
}

/* Each task has its own total. While none has stopped they add to all words repaired since boot, in 64 bits. */
static void repairs_by_task(void) {
    printf("\nRepairs by task\n");
    uint64_t sum = 0;
    for (uint32_t task = 0; task < RANK_TASK_LIMIT; task++)
        sum += rank.repairs[task];
    printf("words repaired for the map task: %u, for the patrol task: %u, in all: %llu\n",
           (unsigned)rank.repairs[MAP_TASK], (unsigned)rank.repairs[PATROL_TASK], (unsigned long long)sum);
    expect(rank.repairs[MAP_TASK] == 5 && rank.repairs[PATROL_TASK] == 3 && sum == 8, "the repairs of each task");
}

static void damage_that_is_not_undone(void) {
    printf("\nDamage that can't be undone\n");
    damage(2, 0, three_bits);
    damage(2, 1, one_bit);
    RankRead read = look(2);
    expect(read.refusal == RANK_REFUSED_UNCORRECTABLE && read.passes == 3 + 2 * (LINES - 1) && read.flagged == 3,
           "a chip that mends wrongly, and no chip is bad in the other lines");
    read = look(2);
    expect(read.refusal == RANK_OK && read.passes == 1, "a line written again");

    damage(2, 0, two_bits);
    damage(2, 1, two_bits);
    read = look(2);
    expect(read.refusal == RANK_REFUSED_UNCORRECTABLE && read.passes == 3 && read.flagged == 3,
           "two chips beyond mending");
    read = look(2);
    expect(read.refusal == RANK_OK && read.passes == 1, "a line written again");
}

static void refused_call(RankRefusal refusal, RankRefusal expected) {
    expect(refusal == expected, "this refusal");
    act_on(refusal, 0);
}

static void errors_in_the_call(void) {
    printf("\nErrors in the call\n");
    uint8_t buffer[RANK_DATA_BYTES];
    uint8_t before[sizeof memory];
    memcpy(before, memory, sizeof memory);

    RankRead read = rank_read(rank, memory, sizeof memory, RANK_TASK_LIMIT, 0, buffer, sizeof buffer);
    rank = read.rank;
    refused_call(read.refusal, RANK_REFUSED_TASK_OUT_OF_RANGE);
    read = rank_read(rank, memory, sizeof memory, MAP_TASK, LINES, buffer, sizeof buffer);
    rank = read.rank;
    refused_call(read.refusal, RANK_REFUSED_LINE_OUT_OF_RANGE);
    read = rank_read(rank, memory, sizeof memory, MAP_TASK, 0, buffer, sizeof buffer - 1);
    rank = read.rank;
    refused_call(read.refusal, RANK_REFUSED_BUFFER_LENGTH);
    RankCalled called = rank_renew(rank, RANK_CHIPS, 0);
    rank = called.rank;
    refused_call(called.refusal, RANK_REFUSED_CHIP_OUT_OF_RANGE);
    called = rank_fault(rank, memory, sizeof memory, 0, 0, one_bit, sizeof one_bit - 1);
    rank = called.rank;
    refused_call(called.refusal, RANK_REFUSED_PATTERN_LENGTH);
    called = rank_write(rank, memory, sizeof memory - RANK_LINE_BYTES, 0, copy[0], RANK_DATA_BYTES);
    rank = called.rank;
    refused_call(called.refusal, RANK_REFUSED_MEMORY_LENGTH);

    /* A refused boot returns a record of zeros. Here the rank lives on, so its record is kept. */
    called = rank_boot(memory, sizeof memory, catch_words, RANK_CHIPS - 1);
    expect(called.rank.lines == 0 && !called.rank.enable, "a record of zeros");
    refused_call(called.refusal, RANK_REFUSED_CATCH_WORD_COUNT);
    called = rank_boot(memory, sizeof memory - 1, catch_words, RANK_CHIPS);
    refused_call(called.refusal, RANK_REFUSED_BOOT_MEMORY_LENGTH);
    expect(memcmp(before, memory, sizeof memory) == 0, "a memory that no refused call has changed");
}

static void lost_record(void) {
    printf("\nA record that no call returned\n");
    memset(&rank, 0, sizeof rank);
    expect(look(0).refusal == RANK_REFUSED_NOT_READY, "a record of zeros refused");
    rank.registers[7]++;
    expect(look(0).refusal == RANK_REFUSED_REGISTER_DIFFERS, "another register refused");
    expect(look(3).refusal == RANK_OK, "a rank booted again");
}

int main(void) {
    expect(rank_version() == RANK_VERSION, "the archive of this header");
    for (uint32_t line = 0; line < LINES; line++)
        for (uint32_t i = 0; i < RANK_DATA_BYTES; i++)
            copy[line][i] = (uint8_t)(line * RANK_DATA_BYTES + i);
    boot();
    for (uint32_t line = 0; line < LINES; line++)
        restore(line);
    damage_that_is_undone();
    collision();
    patrol();
    repairs_by_task();
    damage_that_is_not_undone();
    errors_in_the_call();
    lost_record();
    return 0;
}
