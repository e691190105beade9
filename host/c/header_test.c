/*
 * Tries what rank.h says beside its calls: the version, the list of refusals, null with length 0, and how much stack a
 * call needs. It prints the stack of each call and ends with status 1 if something is not as the header says.
 */
#define _GNU_SOURCE
#include "rank.h"

#include <stdio.h>
#include <stdlib.h>
#include <string.h>
#include <ucontext.h>

#define LINES 4

static const uint64_t catch_words[RANK_CHIPS] = {1, 2, 3, 4, 5, 6, 7, 8, 9};
static const uint8_t bits[RANK_PATTERN_BYTES] = {0x80, 0x01}; /* beyond mending */
static const uint8_t bit[RANK_PATTERN_BYTES] = {0x80};
static const uint8_t bits_as_one[RANK_PATTERN_BYTES] = {0, 0, 0, 0, 0, 0, 0, 0, 0x07}; /* mended by inverting a right bit */

static uint8_t memory[RANK_MEMORY_BYTES(LINES)];
static uint8_t buffer[RANK_DATA_BYTES];
static Rank rank;

static void expect(bool met, const char *what) {
    if (!met) {
        fprintf(stderr, "not as rank.h says: %s\n", what);
        exit(1);
    }
}

static void version(void) {
    expect(rank_version() == RANK_VERSION, "rank_version() is RANK_VERSION");
}

static void sizes(void) {
    uint32_t lines = 1;
    expect(RANK_MEMORY_BYTES(lines + 1) == 162 && 1000 / RANK_MEMORY_BYTES(lines) == 12, "RANK_MEMORY_BYTES");
    expect(RANK_MEMORY_BYTES(RANK_LINE_LIMIT) == 5308416, "the largest memory");
}

/* Each number of the list has its own name and text, and no other number has one. */
static void texts(void) {
    uint32_t listed = 0;
#define COUNT(name, number, text)                                                                                      \
    listed++;                                                                                                          \
    expect(name == number && strcmp(rank_refusal_name(name), #name) == 0, #name);                                      \
    expect(strcmp(rank_refusal_text(name), text) == 0, #name);
    RANK_REFUSALS(COUNT)
#undef COUNT
    uint32_t named = 0;
    for (RankRefusal number = 1; number < 1000; number++)
        named += strcmp(rank_refusal_name(number), "unknown") != 0;
    expect(named == listed, "a name for each listed number and for no other");
    expect(strcmp(rank_refusal_name(RANK_OK), "RANK_OK") == 0, "the name of 0");
    expect(strcmp(rank_refusal_text(RANK_OK), "not refused") == 0, "the text of 0");
}

/* A pointer with length 0 is not used, so it may be null. */
static void nulls(void) {
    expect(rank_boot(NULL, 0, catch_words, RANK_CHIPS).refusal == RANK_REFUSED_BOOT_MEMORY_LENGTH, "boot, no memory");
    expect(rank_boot(NULL, 0, NULL, 0).refusal == RANK_REFUSED_BOOT_MEMORY_LENGTH, "boot, nothing");
    expect(rank_boot(memory, sizeof memory, NULL, 0).refusal == RANK_REFUSED_CATCH_WORD_COUNT, "boot, no catch-words");
    expect(rank_write(rank, NULL, 0, 0, NULL, 0).refusal == RANK_REFUSED_MEMORY_LENGTH, "write, no memory");
    expect(rank_write(rank, memory, sizeof memory, 0, NULL, 0).refusal == RANK_REFUSED_BUFFER_LENGTH, "write, no data");
    expect(rank_read(rank, NULL, 0, 0, 0, NULL, 0).refusal == RANK_REFUSED_MEMORY_LENGTH, "read, no memory");
    expect(rank_read(rank, memory, sizeof memory, 0, 0, NULL, 0).refusal == RANK_REFUSED_BUFFER_LENGTH,
           "read, no buffer");
    expect(rank_patrol(rank, NULL, 0, 0, 0, 1).refusal == RANK_REFUSED_MEMORY_LENGTH, "patrol, no memory");
    expect(rank_fault(rank, NULL, 0, 0, 0, NULL, 0).refusal == RANK_REFUSED_MEMORY_LENGTH, "fault, no memory");
    expect(rank_fault(rank, memory, sizeof memory, 0, 0, NULL, 0).refusal == RANK_REFUSED_PATTERN_LENGTH,
           "fault, no pattern");
}

/* The calls whose stack is measured. Each stores its result outside the measured stack. */
static RankCalled called;
static RankRead read_result;
static RankPatrol patrol_result;

static void nothing(void) {}
static void boot(void) { called = rank_boot(memory, sizeof memory, catch_words, RANK_CHIPS); }
static void write_line(void) { called = rank_write(rank, memory, sizeof memory, 0, buffer, sizeof buffer); }
static void read_line(void) { read_result = rank_read(rank, memory, sizeof memory, 0, 0, buffer, sizeof buffer); }
static void patrol(void) { patrol_result = rank_patrol(rank, memory, sizeof memory, 0, 0, LINES); }
static void renew(void) { called = rank_renew(rank, 0, 1); }
static void fault(void) { called = rank_fault(rank, memory, sizeof memory, 0, 0, bit, sizeof bit); }

static uint8_t stack[1 << 16];
static ucontext_t here, there;

/* The bytes of the stack that a function writes to. */
static size_t written(void (*function)(void)) {
    memset(stack, 0xa5, sizeof stack);
    expect(getcontext(&there) == 0, "a context");
    there.uc_stack.ss_sp = stack;
    there.uc_stack.ss_size = sizeof stack;
    there.uc_link = &here;
    makecontext(&there, function, 0);
    expect(swapcontext(&here, &there) == 0, "a context");
    size_t untouched = 0;
    while (untouched < sizeof stack && stack[untouched] == 0xa5)
        untouched++;
    return sizeof stack - untouched;
}

static void measure(const char *name, void (*function)(void)) {
    size_t bytes = written(function) - written(nothing);
    printf("stack of %s: %zu bytes\n", name, bytes);
    expect(bytes > 0 && bytes <= RANK_STACK_BYTES, "the stack that a call needs");
}

static void damage(uint32_t line, uint32_t chip, const uint8_t *pattern) {
    called = rank_fault(rank, memory, sizeof memory, line, chip, pattern, RANK_PATTERN_BYTES);
    expect(called.refusal == RANK_OK, "fault");
}

/* Chip 0 of line 0 as it is told and the eight others with a bad bit. */
static void damage_all(const uint8_t *pattern) {
    damage(0, 0, pattern);
    for (uint32_t chip = 1; chip < RANK_CHIPS; chip++)
        damage(0, chip, bit);
}

/* Bits that chip 0 takes for one, and in another line the same chip: every part of a visit runs. */
static void damage_row(void) {
    damage_all(bits_as_one);
    damage(LINES - 1, 0, bit);
}

static void stacks(void) {
    measure("boot", boot);
    measure("write", write_line);
    measure("read, clean line", read_line);
    measure("patrol, clean lines", patrol);
    measure("renew", renew);
    measure("fault", fault);
    measure("read, one chip rebuilt", read_line);
    expect(read_result.refusal == RANK_OK && read_result.passes == 2, "one chip rebuilt");
    damage_all(bits);
    measure("read, all chips repaired", read_line);
    expect(read_result.refusal == RANK_OK && read_result.flagged == 0x1ff, "all chips repaired");
    damage_all(bits);
    measure("patrol, all chips repaired", patrol);
    expect(patrol_result.refusal == RANK_OK && patrol_result.rewritten == RANK_CHIPS, "all chips repaired");
    damage_row();
    measure("read, row diagnosed", read_line);
    expect(read_result.refusal == RANK_OK && read_result.passes == 3 + 2 * (LINES - 1), "row diagnosed");
    damage_all(bits_as_one); /* the other line is still damaged */
    measure("patrol, row diagnosed", patrol);
    expect(patrol_result.refusal == RANK_OK && patrol_result.rewritten == RANK_CHIPS + 1, "row diagnosed");
}

int main(void) {
    boot();
    expect(called.refusal == RANK_OK, "boot");
    rank = called.rank;
    version();
    sizes();
    texts();
    nulls();
    stacks();
    return 0;
}
