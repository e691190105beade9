/*
 * rank.h: the calls of a controller for a nine-chip buffer with on-die error detection.
 * For C11 and C++11 or later, on x86-64 Linux. Link librank.a.
 *
 * What it guarantees
 *
 * A rank is a record of type Rank and a memory that the caller lends, 81 bytes for each line of 64. A line has nine
 * chips, each with an eight-byte word and a check byte; chips 0 to 7 hold the line, chip 8 the xor of their words.
 * Proved for every list of calls from an accepted boot, while the premise holds: a read whose arguments fit gives the
 * line last written, 64 zeros if none was, and repairs the memory, or it refuses with 21. It refuses only if two or
 * more chips are damaged, one of them has several bad bits, which its code takes for one, and that chip is not blamed
 * by the other lines of the row: so not if one chip alone is damaged, or each chip in one bit at most, or every chip
 * but one in one bit at most and that one is beyond mending, or blamed. A chip is beyond mending if it holds no
 * codeword and no single bit, inverted, would make one. The premise, at each visit to a line: no chip's damage makes
 * another codeword of its codeword, at most one chip has more than one bad bit, and if the row is diagnosed, no chip
 * with one bad bit is blamed.
 *
 * A row is 128 lines from a multiple of 128; the last may be shorter. It is diagnosed if two or more chips of a line
 * are flagged, that is, hold no codeword, none of them is beyond mending, and the nine words don't xor to zero after
 * mending. A chip is blamed if it is flagged on that line and in at least a tenth of the other lines of the row, there
 * is another line, and no other chip is flagged in a tenth. It is rebuilt from the other eight. If none is blamed, the
 * line is refused.
 *
 * Outside the premise a read may refuse with 20 or 21, and a line that it gives may not be the one written. An example:
 * chip 0 has two bad bits, 300h in its word, and is beyond mending; chip 1 has three, 07h in its check byte, which its
 * code takes for one in its word, so that it inverts a bit that was right and says that it mended. Chip 0 is rebuilt
 * from that word. The read gives a line with two wrong bits, the lowest of either word, and the memory then holds that
 * line. Another, of a rank of two lines: in line 0 chip 0 has the same three bad bits and chip 1 has one, and in line 1
 * chip 1 has one. Chip 1 is blamed, since it is flagged in the one other line and chip 0 is not, and it is rebuilt from
 * chip 0's word. The read of line 0 gives the same two wrong bits.
 *
 * Catch-words may be taken from serial numbers: proved over every list of calls and with any damage, which ones a
 * record starts with changes how many passes are made, the collision masks and the catch-words themselves, and no
 * refusal, line, count, repair or stored byte (catch_words_dont_matter).
 *
 * What a caller owes
 *
 * - At start-up, compare rank_version() with RANK_VERSION. An archive of another version can link, and its calls then
 *   take other arguments and write anywhere.
 * - A pointer is aligned for its type and valid for its length: `memory` and `buffer` to read and write, the others to
 *   read. With a length of 0 it is not used and may be null. Every value of every other argument is allowed: what does
 *   not fit is refused.
 * - `memory` shares no byte with `buffer`, `data`, `pattern` or the array of catch-words of the same call. What is only
 *   read may lie in a record that the caller keeps: the call gets a copy of it.
 * - `enable` is a real bool, 0 or 1. A record that this library returned, or one set to zero, has that.
 * - The record goes in and comes back by value. Keep the one that the last call returned, after a refusal too, but for
 *   a refused boot: the record from before is then still good. Give it to the next call together with the same memory.
 *   Nothing else writes either of them, except damage to the memory, which counts as rank_fault does.
 * - One thread at a time works on one rank and its memory. Different ranks do not meet: the library has no state.
 *
 * What to know of the archive
 *
 * - x86-64 Linux alone: it is built and tested for no other target.
 * - It needs memcpy and memset, allocates nothing, and has no writable data.
 * - It uses the vector registers xmm0 to xmm15 by SSE2 instructions, and no wider ones; memcpy and memset may. An
 *   interrupt handler that does not save them can't call it. As the ABI allows, calls use 128 bytes below the stack
 *   pointer (the red zone).
 * - No call needs more than RANK_STACK_BYTES of stack, its arguments and its result included. The most that is measured
 *   is about 1,000 bytes, for a patrol that repairs a line.
 * - A read that diagnoses the row takes the time of a patrol over its lines, and so does each such line of a patrol.
 * - Records and results have padding bytes of no fixed value: compare records field by field and not by memcmp.
 *
 * Tasks
 *
 * Up to eight tasks of the firmware, 0 to 7, use a rank; which number is whose is the firmware's choice. A read or a
 * patrol names the task that it is made for, and the words that the call repairs are added to that task's total and to
 * no other. Which of the eight is named changes nothing else. All tasks share the one record: hold a lock from taking
 * it until the one returned is stored.
 *
 * A total is 0 after boot, and no other call sets it back; for a span of time take the difference of two records. A
 * total at RANK_REPAIR_LIMIT has stopped; the others go on. While none has stopped, the eight add to all words repaired
 * since boot; that sum can pass 32 bits, so add them in a uint64_t.
 */
#ifndef RANK_H
#define RANK_H

#include <stdbool.h>
#include <stddef.h>
#include <stdint.h>

#ifdef __cplusplus
extern "C" {
#endif

/* The version of this interface. It grows whenever a struct, a parameter list or the set of calls changes. */
#define RANK_VERSION 3

/* Sizes. */
#define RANK_CHIPS 9         /* chips of a rank, so also its catch-words */
#define RANK_DATA_BYTES 64   /* a line as it is written and read */
#define RANK_LINE_BYTES 81   /* a line in the memory: nine chips of nine bytes */
#define RANK_PATTERN_BYTES 9 /* a pattern: eight bytes of the word, highest first, then the check byte */

/* The bytes of memory for a rank of n lines, as a size_t. */
#define RANK_MEMORY_BYTES(n) (sizeof(uint8_t[RANK_LINE_BYTES]) * (n))

/* Limits. Lines and tasks are numbered from 0. */
#define RANK_LINE_LIMIT 65536         /* the most lines that a rank can have */
#define RANK_TASK_LIMIT 8             /* the tasks that repairs are counted for */
#define RANK_REPAIR_LIMIT 4294967295u /* where a repair total stops */
#define RANK_STACK_BYTES 2048         /* no call needs more stack */

/*
 * Refusals: X(name, number, what is wrong). 1 to 5 and 31 are caused by the input, 11 to 14 by the record or the
 * memory's length, 20 and 21 by damage that can't be undone.
 *
 * If several conditions hold, the one that stands first in the call's list is given. A refused call changes no byte of
 * memory or buffer and returns the record as it was given; a refused boot returns a record with every field zero.
 */
#define RANK_REFUSALS(X)                                                                                              \
    X(RANK_REFUSED_LINE_OUT_OF_RANGE, 1, "the line, or a patrol's first line, is not below N")                        \
    X(RANK_REFUSED_BUFFER_LENGTH, 2, "the line buffer is not 64 bytes")                                               \
    X(RANK_REFUSED_CHIP_OUT_OF_RANGE, 3, "the chip is not below 9")                                                   \
    X(RANK_REFUSED_PATTERN_LENGTH, 4, "the pattern is not 9 bytes")                                                   \
    X(RANK_REFUSED_CATCH_WORD_COUNT, 5, "there are not nine catch-words")                                             \
    X(RANK_REFUSED_BOOT_MEMORY_LENGTH, 11, "boot: the memory is empty, no multiple of 81 bytes, or over 65,536 lines") \
    X(RANK_REFUSED_NOT_READY, 12, "the record's Enable is clear, or its N is outside 1 to 65,536")                    \
    X(RANK_REFUSED_MEMORY_LENGTH, 13, "the memory is not 81 * N bytes")                                               \
    X(RANK_REFUSED_REGISTER_DIFFERS, 14, "a register differs from its catch-word")                                    \
    X(RANK_REFUSED_UNLOCATED, 20, "no chip is flagged, and the nine words don't xor to zero")                         \
    X(RANK_REFUSED_UNCORRECTABLE, 21,                                                                                 \
      "two or more chips are flagged, and two or more of them are beyond mending, "                                   \
      "or none is, the mended words don't xor to zero and no chip is blamed")                                         \
    X(RANK_REFUSED_TASK_OUT_OF_RANGE, 31, "read or patrol: the task is not below 8")

/* RANK_OK, or the number of a refusal. A number and not an enum, so that the structs below have a fixed layout. */
typedef uint32_t RankRefusal;

enum {
    RANK_OK = 0, /* not refused */
#define RANK_NUMBERED(name, number, text) name = number,
    RANK_REFUSALS(RANK_NUMBERED)
#undef RANK_NUMBERED
};

/* The name of a refusal as it stands in the list. */
static inline const char *rank_refusal_name(RankRefusal refusal) {
    switch (refusal) {
    case RANK_OK: return "RANK_OK";
#define RANK_NAMED(name, number, text) \
    case number: return #name;
        RANK_REFUSALS(RANK_NAMED)
#undef RANK_NAMED
    default: return "unknown";
    }
}

/* What is wrong, as it stands in the list. */
static inline const char *rank_refusal_text(RankRefusal refusal) {
    switch (refusal) {
    case RANK_OK: return "not refused";
#define RANK_TOLD(name, number, text) \
    case number: return text;
        RANK_REFUSALS(RANK_TOLD)
#undef RANK_TOLD
    default: return "no refusal of this version of the interface";
    }
}

/* The record of a rank. Callers read it; only the calls change it. */
typedef struct Rank {
    uint32_t lines;                    /* N, the lines of the rank, numbered from 0 */
    bool enable;                       /* the Enable bit: bad words are replaced by catch-words */
    uint64_t catch_words[RANK_CHIPS];  /* the catch-words as the controller knows them */
    uint64_t registers[RANK_CHIPS];    /* the catch-word registers as the chips hold them */
    uint32_t repairs[RANK_TASK_LIMIT]; /* words repaired since boot, by task; each stops at RANK_REPAIR_LIMIT */
} Rank;

/* What boot, write, renew and fault return. */
typedef struct RankCalled {
    RankRefusal refusal; /* RANK_OK if the call was carried out */
    Rank rank;           /* the record to keep */
} RankCalled;

/* What a read returns. With refusals 20 and 21 passes and masks are those reached; with every other they are 0. */
typedef struct RankRead {
    RankRefusal refusal; /* RANK_OK if the line is in the buffer */
    uint32_t passes;     /* passes made: 1 to 3; if the row was diagnosed, 3 and two for each other line, up to 257 */
    uint32_t flagged;    /* bit K: chip K held no codeword. If the line was answered, its word was repaired */
    uint32_t collisions; /* bit K: chip K's word is sound and equal to its catch-word */
    Rank rank;           /* the record to keep */
} RankRead;

/* What a patrol returns. Its counts are 0 if it is refused. */
typedef struct RankPatrol {
    RankRefusal refusal; /* RANK_OK if the patrol was made; never 20 or 21 */
    uint32_t visited;    /* lines visited */
    uint32_t refused;    /* lines visited that a read would have refused with 20 or 21 */
    uint32_t rewritten;  /* words repaired in the other lines */
    Rank rank;           /* the record to keep */
} RankPatrol;

/* For compilers that know these: a call whose result, and so whose record, is dropped gets a warning, and so does a
   pointer to fewer bytes than its length says. */
#if defined(__cplusplus) && __cplusplus >= 201703L
#define RANK_KEEP [[nodiscard]]
#elif defined(__STDC_VERSION__) && __STDC_VERSION__ >= 202311L
#define RANK_KEEP [[nodiscard]]
#elif defined(__GNUC__)
#define RANK_KEEP __attribute__((warn_unused_result))
#else
#define RANK_KEEP
#endif
#ifdef __has_attribute
#if __has_attribute(access)
#define RANK_LENT(mode, pointer, length) __attribute__((access(mode, pointer, length)))
#endif
#endif
#ifndef RANK_LENT
#define RANK_LENT(mode, pointer, length)
#endif

/* The version of the interface that the archive was built with: to be compared with RANK_VERSION. */
uint32_t rank_version(void);

/*
 * Makes a rank of a memory. Refusals: 11, 5.
 *
 *   memory       the memory to lend. It is cleared, so that every line reads as 64 zeros.
 *   memory_len   how many bytes it has: RANK_MEMORY_BYTES of 1 to RANK_LINE_LIMIT lines
 *   catch_words  the catch-words, any values; random ones meet stored data, which costs a pass, least often. Only read.
 *   count        how many they are: RANK_CHIPS
 *
 * The record has N = memory_len / 81, Enable set, the catch-words in both copies and every repair total 0. A refused
 * boot changes nothing: if the memory held a rank, it still does, with the record that it had.
 */
RANK_KEEP RANK_LENT(write_only, 1, 2) RANK_LENT(read_only, 3, 4)
RankCalled rank_boot(uint8_t *memory, size_t memory_len, const uint64_t *catch_words, size_t count);

/*
 * Writes a line: lays its nine codewords, so damage that was there is gone. Refusals: 12, 13, 14, 1, 2.
 *
 *   rank         the rank's record; it comes back as given
 *   memory       the rank's memory; the line's 81 bytes change
 *   memory_len   how many bytes it has: RANK_MEMORY_BYTES(rank.lines)
 *   line         the line's number, below rank.lines
 *   data         the bytes to write; only read
 *   data_len     how many they are: RANK_DATA_BYTES
 */
RANK_KEEP RANK_LENT(read_write, 2, 3) RANK_LENT(read_only, 5, 6)
RankCalled rank_write(Rank rank, uint8_t *memory, size_t memory_len, uint32_t line, const uint8_t *data,
                      size_t data_len);

/*
 * Reads a line: visits it for a task, repairs it and puts its 64 bytes in the buffer.
 * Refusals: 12, 13, 14, 31, 1, 2, then 20 or 21.
 *
 *   rank         the rank's record
 *   memory       the rank's memory; flagged chips of the line change
 *   memory_len   how many bytes it has: RANK_MEMORY_BYTES(rank.lines)
 *   task         the task that repairs are counted for, below RANK_TASK_LIMIT. It stands before the line.
 *   line         the line's number, below rank.lines
 *   buffer       where the line goes, if it is answered
 *   buffer_len   how many bytes it has: RANK_DATA_BYTES
 *
 * One flagged chip is rebuilt from the other eight; two or more are mended by their own codes, and if one of them is
 * beyond mending, or is blamed by the other lines of the row, it is rebuilt from the other eight then. Each flagged
 * chip gets the word so found and its check byte in the memory, and the task's repair total grows by their number. Each
 * colliding chip gets another catch-word: 9E3779B97F4A7C15h is added to both copies, modulo 2^64. The other lines of
 * the row are only looked at.
 * After 20 or 21 the memory is as before, so the line is refused again until it is written, or, after 21 with the
 * row diagnosed, until other lines of the row have changed.
 */
RANK_KEEP RANK_LENT(read_write, 2, 3) RANK_LENT(write_only, 6, 7)
RankRead rank_read(Rank rank, uint8_t *memory, size_t memory_len, uint32_t task, uint32_t line, uint8_t *buffer,
                   size_t buffer_len);

/*
 * Visits lines for a task from one upwards and repairs them. Refusals: 12, 13, 14, 31, 1.
 *
 *   rank         the rank's record
 *   memory       the rank's memory; flagged chips of the lines change
 *   memory_len   how many bytes it has: RANK_MEMORY_BYTES(rank.lines)
 *   task         the task that repairs are counted for, below RANK_TASK_LIMIT. It stands before the first line.
 *   first        the first line's number, below rank.lines
 *   budget       the most lines to visit, any number
 *
 * It visits min(budget, N - first) lines, each as a read for that task does: its repairs, the task's repair total and
 * the catch-words of colliding chips change likewise. A line that a read would refuse is counted and left as it is, and
 * doesn't stop the patrol; which one it was, a read tells. `refused` above 0 is no refusal of the call. Repairs take
 * away what blames a chip, so a patrol over a row in which one chip is bad can answer the first lines and refuse the
 * last.
 */
RANK_KEEP RANK_LENT(read_write, 2, 3)
RankPatrol rank_patrol(Rank rank, uint8_t *memory, size_t memory_len, uint32_t task, uint32_t first, uint32_t budget);

/*
 * Gives one chip another catch-word, in both copies. Refusals: 12, 14, 3.
 *
 *   rank         the rank's record
 *   chip         the chip's number, below RANK_CHIPS
 *   catch_word   any value
 */
RANK_KEEP RankCalled rank_renew(Rank rank, uint32_t chip, uint64_t catch_word);

/*
 * Xors a pattern into one chip of a line: damage, for tests and benches. Refusals: 12, 13, 14, 1, 3, 4.
 *
 *   rank         the rank's record; it comes back as given
 *   memory       the rank's memory; the chip's nine bytes of that line change
 *   memory_len   how many bytes it has: RANK_MEMORY_BYTES(rank.lines)
 *   line         the line's number, below rank.lines
 *   chip         the chip's number, below RANK_CHIPS
 *   pattern      eight bytes of the word, highest first, then the check byte; only read
 *   pattern_len  how many they are: RANK_PATTERN_BYTES
 */
RANK_KEEP RANK_LENT(read_write, 2, 3) RANK_LENT(read_only, 6, 7)
RankCalled rank_fault(Rank rank, uint8_t *memory, size_t memory_len, uint32_t line, uint32_t chip,
                      const uint8_t *pattern, size_t pattern_len);

#undef RANK_KEEP
#undef RANK_LENT

#ifdef __cplusplus
}
#endif

/* The library was built for these sizes and places. */
#ifdef __cplusplus
#define RANK_ASSERT(holds) static_assert(holds, #holds)
#else
#define RANK_ASSERT(holds) _Static_assert(holds, #holds)
#endif

RANK_ASSERT(sizeof(bool) == 1);

RANK_ASSERT(sizeof(Rank) == 184);
RANK_ASSERT(offsetof(Rank, lines) == 0);
RANK_ASSERT(offsetof(Rank, enable) == 4);
RANK_ASSERT(offsetof(Rank, catch_words) == 8);
RANK_ASSERT(offsetof(Rank, registers) == 80);
RANK_ASSERT(offsetof(Rank, repairs) == 152);

RANK_ASSERT(sizeof(RankCalled) == 192);
RANK_ASSERT(offsetof(RankCalled, refusal) == 0);
RANK_ASSERT(offsetof(RankCalled, rank) == 8);

RANK_ASSERT(sizeof(RankRead) == 200);
RANK_ASSERT(offsetof(RankRead, refusal) == 0);
RANK_ASSERT(offsetof(RankRead, passes) == 4);
RANK_ASSERT(offsetof(RankRead, flagged) == 8);
RANK_ASSERT(offsetof(RankRead, collisions) == 12);
RANK_ASSERT(offsetof(RankRead, rank) == 16);

RANK_ASSERT(sizeof(RankPatrol) == 200);
RANK_ASSERT(offsetof(RankPatrol, refusal) == 0);
RANK_ASSERT(offsetof(RankPatrol, visited) == 4);
RANK_ASSERT(offsetof(RankPatrol, refused) == 8);
RANK_ASSERT(offsetof(RankPatrol, rewritten) == 12);
RANK_ASSERT(offsetof(RankPatrol, rank) == 16);

#undef RANK_ASSERT

#endif
