/* The library in every mode that a host can set of the processor's floating point (the register MXCSR): subnormal numbers flushed or taken as 0,
 * as `-ffast-math` sets them, each way to round, and every exception trapped. Each call must answer bit for bit as in the mode that a process
 * begins with, and leave the register as it was: so it raises no exception, and none can kill the host. */
#include "rondavitse.h"

#include <inttypes.h>
#include <stdio.h>
#include <stdlib.h>
#include <string.h>
#include <xmmintrin.h>

enum {
    FLUSH_TO_ZERO = 0x8000,
    DENORMALS_ARE_ZERO = 0x0040,
    ROUND_DOWN = 0x2000,
    ROUND_UP = 0x4000,
    ROUND_TO_ZERO = 0x6000,
    ALL_MASKED = 0x1F80, /* as a process begins; where a mask is cleared the exception is trapped */
    FAST = FLUSH_TO_ZERO | DENORMALS_ARE_ZERO,
    SPEED = 100,
    RANDOM = 20000
};

static const unsigned modes[] = {
    ALL_MASKED | FAST,         ALL_MASKED | FLUSH_TO_ZERO, ALL_MASKED | DENORMALS_ARE_ZERO, ALL_MASKED | ROUND_DOWN,
    ALL_MASKED | ROUND_UP,     ALL_MASKED | ROUND_TO_ZERO, 0,                               FAST,
    ROUND_DOWN,                ROUND_UP,                   ROUND_TO_ZERO,                   FAST | ROUND_DOWN,
};

/* Sizes about which the answers turn: 0, subnormal numbers, halves of a unit, the ends of both ranges, infinity, patterns of not-a-number. */
static const uint32_t edges[] = {
    0x00000000, 0x00000001, 0x00400000, 0x007FFFFF, 0x00800000, 0x00800001, 0x01000000, 0x3B7FFFFF, 0x3B800000, 0x3B800001,
    0x3BFFFFFF, 0x3C000000, 0x3C000001, 0x3C3FFFFF, 0x3C400000, 0x3C400001, 0x3CFFFFFF, 0x3D000000, 0x3D000001, 0x3D7FFFFF,
    0x3D800000, 0x3D800001, 0x3DBFFFFF, 0x3DC00000, 0x3DC00001, 0x3F800000, 0x417FFFFF, 0x41800000, 0x41800001, 0x427FFFFF,
    0x42800000, 0x42800001, 0x7F7FFFFF, 0x7F800000, 0x7F800001, 0x7FBFFFFF, 0x7FC00000, 0x7FFFFFFF,
};
static const size_t EDGES = sizeof edges / sizeof edges[0];

static unsigned long differing;

static void expect(int holds, const char *what, unsigned mode, uint32_t bits) {
    if (!holds) {
        printf("%s: mode %04X, bits %08" PRIX32 "\n", what, mode, bits);
        differing++;
    }
}

/* A carrier with its front maybe past the end, where none can enter. */
static rondavitse_lane lane_with(uint64_t position, uint64_t speed) {
    rondavitse_lane lane;
    rondavitse_empty(&lane);
    rondavitse_start(&lane, (rondavitse_road){0, RONDAVITSE_FARTHEST_END, RONDAVITSE_FASTEST}, 0);
    rondavitse_enter(&lane, (rondavitse_carrier){1, 0, speed, RONDAVITSE_LONGEST_CARRIER, RONDAVITSE_HIGHEST_RATE});
    lane.records[0].position = position;
    return lane;
}

/* Everything that the library answers about a float's bits. */
typedef struct {
    rondavitse_lane by_call, by_text;
    uint64_t no;
    uint8_t text[32];
} answers;

static void ask(answers *a, uint8_t sort, uint32_t bits) {
    uint8_t out[RONDAVITSE_ANSWER_BUFFER];
    char input[64];
    const char *word = sort == RONDAVITSE_ACCELERATION ? "accel" : "speed";
    const int length = sprintf(input, "call=cycle\ncars=1\nwant=%s:%08" PRIX32 "\n", word, bits);
    memset(a, 0, sizeof *a);
    a->by_call = lane_with(1000, SPEED);
    a->by_text = a->by_call;
    a->no = rondavitse_cycle(&a->by_call, 1, &sort, 1, &bits, 1).no;
    const size_t written = rondavitse_step(&a->by_text, (const uint8_t *)input, (size_t)length, 0, out, sizeof out).written;
    memcpy(a->text, out, written < sizeof a->text ? written : sizeof a->text);
}

static void compare(uint8_t sort, uint32_t bits) {
    answers wanted, got;
    ask(&wanted, sort, bits);
    expect(memcmp(&wanted.by_call, &wanted.by_text, sizeof wanted.by_call) == 0, "call and text", ALL_MASKED, bits);
    for (size_t i = 0; i < sizeof modes / sizeof modes[0]; i++) {
        _mm_setcsr(modes[i]);
        ask(&got, sort, bits);
        const unsigned left = _mm_getcsr();
        _mm_setcsr(ALL_MASKED);
        expect(left == modes[i], "register changed", modes[i], bits);
        expect(memcmp(&wanted, &got, sizeof got) == 0, "answers", modes[i], bits);
    }
}

static void compare_both(uint32_t bits) {
    compare(RONDAVITSE_ACCELERATION, bits);
    compare(RONDAVITSE_TARGET_SPEED, bits);
}

static void compare_readings(uint64_t position, uint64_t speed) {
    const rondavitse_lane lane = lane_with(position, speed);
    const rondavitse_reading wanted = {(double)position / 2048, (double)speed / 128};
    for (size_t i = 0; i < sizeof modes / sizeof modes[0]; i++) {
        _mm_setcsr(modes[i]);
        const rondavitse_read_out got = rondavitse_read(&lane, 1);
        const unsigned left = _mm_getcsr();
        _mm_setcsr(ALL_MASKED);
        expect(left == modes[i], "register changed by a read", modes[i], (uint32_t)position);
        expect(memcmp(&wanted, &got.reading, sizeof wanted) == 0, "reading", modes[i], (uint32_t)position);
    }
}

/* What the documents say of a float, in any mode: the speed after a cycle that begins at SPEED, or the refusal. */
static void expect_case(uint8_t sort, uint32_t bits, uint64_t no, uint64_t speed) {
    answers a;
    ask(&a, sort, bits);
    expect(a.no == no && a.by_call.records[0].speed == speed, "case", ALL_MASKED, bits);
    compare(sort, bits);
}

int main(void) {
    uint32_t random = 1;
    expect_case(RONDAVITSE_ACCELERATION, 0x80000001, 0, SPEED);
    expect_case(RONDAVITSE_ACCELERATION, 0x00000001, 0, SPEED);
    expect_case(RONDAVITSE_ACCELERATION, 0xBD000000, 0, SPEED);
    expect_case(RONDAVITSE_ACCELERATION, 0x3D000000, 0, SPEED);
    expect_case(RONDAVITSE_ACCELERATION, 0xBD000001, 0, SPEED - 1);
    expect_case(RONDAVITSE_ACCELERATION, 0x3D000001, 0, SPEED + 1);
    expect_case(RONDAVITSE_ACCELERATION, 0xBDC00000, 0, SPEED - 2);
    expect_case(RONDAVITSE_ACCELERATION, 0x3DC00000, 0, SPEED + 2);
    expect_case(RONDAVITSE_TARGET_SPEED, 0x80000001, 7, SPEED);
    expect_case(RONDAVITSE_TARGET_SPEED, 0x80000000, 0, 0);
    expect_case(RONDAVITSE_TARGET_SPEED, 0x00000001, 0, 0);
    expect_case(RONDAVITSE_TARGET_SPEED, 0x3B800000, 0, 0);
    expect_case(RONDAVITSE_TARGET_SPEED, 0x3B800001, 0, 1);
    expect_case(RONDAVITSE_TARGET_SPEED, 0x3C400000, 0, 2);
    for (size_t i = 0; i < EDGES; i++) {
        compare_both(edges[i]);
        compare_both(edges[i] | 0x80000000);
    }
    for (int i = 0; i < RANDOM; i++) {
        random = random * 1664525 + 1013904223;
        compare_both(i % 2 ? random : random & 0x807FFFFF); /* every other one is subnormal */
    }
    for (uint64_t position = 0; position < RONDAVITSE_FARTHEST_END; position = position * 2 + 1) {
        compare_readings(position, position % RONDAVITSE_FASTEST);
        compare_readings(position, 0);
    }
    compare_readings(RONDAVITSE_FARTHEST_END + RONDAVITSE_LONGEST_CARRIER - 1, RONDAVITSE_FASTEST);
    printf("%lu differ\n", differing);
    return differing == 0 ? EXIT_SUCCESS : EXIT_FAILURE;
}
