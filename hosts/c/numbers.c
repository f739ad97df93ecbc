/* That no number is cut in silence and every refusal has words: what the header's inline functions give, and what the library makes of it. */
#include "compare.h"
#include "table.h"

enum { SPEED = 1000 };

static rondavitse_lane dry_lane(void) {
    rondavitse_lane lane;
    rondavitse_empty(&lane);
    rondavitse_start(&lane, (rondavitse_road){.surface = 0, .end = RONDAVITSE_FARTHEST_END, .limit = RONDAVITSE_FASTEST}, 0);
    return lane;
}

static rondavitse_lane lane_of_one(void) {
    rondavitse_lane lane = dry_lane();
    rondavitse_enter(&lane, (rondavitse_carrier){.number = 1, .position = 0, .speed = SPEED, .length = 0, .rate = 1});
    return lane;
}

/* A wish of these units gives `no`, and changes the speed by so much. */
static void check_units(int64_t units, uint32_t no, int change) {
    const uint8_t sort = RONDAVITSE_UNITS;
    const uint32_t value = rondavitse_units(units);
    rondavitse_lane lane = lane_of_one();
    same("units", "no", rondavitse_cycle(&lane, 1, &sort, 1, &value, 1).no, no);
    same("units", "speed", lane.records[0].speed, (uint64_t)(SPEED + change));
}

static void check_all_units(void) {
    const int64_t past[] = {-32769, 32768, 65536, INT64_C(1) << 32, (INT64_C(1) << 32) + 5, -(INT64_C(1) << 32), INT64_MIN, INT64_MAX};
    check_units(5, RONDAVITSE_ACCEPTED, 5);
    check_units(-5, RONDAVITSE_ACCEPTED, -5);
    check_units(-32768, RONDAVITSE_ACCEPTED, -128); /* trimmed to the surface's hardest braking */
    check_units(32767, RONDAVITSE_ACCEPTED, 32);    /* and to its most acceleration */
    for (size_t i = 0; i < sizeof past / sizeof past[0]; i++) {
        check_units(past[i], RONDAVITSE_WISH_UNKNOWN, 0);
    }
}

static void check_block(rondavitse_lane *lane, const char *block, const char *answer) {
    uint8_t out[RONDAVITSE_ANSWER_BUFFER];
    same(block, "written", rondavitse_step(lane, (const uint8_t *)block, strlen(block), 0, out, sizeof out).written, strlen(answer));
    same(block, "answer", (uint64_t)memcmp(out, answer, strlen(answer)), 0);
}

/* An entry with this length and own rate gives `no`, by the call and by a block. */
static void check_entry(uint64_t length, uint64_t rate, uint32_t no, const char *answer) {
    char block[128];
    rondavitse_lane by_call = dry_lane(), by_block = by_call;
    sprintf(block, "call=enter\ncar=1\nat=0\nspeed=0\nlength=%" PRIu64 "\nbrake=%" PRIu64 "\n", length, rate);
    same(block, "no", rondavitse_enter(&by_call, (rondavitse_carrier){.number = 1, .length = length, .rate = rate}).no, no);
    check_block(&by_block, block, answer);
    same(block, "carriers", by_call.count, no == RONDAVITSE_ACCEPTED);
    same(block, "carriers by a block", by_block.count, no == RONDAVITSE_ACCEPTED);
    if (no == RONDAVITSE_ACCEPTED) {
        same(block, "length in the lane", by_call.records[0].length, length);
        same(block, "length in the lane by a block", by_block.records[0].length, length);
        same(block, "rate in the lane", by_call.records[0].rate, rate);
        same(block, "rate in the lane by a block", by_block.records[0].rate, rate);
    }
}

/* A change to this surface gives `no`, by the call and by a block. */
static void check_surface(uint64_t surface, uint32_t no, const char *answer) {
    char block[64];
    rondavitse_lane by_call = dry_lane(), by_block = by_call;
    const uint64_t wanted = no == RONDAVITSE_ACCEPTED ? surface : by_call.surface;
    sprintf(block, "call=surface\nsurface=%" PRIu64 "\n", surface);
    same("surface", "no", rondavitse_surface(&by_call, surface), no);
    check_block(&by_block, block, answer);
    same("surface", "in the lane", by_call.surface, wanted);
    same("surface", "in the lane by a block", by_block.surface, wanted);
}

/* A block's line holds 32 bits and is malformed past them; those of a call are 64. */
static void check_lengths(void) {
    const uint64_t wide = UINT64_C(1) << 32;
    check_entry(0, 1, RONDAVITSE_ACCEPTED, "ok=enter\nplace=0\n");
    check_entry(RONDAVITSE_LONGEST_CARRIER, 1, RONDAVITSE_ACCEPTED, "ok=enter\nplace=0\n");
    check_entry(RONDAVITSE_LONGEST_CARRIER + 1, 1, RONDAVITSE_LENGTH_TOO_LARGE, "no=33\n");
    check_entry(wide - 1, 1, RONDAVITSE_LENGTH_TOO_LARGE, "no=33\n");
    check_entry(wide, 1, RONDAVITSE_LENGTH_TOO_LARGE, "no=8\n");
    check_entry(wide + 100, 1, RONDAVITSE_LENGTH_TOO_LARGE, "no=8\n");
    check_entry(UINT64_MAX, 1, RONDAVITSE_LENGTH_TOO_LARGE, "no=8\n");
}

static void check_rates(void) {
    const uint64_t wide = UINT64_C(1) << 32;
    const uint64_t past[] = {0, RONDAVITSE_HIGHEST_RATE + 1, 256 + 64, 65536 + 64, wide - 1}, past_line[] = {wide, wide + 64, UINT64_MAX};
    for (uint64_t rate = 1; rate <= RONDAVITSE_HIGHEST_RATE; rate++) {
        check_entry(0, rate, RONDAVITSE_ACCEPTED, "ok=enter\nplace=0\n");
    }
    for (size_t i = 0; i < sizeof past / sizeof past[0]; i++) {
        check_entry(0, past[i], RONDAVITSE_RATE_OUT_OF_RANGE, "no=35\n");
    }
    for (size_t i = 0; i < sizeof past_line / sizeof past_line[0]; i++) {
        check_entry(0, past_line[i], RONDAVITSE_RATE_OUT_OF_RANGE, "no=8\n");
    }
}

/* Ahead of a moving carrier and not behind it, whose tail is at the start: which of the two was asked for can be told. */
static void check_opening(uint64_t head, uint64_t number, rondavitse_newcomer newcomer, uint32_t no, bool exists) {
    const rondavitse_lane lane = lane_of_one();
    const rondavitse_opening got = rondavitse_find_opening(&lane, head, number, newcomer);
    same("opening", "no", got.no, no);
    same("opening", "exists", byte_of(&got.exists), exists);
    same("opening", "lowest", got.lowest, exists ? SPEED * SPEED + newcomer.length + 1 : 0); /* the carrier brakes by 1 */
    same("opening", "highest", got.highest, exists ? RONDAVITSE_FARTHEST_END - 1 : 0);
}

/* Each bit of every argument, with what is in range below it: a wide head is the head, any other number is refused past its range. */
static void check_openings(void) {
    const rondavitse_newcomer newcomer = {.speed = 0, .length = 100, .rate = 64};
    check_opening(0, 1, newcomer, RONDAVITSE_ACCEPTED, false);
    for (unsigned bit = 0; bit < 64; bit++) {
        const uint64_t wide = UINT64_C(1) << bit;
        const rondavitse_newcomer fast = {wide, 100, 64}, long_one = {0, wide, 64}, rated = {0, 100, wide};
        check_opening(wide, 0, newcomer, RONDAVITSE_ACCEPTED, true);
        check_opening(wide, 1, newcomer, RONDAVITSE_ACCEPTED, true);
        check_opening(0, wide + 1, newcomer, bit < 16 ? RONDAVITSE_NUMBER_ABSENT : RONDAVITSE_NUMBER_OUT_OF_RANGE, false);
        check_opening(0, 1, fast, wide <= RONDAVITSE_FASTEST ? RONDAVITSE_ACCEPTED : RONDAVITSE_SPEED_ABOVE_LIMIT, false);
        check_opening(1, 0, long_one, bit < 16 ? RONDAVITSE_ACCEPTED : RONDAVITSE_LENGTH_TOO_LARGE, bit < 16);
        check_opening(1, 0, rated, bit < 8 ? RONDAVITSE_ACCEPTED : RONDAVITSE_RATE_OUT_OF_RANGE, bit < 8);
    }
    for (unsigned bit = 17; bit < 64; bit++) {
        const uint64_t wide = UINT64_C(1) << bit;
        check_opening(1, 0, (rondavitse_newcomer){wide, 100, 64}, RONDAVITSE_SPEED_ABOVE_LIMIT, false);
        check_opening(1, 0, (rondavitse_newcomer){0, wide + 100, 64}, RONDAVITSE_LENGTH_TOO_LARGE, false);
        check_opening(1, 0, (rondavitse_newcomer){0, 100, wide + 64}, RONDAVITSE_RATE_OUT_OF_RANGE, false);
    }
    check_opening(1, 0, (rondavitse_newcomer){0, 100, 0}, RONDAVITSE_RATE_OUT_OF_RANGE, false);
}

static void check_surfaces(void) {
    const uint64_t wide = UINT64_C(1) << 32;
    for (uint64_t code = 0; code < RONDAVITSE_SURFACES; code++) {
        check_surface(code, RONDAVITSE_ACCEPTED, "ok=surface\n");
        check_surface(wide + code, RONDAVITSE_SURFACE_UNKNOWN, "no=8\n");
    }
    check_surface(RONDAVITSE_SURFACES, RONDAVITSE_SURFACE_UNKNOWN, "no=1\n");
    check_surface(256 + 1, RONDAVITSE_SURFACE_UNKNOWN, "no=1\n");
    check_surface(65536 + 1, RONDAVITSE_SURFACE_UNKNOWN, "no=1\n");
    check_surface(wide - 1, RONDAVITSE_SURFACE_UNKNOWN, "no=1\n");
    check_surface(UINT64_MAX, RONDAVITSE_SURFACE_UNKNOWN, "no=8\n");
}

/* Each line of a table text with this number gives `no`. */
static void check_table_number(const char *number, uint32_t no) {
    for (size_t line = 0; line < TABLE_LINES; line++) {
        char text[TABLE_BUFFER], other[32];
        rondavitse_lane lane;
        rondavitse_empty(&lane);
        sprintf(other, "%c=%s\n", "bBA"[line % FIGURES], number);
        const size_t length = table_text(text, line, other);
        same("table number", number, rondavitse_load(&lane, (const uint8_t *)text, length), no);
    }
}

static void check_table_numbers(void) {
    check_table_number("100", RONDAVITSE_ACCEPTED);
    check_table_number("356", RONDAVITSE_TABLE_UNSOUND); /* 100 more than what 8, 16, 32 and 64 bits hold */
    check_table_number("65636", RONDAVITSE_TABLE_UNSOUND);
    check_table_number("4294967396", RONDAVITSE_TABLE_UNSOUND);
    check_table_number("18446744073709551716", RONDAVITSE_TABLE_UNSOUND);
}

static void check_floats(void) {
    same("float", "1.5", rondavitse_float(1.5f), 0x3FC00000);
    same("float", "-16", rondavitse_float(-16.0f), 0xC1800000);
    same("float", "-0", rondavitse_float(-0.0f), 0x80000000);
}

static void check_words(void) {
    for (uint32_t no = 0; no < 100; no++) {
        const bool known = no <= 13 || (no >= 21 && no <= 28) || (no >= 31 && no <= 37);
        same("words", "known", strcmp(rondavitse_words(no), "unknown refusal") != 0, known);
    }
    same("words", "of the largest number", (uint64_t)strcmp(rondavitse_words(UINT32_MAX), "unknown refusal"), 0);
}

int main(void) {
    check_all_units();
    check_lengths();
    check_rates();
    check_openings();
    check_surfaces();
    check_table_numbers();
    check_floats();
    check_words();
    return verdict();
}
