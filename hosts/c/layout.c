/* That the header's structs are those of the library: sizes as expected, and every field that a function is handed or gives back
 * is where the header says. Each word is given a value that no other one has. */
#include "lanes.h"

/* C99 has no static assertion: an array of a negative size stops the compiler. */
#define STATIC_ASSERT(name, condition) typedef char static_assert_##name[(condition) ? 1 : -1]
#define SIZE(type, size) STATIC_ASSERT(type, sizeof(type) == (size))
#define FIELD(type, field, offset, size) \
    STATIC_ASSERT(type##_##field, offsetof(type, field) == (offset) && sizeof(((type *)0)->field) == (size))

SIZE(rondavitse_row, 64);
FIELD(rondavitse_row, guaranteed, 0, 8);
FIELD(rondavitse_row, hardest, 8, 8);
FIELD(rondavitse_row, most, 16, 8);
FIELD(rondavitse_row, free, 24, 40);
SIZE(rondavitse_road, 24);
FIELD(rondavitse_road, surface, 0, 8);
FIELD(rondavitse_road, end, 8, 8);
FIELD(rondavitse_road, limit, 16, 8);
SIZE(rondavitse_carrier, 40);
FIELD(rondavitse_carrier, number, 0, 8);
FIELD(rondavitse_carrier, position, 8, 8);
FIELD(rondavitse_carrier, speed, 16, 8);
FIELD(rondavitse_carrier, length, 24, 8);
FIELD(rondavitse_carrier, rate, 32, 8);
SIZE(rondavitse_newcomer, 24);
FIELD(rondavitse_newcomer, speed, 0, 8);
FIELD(rondavitse_newcomer, length, 8, 8);
FIELD(rondavitse_newcomer, rate, 16, 8);
SIZE(rondavitse_record, 64);
FIELD(rondavitse_record, number, 0, 8);
FIELD(rondavitse_record, position, 8, 8);
FIELD(rondavitse_record, speed, 16, 8);
FIELD(rondavitse_record, length, 24, 8);
FIELD(rondavitse_record, rate, 32, 8);
FIELD(rondavitse_record, free, 40, 24);
SIZE(rondavitse_lane, 5696);
FIELD(rondavitse_lane, started, 0, 8);
FIELD(rondavitse_lane, surface, 8, 8);
FIELD(rondavitse_lane, end, 16, 8);
FIELD(rondavitse_lane, limit, 24, 8);
FIELD(rondavitse_lane, cycle, 32, 8);
FIELD(rondavitse_lane, count, 40, 8);
FIELD(rondavitse_lane, free_figures, 48, 16);
FIELD(rondavitse_lane, rows, 64, 512);
FIELD(rondavitse_lane, next_rows, 576, 512);
FIELD(rondavitse_lane, free_slots, 1088, 512);
FIELD(rondavitse_lane, records, 1600, 4096);
SIZE(rondavitse_entered, 16);
FIELD(rondavitse_entered, no, 0, 4);
FIELD(rondavitse_entered, place, 8, 8);
SIZE(rondavitse_opening, 24);
FIELD(rondavitse_opening, no, 0, 4);
FIELD(rondavitse_opening, exists, 4, 1);
FIELD(rondavitse_opening, lowest, 8, 8);
FIELD(rondavitse_opening, highest, 16, 8);
SIZE(rondavitse_cycled, 24);
FIELD(rondavitse_cycled, no, 0, 4);
FIELD(rondavitse_cycled, word, 8, 8);
FIELD(rondavitse_cycled, replaced, 16, 4);
FIELD(rondavitse_cycled, gone, 20, 4);
SIZE(rondavitse_reading, 16);
FIELD(rondavitse_reading, position, 0, 8);
FIELD(rondavitse_reading, speed, 8, 8);
SIZE(rondavitse_read_out, 24);
FIELD(rondavitse_read_out, no, 0, 4);
FIELD(rondavitse_read_out, reading, 8, 16);
SIZE(rondavitse_listed, 16);
FIELD(rondavitse_listed, no, 0, 4);
FIELD(rondavitse_listed, length, 8, 8);
SIZE(rondavitse_stepped, 24);
FIELD(rondavitse_stepped, next, 0, 8);
FIELD(rondavitse_stepped, written, 8, 8);
FIELD(rondavitse_stepped, no, 16, 4);
FIELD(rondavitse_stepped, stop, 20, 1);

static void take_out(rondavitse_lane *lane, size_t place) {
    lane->count--;
    memmove(&lane->records[place], &lane->records[place + 1], (lane->count - place) * sizeof lane->records[0]);
}

static void check_empty(void) {
    rondavitse_lane got = unsound_lane(), wanted = house_lane();
    rondavitse_empty(&got);
    same_words("empty", &got, &wanted);
}

static void check_start(void) {
    rondavitse_lane got = unsound_lane(), wanted = lane_of(0);
    put_rows(wanted.rows, NEXT);
    same("start", "no", rondavitse_start(&got, ROAD, CYCLE), 0);
    same_state("start", &got, &wanted);
}

/* Of the lane the next rows alone become those of the text, and a start then puts them in force. */
static void check_load(void) {
    rondavitse_lane lane = lane_of(0), wanted = lane;
    put_rows(wanted.next_rows, LOADED);
    same("load", "no", load(&lane), 0);
    same_state("load", &lane, &wanted);
    put_rows(wanted.rows, LOADED);
    same("start after a load", "no", rondavitse_start(&lane, ROAD, CYCLE), 0);
    same_state("start after a load", &lane, &wanted);
}

/* From the rear to the front, and at last the one in the middle, so that records move. */
static void check_enter(void) {
    const size_t middle = 31;
    rondavitse_lane lane = lane_of(0), wanted = lane_of(MOST);
    for (size_t place = MOST; place-- > 0;) {
        if (place != middle) {
            rondavitse_enter(&lane, carrier_at(place));
        }
    }
    const rondavitse_entered got = rondavitse_enter(&lane, carrier_at(middle));
    same("enter", "no", got.no, 0);
    same("enter", "place", got.place, middle);
    same_state("enter", &lane, &wanted);
}

/* Every gap and the head, on each row in force: the lowest position goes by the newcomer's speed and length, the highest by its speed and
 * rate, and each of the three would be refused, or give others, in another one's place. */
static void check_opening(void) {
    const rondavitse_newcomer newcomer = {.speed = 0x0145, .length = 0x6789, .rate = 9};
    for (uint64_t code = 0; code < SURFACES; code++) {
        rondavitse_lane lane = lane_of(MOST);
        lane.surface = code;
        const rondavitse_lane kept = lane;
        for (size_t place = 0; place <= MOST; place++) {
            const rondavitse_opening wanted = wanted_opening(&lane, place, newcomer);
            same("opening", "wanted", wanted.exists, true);
            same_opening("opening", opening_at(&lane, place, newcomer), wanted);
        }
        same_opening("opening ahead of all", rondavitse_find_opening(&lane, 2, carrier_at(5).number, newcomer), wanted_opening(&lane, 0, newcomer));
        same_words("opening", &lane, &kept);
    }
}

static void check_no_opening(void) {
    const rondavitse_lane lane = lane_near(), kept = lane;
    same_opening("no opening", opening_at(&lane, 1, (rondavitse_newcomer){0, 100, 1}), (rondavitse_opening){.exists = false});
    same_words("no opening", &lane, &kept);
}

static void check_leave(void) {
    const size_t place = 17;
    rondavitse_lane lane = lane_of(MOST), wanted = lane_of(MOST);
    take_out(&wanted, place);
    same("leave", "no", rondavitse_leave(&lane, carrier_at(place).number), 0);
    same_state("leave", &lane, &wanted);
}

static void check_read(void) {
    const rondavitse_lane lane = lane_of(MOST), wanted = lane;
    for (size_t place = 0; place < MOST; place++) {
        const rondavitse_carrier c = carrier_at(place);
        const rondavitse_read_out got = rondavitse_read(&lane, c.number);
        same("read", "no", got.no, 0);
        same("read", "position as 1/2048 m", (uint64_t)(got.reading.position * 2048), c.position);
        same("read", "speed as 1/128 m/s", (uint64_t)(got.reading.speed * 128), c.speed);
    }
    same_words("read", &lane, &wanted);
}

/* The first two have tails so near the end that a cycle takes them past it; those whose bit is set stand close behind one that stands. */
static rondavitse_lane lane_before_cycle(uint64_t word) {
    rondavitse_lane lane = lane_of(MOST);
    lane.end = close_behind(&lane, 0) + 2;
    lane.records[0].speed = 0x0407; /* fast enough for the second to be safe behind it */
    lane.records[1].position = close_behind(&lane, 0);
    lane.records[1].length = 0x0200; /* short enough for a cycle to take the tail past the end too */
    for (size_t i = 1; i < MOST; i++) {
        if (word >> i & 1) {
            lane.records[i - 1].speed = 0;
            lane.records[i].speed = 0;
            lane.records[i].position = close_behind(&lane, i - 1);
        }
    }
    return lane;
}

/* All hold but those close behind, which wish to speed up and may not. */
static void check_cycle(void) {
    const uint64_t word = UINT64_C(0x8004010000000100);
    uint8_t sorts[MOST];
    uint32_t values[MOST];
    rondavitse_lane lane = lane_before_cycle(word), wanted = lane;
    wanted.cycle = CYCLE + 1;
    wanted.count = MOST - 2;
    for (size_t i = 0; i < MOST; i++) {
        sorts[i] = word >> i & 1 ? RONDAVITSE_UNITS : RONDAVITSE_HOLD;
        values[i] = 12;
    }
    for (size_t i = 2; i < MOST; i++) {
        wanted.records[i - 2] = lane.records[i];
        wanted.records[i - 2].position += 2 * lane.records[i].speed;
    }
    const rondavitse_cycled got = rondavitse_cycle(&lane, MOST, sorts, MOST, values, MOST);
    same("cycle", "no", got.no, 0);
    same("cycle", "word", got.word, word);
    same("cycle", "replaced", got.replaced, 4);
    same("cycle", "gone", got.gone, 2);
    same_state("cycle", &lane, &wanted);
}

/* On each surface the first speeds up and the second brakes as hard as they can, and the third, right behind it, may not speed up: it brakes
 * by its own rate, or by b where that is smaller. */
static void check_rows_in_force(uint64_t rate) {
    const uint8_t sorts[] = {RONDAVITSE_UNITS, RONDAVITSE_UNITS, RONDAVITSE_UNITS};
    const uint32_t values[] = {rondavitse_units(INT16_MAX), rondavitse_units(INT16_MIN), rondavitse_units(INT16_MAX)};
    for (size_t code = 0; code < SURFACES; code++) {
        rondavitse_lane lane = lane_of(3);
        lane.surface = code;
        lane.records[2].position = close_behind(&lane, 1);
        lane.records[2].speed = 40;
        lane.records[2].rate = rate;
        const rondavitse_lane before = lane;
        const uint64_t b = before.rows[code].guaranteed;
        const rondavitse_cycled got = rondavitse_cycle(&lane, 3, sorts, 3, values, 3);
        same("rows in force", "no", got.no, 0);
        same("rows in force", "word", got.word, 4);
        same("rows in force", "most acceleration", lane.records[0].speed - before.records[0].speed, before.rows[code].most);
        same("rows in force", "hardest braking", before.records[1].speed - lane.records[1].speed, before.rows[code].hardest);
        same("rows in force", "guaranteed braking", before.records[2].speed - lane.records[2].speed, rate < b ? rate : b);
    }
}

/* One word changes, and what the free words and the records past the carriers hold stays there; of a block that is not said. */
static void check_surface(size_t count) {
    const char answer[] = "ok=surface\n";
    for (uint64_t code = 0; code < SURFACES; code++) {
        uint8_t out[RONDAVITSE_ANSWER_BUFFER];
        char block[64];
        rondavitse_lane by_call = lane_of(count), by_block = by_call, wanted = by_call;
        wanted.surface = code;
        same("surface", "no", rondavitse_surface(&by_call, code), 0);
        same_words("surface", &by_call, &wanted);
        const int length = sprintf(block, "call=surface\nsurface=%" PRIu64 "\n", code);
        const rondavitse_stepped got = rondavitse_step(&by_block, (const uint8_t *)block, (size_t)length, 0, out, sizeof out);
        same("surface by a block", "written", got.written, strlen(answer));
        same("surface by a block", "bytes", (uint64_t)memcmp(out, answer, strlen(answer)), 0);
        same_state("surface by a block", &by_block, &wanted);
    }
}

/* The lane is safe on the row before and on the code's row in force, and on no other row of either set. */
static void check_row_of_surface(void) {
    for (size_t code = 0; code < SURFACES; code++) {
        rondavitse_lane lane = lane_near();
        for (size_t other = 0; other < SURFACES; other++) {
            lane.next_rows[other].guaranteed = 1;
            if (other != code && other != ROAD.surface) {
                lane.rows[other].guaranteed = 1;
            }
        }
        same("row of a surface", "no", rondavitse_surface(&lane, code), 0);
    }
}

static void check_lane_text(void) {
    const rondavitse_lane lane = lane_of(MOST), kept = lane;
    uint8_t text[RONDAVITSE_LONGEST_TEXT];
    char wanted[RONDAVITSE_LONGEST_TEXT + 1];
    const size_t length = wanted_text(wanted, &lane);
    memset(text, 0x5A, sizeof text);
    memset(wanted + length, 0x5A, sizeof text - length);
    const rondavitse_listed got = rondavitse_lane_text(&lane, text, sizeof text);
    same("lane text", "no", got.no, 0);
    same("lane text", "length", got.length, length);
    same("lane text", "order of the bytes", (uint64_t)memcmp(text, wanted, sizeof text), 0);
    same_words("lane text", &lane, &kept);
}

/* The text fills its buffer, and one byte less is too few. */
static void check_longest_text(void) {
    const rondavitse_lane lane = longest_lane();
    uint8_t text[RONDAVITSE_LONGEST_TEXT];
    same("longest text", "no", rondavitse_lane_text(&lane, text, sizeof text - 1).no, RONDAVITSE_TEXT_BUFFER_TOO_SHORT);
    same("longest text", "length", rondavitse_lane_text(&lane, text, sizeof text).length, sizeof text);
}

static void check_handover(void) {
    const rondavitse_lane lane = lane_of(MOST), kept = lane;
    uint8_t text[RONDAVITSE_LONGEST_HANDOVER];
    char wanted[RONDAVITSE_LONGEST_HANDOVER + 1];
    const size_t length = wanted_handover(wanted, &lane);
    memset(text, 0x5A, sizeof text);
    memset(wanted + length, 0x5A, sizeof text - length);
    const rondavitse_listed got = rondavitse_handover(&lane, text, sizeof text);
    same("handover", "no", got.no, 0);
    same("handover", "length", got.length, length);
    same("handover", "bytes", (uint64_t)memcmp(text, wanted, sizeof text), 0);
    same_words("handover", &lane, &kept);
}

static void check_longest_handover(void) {
    const rondavitse_lane lane = longest_lane();
    uint8_t text[RONDAVITSE_LONGEST_HANDOVER];
    same("longest handover", "no", rondavitse_handover(&lane, text, sizeof text - 1).no, RONDAVITSE_TEXT_BUFFER_TOO_SHORT);
    same("longest handover", "length", rondavitse_handover(&lane, text, sizeof text).length, sizeof text);
}

/* Into a struct that nobody has written to, which a memory checker sees; then into one with a lane that only a start accepts. */
static void check_take_over(void) {
    char text[RONDAVITSE_LONGEST_HANDOVER + 1];
    const rondavitse_lane wanted = lane_of(MOST);
    const size_t length = wanted_handover(text, &wanted);
    rondavitse_lane fresh, used = unsound_lane();
    same("take over", "no", rondavitse_take_over(&fresh, (const uint8_t *)text, length), 0);
    same_state("take over", &fresh, &wanted);
    same("take over", "no", rondavitse_take_over(&used, (const uint8_t *)text, length), 0);
    same_state("take over", &used, &wanted);
}

/* The second of two blocks, and then what follows it, which is no block. */
static void check_step(void) {
    const size_t place = 40, at = 10;
    uint8_t out[RONDAVITSE_ANSWER_BUFFER];
    char input[64];
    rondavitse_lane lane = lane_of(MOST), wanted = lane_of(MOST);
    take_out(&wanted, place);
    int length = sprintf(input, "call=show\ncall=leave\ncar=%" PRIu64 "\n?", carrier_at(place).number);
    rondavitse_stepped got = rondavitse_step(&lane, (const uint8_t *)input, (size_t)length, at, out, sizeof out);
    same("step", "next", got.next, (uint64_t)length - 1);
    same("step", "written", got.written, strlen("ok=leave\n"));
    same("step", "bytes", (uint64_t)memcmp(out, "ok=leave\n", strlen("ok=leave\n")), 0);
    same("step", "no", got.no, 0);
    same("step", "stop", byte_of(&got.stop), 0);
    same_state("step", &lane, &wanted);
    wanted = lane;
    got = rondavitse_step(&lane, (const uint8_t *)input, (size_t)length, got.next, out, sizeof out);
    same("malformed step", "next", got.next, (uint64_t)length - 1);
    same("malformed step", "written", got.written, strlen("no=8\n"));
    same("malformed step", "no", got.no, 0);
    same("malformed step", "stop", byte_of(&got.stop), 1);
    same_words("malformed step", &lane, &wanted);
}

static const char LEAVE[] = "call=leave\ncar=41410\n"; /* the carrier at the front */

/* The input has ended or the buffer is too short: every byte and every word is as before. */
static void idle_step(uint32_t no, size_t at, size_t out_length) {
    uint8_t out[RONDAVITSE_ANSWER_BUFFER], kept_out[RONDAVITSE_ANSWER_BUFFER];
    rondavitse_lane lane = lane_of(MOST), kept = lane;
    memset(out, 0x5A, sizeof out);
    memcpy(kept_out, out, sizeof out);
    const rondavitse_stepped got = rondavitse_step(&lane, (const uint8_t *)LEAVE, strlen(LEAVE), at, out, out_length);
    same("idle step", "no", got.no, no);
    same("idle step", "next", got.next, at);
    same("idle step", "written", got.written, 0);
    same("idle step", "stop", byte_of(&got.stop), 1);
    same("idle step", "bytes", (uint64_t)memcmp(out, kept_out, sizeof out), 0);
    same_words("idle step", &lane, &kept);
}

static void check_idle_steps(void) {
    const size_t end = strlen(LEAVE), enough = RONDAVITSE_ANSWER_BUFFER;
    idle_step(13, 0, enough - 1);
    idle_step(13, 0, 0);
    idle_step(13, end, enough - 1); /* before the end of the input is looked at */
    idle_step(0, end, enough);
    idle_step(0, SIZE_MAX, enough);
}

int main(void) {
    same("version", "number", rondavitse_version(), RONDAVITSE_VERSION);
    check_empty();
    check_start();
    check_load();
    check_enter();
    check_opening();
    check_no_opening();
    check_leave();
    check_read();
    check_cycle();
    check_rows_in_force(8);
    check_rows_in_force(RONDAVITSE_HIGHEST_RATE);
    check_surface(0);
    check_surface(MOST / 2);
    check_surface(MOST);
    check_row_of_surface();
    check_lane_text();
    check_longest_text();
    check_handover();
    check_longest_handover();
    check_take_over();
    check_step();
    check_idle_steps();
    return verdict();
}
