/* That a refused call gives its number and zeros, and changes no word of the lane and no lent byte; but a refused reading of a handover text
 * leaves an empty lane. */
#include "lanes.h"

static void refused_start(uint32_t no, rondavitse_road road, rondavitse_lane lane) {
    const rondavitse_lane kept = lane;
    same("refused start", "no", rondavitse_start(&lane, road, CYCLE), no);
    same_words("refused start", &lane, &kept);
}

static void refused_load(uint32_t no, const char *text, size_t length, rondavitse_lane lane) {
    const rondavitse_lane kept = lane;
    same("refused load", "no", rondavitse_load(&lane, (const uint8_t *)text, length), no);
    same_words("refused load", &lane, &kept);
}

static void refused_surface(uint32_t no, uint64_t surface, rondavitse_lane lane) {
    const rondavitse_lane kept = lane;
    same("refused surface", "no", rondavitse_surface(&lane, surface), no);
    same_words("refused surface", &lane, &kept);
}

static void refused_enter(uint32_t no, rondavitse_carrier carrier, rondavitse_lane lane) {
    const rondavitse_lane kept = lane;
    const rondavitse_entered got = rondavitse_enter(&lane, carrier);
    same("refused enter", "no", got.no, no);
    same("refused enter", "place", got.place, 0);
    same_words("refused enter", &lane, &kept);
}

static void refused_opening(uint32_t no, uint64_t head, uint64_t number, rondavitse_newcomer newcomer, rondavitse_lane lane) {
    const rondavitse_lane kept = lane;
    same_opening("refused opening", rondavitse_find_opening(&lane, head, number, newcomer), (rondavitse_opening){.no = no});
    same_words("refused opening", &lane, &kept);
}

static void refused_named(uint32_t no, uint64_t number, rondavitse_lane lane) {
    const rondavitse_lane kept = lane;
    same("refused leave", "no", rondavitse_leave(&lane, number), no);
    same_words("refused leave", &lane, &kept);
    const rondavitse_read_out got = rondavitse_read(&lane, number);
    same("refused read", "no", got.no, no);
    same("refused read", "position", got.reading.position != 0, 0);
    same("refused read", "speed", got.reading.speed != 0, 0);
    same_words("refused read", &lane, &kept);
}

/* The lane text and the handover text, in a buffer of so many bytes. */
static void refused_texts(uint32_t no, size_t length, rondavitse_lane lane) {
    const struct {
        const char *name;
        rondavitse_listed (*write)(const rondavitse_lane *, uint8_t *, size_t);
    } texts[] = {{"refused lane text", rondavitse_lane_text}, {"refused handover", rondavitse_handover}};
    const rondavitse_lane kept = lane;
    for (size_t i = 0; i < sizeof texts / sizeof texts[0]; i++) {
        uint8_t text[RONDAVITSE_LONGEST_HANDOVER], kept_text[RONDAVITSE_LONGEST_HANDOVER];
        memset(text, 0x5A, sizeof text);
        memcpy(kept_text, text, sizeof text);
        const rondavitse_listed got = texts[i].write(&lane, text, length);
        same(texts[i].name, "no", got.no, no);
        same(texts[i].name, "length", got.length, 0);
        same(texts[i].name, "bytes", (uint64_t)memcmp(text, kept_text, sizeof text), 0);
        same_words(texts[i].name, &lane, &kept);
    }
}

/* Into a struct that nobody has written to, into bytes of every sort and into lanes in use: what is left is the empty lane. */
static void refused_take_over(uint32_t no, const char *text, size_t length) {
    const int fillings[] = {0x00, 0x01, 0x5A, 0xB7, 0xFF};
    const rondavitse_lane empty = house_lane();
    rondavitse_lane fresh, lanes[] = {lane_of(0), lane_of(2), lane_of(MOST), unsound_lane(), empty};
    same("refused take over", "no", rondavitse_take_over(&fresh, (const uint8_t *)text, length), no);
    same_words("refused take over", &fresh, &empty);
    for (size_t i = 0; i < 5; i++) {
        rondavitse_lane lane;
        memset(&lane, fillings[i], sizeof lane);
        same("refused take over", "no", rondavitse_take_over(&lane, (const uint8_t *)text, length), no);
        same_words("refused take over", &lane, &empty);
        same("refused take over", "no", rondavitse_take_over(&lanes[i], (const uint8_t *)text, length), no);
        same_words("refused take over", &lanes[i], &empty);
    }
}

/* The text that a lane would have. */
static void refused_lane_of_text(uint32_t no, rondavitse_lane lane) {
    char text[2 * RONDAVITSE_LONGEST_HANDOVER];
    refused_take_over(no, text, wanted_handover(text, &lane));
}

/* Two wishes, or one value fewer. */
static void refused_cycle(uint32_t no, size_t count, const uint8_t *sorts, size_t values_length, rondavitse_lane lane) {
    const uint32_t values[] = {0x7FC00000, 0x8000};
    const rondavitse_lane kept = lane;
    const rondavitse_cycled got = rondavitse_cycle(&lane, count, sorts, 2, values, values_length);
    same("refused cycle", "no", got.no, no);
    same("refused cycle", "word", got.word, 0);
    same("refused cycle", "replaced", got.replaced, 0);
    same("refused cycle", "gone", got.gone, 0);
    same_words("refused cycle", &lane, &kept);
}

/* The step itself is not refused: the number is in its answer. */
static void refused_block(uint32_t no, const char *block, rondavitse_lane lane) {
    uint8_t out[RONDAVITSE_ANSWER_BUFFER], wanted[RONDAVITSE_ANSWER_BUFFER];
    const rondavitse_lane kept = lane;
    memset(out, 0x5A, sizeof out);
    memcpy(wanted, out, sizeof out);
    const size_t length = (size_t)sprintf((char *)wanted, "no=%u\n", (unsigned)no);
    wanted[length] = 0x5A;
    const rondavitse_stepped got = rondavitse_step(&lane, (const uint8_t *)block, strlen(block), 0, out, sizeof out);
    same("refused block", "no", got.no, 0);
    same("refused block", "next", got.next, strlen(block));
    same("refused block", "written", got.written, length);
    same("refused block", "stop", got.stop, 0);
    same("refused block", "bytes", (uint64_t)memcmp(out, wanted, sizeof out), 0);
    same_words("refused block", &lane, &kept);
}

/* Each argument by itself is of no use; 21 comes first all the same. */
static void check_21(rondavitse_lane lane) {
    const uint8_t no_sorts[] = {4, 4};
    if (lane.started == 1) {
        refused_load(21, "", 0, lane);
    }
    refused_surface(21, SURFACES, lane);
    refused_surface(21, ROAD.surface, lane); /* the lane is unsound with any code */
    refused_enter(21, (rondavitse_carrier){0, 0, 0, UINT64_MAX, 0}, lane);
    refused_opening(21, 0, 0, (rondavitse_newcomer){0, UINT64_MAX, 0}, lane);
    refused_opening(21, 1, 0, (rondavitse_newcomer){0, 0, 1}, lane); /* the lane is unsound for any newcomer */
    refused_named(21, 0, lane);
    refused_texts(21, 0, lane);
    refused_texts(21, RONDAVITSE_LONGEST_HANDOVER, lane);
    refused_cycle(21, 3, no_sorts, 1, lane);
    refused_block(21, "call=enter\ncar=0\nat=0\nspeed=0\nlength=65536\nbrake=0\n", lane);
    refused_block(21, "call=leave\ncar=0\n", lane);
    refused_block(21, "call=surface\nsurface=8\n", lane);
    refused_block(21, "call=cycle\ncars=1\nwant=accel:7FC00000\n", lane);
    refused_block(21, "call=show\n", lane);
}

/* A load takes a lane that was never started for an empty and sound one, whatever it holds. */
static void check_never_started(void) {
    const uint64_t never_started[] = {0, 2, 0x100, UINT64_C(0x100000001), UINT64_MAX};
    for (size_t i = 0; i < sizeof never_started / sizeof never_started[0]; i++) {
        rondavitse_lane lane = lane_of(2), wanted;
        lane.started = never_started[i];
        check_21(lane);
        lane.rows[0].most = 0;
        lane.next_rows[0].most = 0;
        refused_load(31, "", 0, lane);
        wanted = lane;
        put_rows(wanted.next_rows, LOADED);
        same("load before any start", "no", load(&lane), 0);
        same_state("load before any start", &lane, &wanted);
    }
}

static void check_unsound(void) {
    check_21(unsound_lane());
    for (size_t i = 0; i < 9; i++) {
        rondavitse_lane lane = lane_of(2);
        rondavitse_record *rear = &lane.records[1];
        uint64_t *figures[] = {&lane.surface,   &lane.end,    &lane.limit,   &lane.count, &rear->number,
                               &rear->position, &rear->speed, &rear->length, &rear->rate};
        *figures[i] += UINT64_C(1) << 32;
        check_21(lane);
    }
}

/* Lengths past the longest, one of which would put the tail before the end if a sum of 64 bits were cut; then a tail at the end, and a front
 * level with the tail ahead. A start looks at none of it. */
static void check_unsound_tails(void) {
    rondavitse_lane lanes[] = {lane_of(2), lane_of(2), lane_of(2), lane_of(2), lane_of(2)};
    lanes[0].records[0].length = RONDAVITSE_LONGEST_CARRIER + 1;
    lanes[1].records[1].length = RONDAVITSE_LONGEST_CARRIER + 1;
    lanes[2].records[1].length = UINT64_MAX;
    lanes[3].records[0].position = ROAD.end + lanes[3].records[0].length;
    lanes[4].records[1].position = close_behind(&lanes[4], 0) + 1;
    lanes[4].records[1].speed = 0;
    for (size_t i = 0; i < sizeof lanes / sizeof lanes[0]; i++) {
        check_21(lanes[i]);
        same("start", "no", rondavitse_start(&lanes[i], ROAD, CYCLE), 0);
    }
}

/* Own rates out of range, of the foremost too, which is behind nobody; then one that is in range and too low for the gap, where b is not. */
static void check_unsound_rates(void) {
    const uint64_t past[] = {0, RONDAVITSE_HIGHEST_RATE + 1, UINT64_MAX};
    rondavitse_lane near = lane_near();
    for (size_t i = 0; i < sizeof past / sizeof past[0]; i++) {
        for (size_t place = 0; place < 2; place++) {
            rondavitse_lane lane = lane_of(2);
            lane.records[place].rate = past[i];
            check_21(lane);
            same("start", "no", rondavitse_start(&lane, ROAD, CYCLE), 0);
        }
    }
    near.records[1].rate = 1;
    check_21(near);
}

/* Each way for a row to be unsound, at every code of both sets. A start looks at the next rows alone, before its arguments. */
static void check_unsound_rows(void) {
    const rondavitse_row unsound[] = {
        {0, 255, 1, {0}}, {256, 255, 1, {0}}, {2, 1, 1, {0}}, {1, 256, 1, {0}}, {1, 255, 0, {0}}, {1, 255, 256, {0}},
        {1, (UINT64_C(1) << 32) + 1, 1, {0}}, {1, 1, (UINT64_C(1) << 32) + 1, {0}},
    };
    for (size_t i = 0; i < sizeof unsound / sizeof unsound[0]; i++) {
        for (size_t code = 0; code < SURFACES; code++) {
            rondavitse_lane in_force = lane_of(2), next = lane_of(2);
            in_force.rows[code] = unsound[i];
            next.next_rows[code] = unsound[i];
            check_21(in_force);
            check_21(next);
            refused_start(21, (rondavitse_road){8, 0, 0}, next);
            same("start", "no", rondavitse_start(&in_force, ROAD, CYCLE), 0);
        }
    }
}

/* One line of the first row or of the last that is malformed or makes its row unsound. */
static void check_refused_lines(void) {
    const struct {
        size_t column;
        const char *line;
    } cases[] = {
        {GUARANTEED, "b=0\n"},   {GUARANTEED, "b=216\n"},  {GUARANTEED, "b=032\n"},  {GUARANTEED, "b=-1\n"},
        {GUARANTEED, "b=\n"},    {GUARANTEED, "b= 32\n"},  {GUARANTEED, "b=32\r\n"}, {GUARANTEED, "B=32\n"},
        {GUARANTEED, "\n"},      {GUARANTEED, "\nb=32\n"}, {HARDEST, "B=31\n"},      {HARDEST, "B=256\n"},
        {MOST_ACCELERATION, "A=0\n"}, {MOST_ACCELERATION, "A=256\n"}, {MOST_ACCELERATION, "a=112\n"},
    };
    for (size_t i = 0; i < sizeof cases / sizeof cases[0]; i++) {
        for (size_t row = 0; row < SURFACES; row += SURFACES - 1) {
            char text[TABLE_BUFFER];
            const size_t length = table_text(text, FIGURES * row + cases[i].column, cases[i].line);
            refused_load(31, text, length, lane_of(0));
        }
    }
}

/* 31 comes before 32. */
static void check_refused_loads(void) {
    char text[TABLE_BUFFER];
    const size_t length = table_text(text, TABLE_LINES, "");
    refused_load(32, text, length, lane_of(1));
    strcpy(text + length, "b=1\n");
    for (size_t count = 0; count < 2; count++) {
        refused_load(31, text, 0, lane_of(count));
        refused_load(31, text, length - 1, lane_of(count));
        refused_load(31, text, length + 1, lane_of(count));
        refused_load(31, text, length + strlen("b=1\n"), lane_of(count));
    }
}

/* The lane is safe on every row of both sets but one in force: 34 for its code, and 21 for every code once it is that of the lane. */
static void check_refused_surfaces(void) {
    const uint64_t wide = UINT64_C(1) << 32, past[] = {SURFACES, wide, wide + ROAD.surface, UINT64_MAX};
    for (size_t i = 0; i < sizeof past / sizeof past[0]; i++) {
        refused_surface(1, past[i], lane_near());
    }
    for (uint64_t code = 0; code < SURFACES; code++) {
        const uint32_t no = code == ROAD.surface ? 21 : 34;
        rondavitse_lane lane = lane_near();
        char block[64];
        sprintf(block, "call=surface\nsurface=%" PRIu64 "\n", code);
        lane.rows[code].guaranteed = 1;
        refused_surface(no, code, lane);
        refused_block(no, block, lane);
        lane.surface = code;
        refused_surface(21, code, lane);
        refused_surface(21, ROAD.surface, lane);
    }
}

/* 33 comes after 6, then 35, both before 22 and 23; 5 looks at the front, 25 and 26 at tails. */
static void check_refused_entries(void) {
    const uint64_t wide = UINT64_C(1) << 32, longest = RONDAVITSE_LONGEST_CARRIER;
    const rondavitse_lane lane = lane_of(2);
    const rondavitse_carrier rear = carrier_at(1);
    const uint64_t number = carrier_at(7).number;
    refused_enter(4, (rondavitse_carrier){0, 0, 0, 0, 1}, lane);
    refused_enter(4, (rondavitse_carrier){RONDAVITSE_HIGHEST_NUMBER + 1, wide, wide, wide, 0}, lane);
    refused_enter(5, (rondavitse_carrier){number, wide, wide, wide, 0}, lane);
    refused_enter(5, (rondavitse_carrier){number, ROAD.end, 0, longest, 1}, lane);
    refused_enter(6, (rondavitse_carrier){number, 0, wide, wide, 0}, lane);
    refused_enter(33, (rondavitse_carrier){number, 0, 0, longest + 1, 1}, lane);
    refused_enter(33, (rondavitse_carrier){number, 0, 0, wide, 0}, lane);
    refused_enter(33, (rondavitse_carrier){rear.number, rear.position, 0, UINT64_MAX, wide}, lane_of(MOST));
    refused_enter(35, (rondavitse_carrier){number, 0, 0, longest, 0}, lane);
    refused_enter(35, (rondavitse_carrier){rear.number, rear.position, 0, 0, 256}, lane);
    refused_enter(35, (rondavitse_carrier){rear.number, rear.position, 0, 0, wide + 1}, lane_of(MOST));
    refused_enter(22, rear, lane_of(MOST));
    refused_enter(23, rear, lane);
    refused_enter(25, (rondavitse_carrier){number, close_behind(&lane, 1) + 1, 0, 0, 255}, lane);
    refused_enter(26, (rondavitse_carrier){number, rear.position + longest, ROAD.limit, longest, 255}, lane);
}

/* Behind a carrier, and ahead of all with any number beside it: 6, then 33, then 35, on a full lane too. */
static void check_refused_newcomers(rondavitse_lane lane) {
    const uint64_t wide = UINT64_C(1) << 32, longest = RONDAVITSE_LONGEST_CARRIER, highest = RONDAVITSE_HIGHEST_RATE;
    const uint64_t asked[][2] = {
        {0, carrier_at(0).number}, {0, carrier_at(1).number}, {1, 0}, {1, RONDAVITSE_HIGHEST_NUMBER + 1}, {1, 1}, {1, carrier_at(1).number},
        {wide, 0}, {UINT64_C(1) << 63, 0}, {UINT64_MAX, UINT64_MAX},
    };
    for (size_t i = 0; i < sizeof asked / sizeof asked[0]; i++) {
        const uint64_t head = asked[i][0], number = asked[i][1];
        refused_opening(6, head, number, (rondavitse_newcomer){ROAD.limit + 1, 0, 1}, lane);
        refused_opening(6, head, number, (rondavitse_newcomer){wide, longest + 1, 0}, lane);
        refused_opening(33, head, number, (rondavitse_newcomer){ROAD.limit, longest + 1, 1}, lane);
        refused_opening(33, head, number, (rondavitse_newcomer){0, wide, 0}, lane);
        refused_opening(35, head, number, (rondavitse_newcomer){ROAD.limit, longest, 0}, lane);
        refused_opening(35, head, number, (rondavitse_newcomer){0, 0, highest + 1}, lane);
        refused_opening(35, head, number, (rondavitse_newcomer){0, 0, wide + 1}, lane);
    }
}

/* 4 and 24 come before them, for a carrier named alone. */
static void check_refused_openings(void) {
    const rondavitse_newcomer newcomers[] = {{0, 0, 1}, {ROAD.limit + 1, RONDAVITSE_LONGEST_CARRIER + 1, 0}};
    for (size_t i = 0; i < sizeof newcomers / sizeof newcomers[0]; i++) {
        refused_opening(4, 0, 0, newcomers[i], lane_of(2));
        refused_opening(4, 0, RONDAVITSE_HIGHEST_NUMBER + 1, newcomers[i], lane_of(2));
        refused_opening(4, 0, carrier_at(1).number + (UINT64_C(1) << 32), newcomers[i], lane_of(2));
        refused_opening(24, 0, 1, newcomers[i], lane_of(2));
        refused_opening(24, 0, RONDAVITSE_HIGHEST_NUMBER, newcomers[i], lane_of(2));
        refused_opening(24, 0, carrier_at(2).number, newcomers[i], lane_of(2)); /* one that is on no lane of two */
        refused_opening(24, 0, carrier_at(0).number, newcomers[i], lane_of(0));
    }
    check_refused_newcomers(lane_of(2));
    check_refused_newcomers(lane_of(MOST));
}

static void check_refused_arguments(void) {
    const uint64_t wide = UINT64_C(1) << 32;
    const rondavitse_lane lane = lane_of(2);
    refused_start(1, (rondavitse_road){wide, 1, 1}, lane);
    refused_start(2, (rondavitse_road){7, wide + 1, 1}, lane);
    refused_start(3, (rondavitse_road){7, RONDAVITSE_FARTHEST_END, wide + RONDAVITSE_FASTEST}, lane);
    refused_named(4, 0, lane);
    refused_named(4, carrier_at(1).number + wide, lane);
    refused_named(24, carrier_at(7).number, lane);
    refused_texts(9, 0, lane);
    refused_texts(9, 2, lane);
}

/* An empty text, one cut short and one with a byte after it; then lanes that break a rule other than safety, unsafe ones, and those with both
 * faults: 36 comes before 37. */
static void check_refused_take_overs(void) {
    char text[RONDAVITSE_LONGEST_HANDOVER + 1];
    rondavitse_lane lane = lane_of(2);
    const size_t length = wanted_handover(text, &lane);
    text[length] = '\n';
    refused_take_over(36, text, 0);
    refused_take_over(36, text, length - 1);
    refused_take_over(36, text, length + 1);
    lane.next_rows[7].most = 0;
    refused_lane_of_text(36, lane);
    lane = lane_near();
    lane.records[1].rate = 1;
    refused_lane_of_text(37, lane);
    lane.rows[0].guaranteed = 0;
    refused_lane_of_text(36, lane);
    lane = lane_near();
    lane.records[1].position = lane.records[0].position;
    refused_lane_of_text(37, lane);
    lane.records[1].number = lane.records[0].number;
    refused_lane_of_text(36, lane);
}

static void check_refused_cycles(void) {
    const uint8_t no_float[] = {RONDAVITSE_ACCELERATION, RONDAVITSE_HOLD};
    const uint8_t no_sort[] = {RONDAVITSE_ACCELERATION, 4}, no_units[] = {RONDAVITSE_ACCELERATION, RONDAVITSE_UNITS};
    rondavitse_lane lane = lane_of(2);
    refused_cycle(7, 2, no_float, 2, lane);
    refused_cycle(11, 2, no_sort, 2, lane);
    refused_cycle(11, 2, no_units, 2, lane);
    refused_cycle(12, 2, no_sort, 1, lane);
    lane.cycle = RONDAVITSE_LAST_CYCLE;
    refused_cycle(28, 2, no_sort, 1, lane);
    refused_cycle(27, 3, no_sort, 1, lane);
}

int main(void) {
    check_never_started();
    check_unsound();
    check_unsound_tails();
    check_unsound_rates();
    check_unsound_rows();
    check_refused_lines();
    check_refused_loads();
    check_refused_surfaces();
    check_refused_entries();
    check_refused_openings();
    check_refused_arguments();
    check_refused_cycles();
    check_refused_take_overs();
    return verdict();
}
