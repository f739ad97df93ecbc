/* That a carrier's tail counts: every call takes a lane with a front past the end or a tail before the start, and a carrier is safe behind the
 * tail ahead or not at all. */
#include "lanes.h"

/* The foremost at rest with its tail one unit before the end, so that its front is past it, and one at rest right behind the tail. */
static rondavitse_lane lane_over_end(void) {
    rondavitse_lane lane = lane_of(2);
    lane.records[0].position = ROAD.end - 1 + lane.records[0].length;
    lane.records[0].speed = 0;
    lane.records[1].position = close_behind(&lane, 0);
    lane.records[1].speed = 0;
    return lane;
}

static void check_start_and_load(void) {
    rondavitse_lane lane = lane_over_end(), kept = lane, wanted = lane_of(0);
    same("load over the end", "no", load(&lane), RONDAVITSE_LANE_OCCUPIED);
    same_words("load over the end", &lane, &kept);
    put_rows(wanted.rows, NEXT);
    same("start over the end", "no", rondavitse_start(&lane, ROAD, CYCLE), RONDAVITSE_ACCEPTED);
    same_state("start over the end", &lane, &wanted);
}

/* The one behind stands, so that no surface is refused, whatever the foremost's speed is. */
static void check_surface(uint64_t speed) {
    for (uint64_t code = 0; code < SURFACES; code++) {
        rondavitse_lane lane = lane_over_end();
        lane.records[0].speed = speed;
        rondavitse_lane wanted = lane;
        wanted.surface = code;
        same("surface over the end", "no", rondavitse_surface(&lane, code), RONDAVITSE_ACCEPTED);
        same_words("surface over the end", &lane, &wanted);
    }
}

/* No front enters at the end, nor one unit before it, level with the foremost's tail; far behind both one does. */
static void check_enter(void) {
    rondavitse_carrier newcomer = carrier_at(2);
    rondavitse_lane lane = lane_over_end(), wanted = lane_of(3);
    const rondavitse_lane before = lane;
    newcomer.position = ROAD.end;
    same("enter over the end", "no at the end", rondavitse_enter(&lane, newcomer).no, RONDAVITSE_POSITION_PAST_END);
    newcomer.position = ROAD.end - 1;
    same("enter over the end", "no before it", rondavitse_enter(&lane, newcomer).no, RONDAVITSE_UNSAFE_BEHIND_LEADER);
    same_words("enter over the end", &lane, &before);
    const rondavitse_entered got = rondavitse_enter(&lane, carrier_at(2));
    memcpy(wanted.records, before.records, 2 * sizeof before.records[0]);
    same("enter over the end", "no", got.no, RONDAVITSE_ACCEPTED);
    same("enter over the end", "place", got.place, 2);
    same_state("enter over the end", &lane, &wanted);
}

static void check_read_and_leave(void) {
    for (size_t place = 0; place < 2; place++) {
        rondavitse_lane lane = lane_over_end(), wanted = lane;
        const rondavitse_record carrier = lane.records[place];
        const rondavitse_read_out got = rondavitse_read(&lane, carrier.number);
        same("read over the end", "no", got.no, RONDAVITSE_ACCEPTED);
        same("read over the end", "position as 1/2048 m", (uint64_t)(got.reading.position * 2048), carrier.position);
        wanted.count = 1;
        wanted.records[0] = lane.records[1 - place];
        same("leave over the end", "no", rondavitse_leave(&lane, carrier.number), RONDAVITSE_ACCEPTED);
        same_state("leave over the end", &lane, &wanted);
    }
}

/* By the call and by a block. */
static void check_text(void) {
    rondavitse_lane lane = lane_over_end();
    const rondavitse_lane kept = lane;
    uint8_t out[RONDAVITSE_ANSWER_BUFFER];
    char wanted[RONDAVITSE_LONGEST_TEXT + 1];
    const size_t length = wanted_text(wanted, &lane), head = strlen("ok=show\n");
    same("text over the end", "length", rondavitse_lane_text(&lane, out, sizeof out).length, length);
    same("text over the end", "bytes", (uint64_t)memcmp(out, wanted, length), 0);
    const rondavitse_stepped shown = rondavitse_step(&lane, (const uint8_t *)"call=show\n", strlen("call=show\n"), 0, out, sizeof out);
    same("show over the end", "written", shown.written, head + length);
    same("show over the end", "bytes", (uint64_t)memcmp(out + head, wanted, length), 0);
    same_words("text over the end", &lane, &kept);
}

/* The foremost moves by so many units: by one its tail is at the end, and it is gone. By the call and by a block. */
static void check_cycle(uint32_t units, uint32_t gone) {
    const uint8_t sorts[] = {RONDAVITSE_UNITS, RONDAVITSE_HOLD};
    const uint32_t values[] = {units, 0};
    uint8_t out[RONDAVITSE_ANSWER_BUFFER];
    char block[64];
    rondavitse_lane by_call = lane_over_end(), by_block = by_call, wanted = by_call;
    const int length = sprintf(block, "call=cycle\ncars=2\nwant=units:%" PRIu32 "\nwant=hold\n", units);
    wanted.cycle++;
    if (gone == 1) {
        wanted.count = 1;
        wanted.records[0] = wanted.records[1];
    }
    const rondavitse_cycled got = rondavitse_cycle(&by_call, 2, sorts, 2, values, 2);
    same("cycle over the end", "no", got.no, RONDAVITSE_ACCEPTED);
    same("cycle over the end", "word", got.word, 0);
    same("cycle over the end", "gone", got.gone, gone);
    same_state("cycle over the end", &by_call, &wanted);
    rondavitse_step(&by_block, (const uint8_t *)block, (size_t)length, 0, out, sizeof out);
    same_state("cycle over the end by a block", &by_block, &wanted);
}

/* Behind a tail at the start or before it nobody can be. */
static void check_tail_before_start(void) {
    for (uint64_t position = 0; position <= RONDAVITSE_LONGEST_CARRIER + 1; position += position < 2 ? 1 : 0x7FFF) {
        rondavitse_lane lane = started_lane(0, RONDAVITSE_FARTHEST_END);
        const rondavitse_carrier ahead = {1, position, 0, RONDAVITSE_LONGEST_CARRIER, 255}, behind = {2, 0, 0, 0, 255};
        const bool free = position > RONDAVITSE_LONGEST_CARRIER;
        same("tail before the start", "no", rondavitse_enter(&lane, ahead).no, RONDAVITSE_ACCEPTED);
        same("tail before the start", "read", rondavitse_read(&lane, 1).no, RONDAVITSE_ACCEPTED);
        same("tail before the start", "no of one behind", rondavitse_enter(&lane, behind).no, free ? 0 : RONDAVITSE_UNSAFE_BEHIND_LEADER);
        same("tail before the start", "surface", rondavitse_surface(&lane, RONDAVITSE_LAST_SURFACE), RONDAVITSE_ACCEPTED);
        same("tail before the start", "leave", rondavitse_leave(&lane, 1), RONDAVITSE_ACCEPTED);
    }
}

/* A carrier longer than its lane: the tail has all its length to drive, and the front is past the end meanwhile. */
static void check_longer_than_lane(void) {
    const uint8_t hold = RONDAVITSE_HOLD;
    const uint32_t any = 0;
    rondavitse_lane lane = started_lane(0, 1);
    const rondavitse_carrier carrier = {1, 0, RONDAVITSE_FASTEST, RONDAVITSE_LONGEST_CARRIER, 255};
    same("longer than its lane", "no", rondavitse_enter(&lane, carrier).no, RONDAVITSE_ACCEPTED);
    for (uint64_t cycle = 1; cycle <= 4; cycle++) {
        const rondavitse_cycled got = rondavitse_cycle(&lane, 1, &hold, 1, &any, 1);
        same("longer than its lane", "no of a cycle", got.no, RONDAVITSE_ACCEPTED);
        same("longer than its lane", "gone", got.gone, cycle == 4); /* at 65,536, its length past the end */
    }
}

/* One that would rest 64 units on, behind one at rest, whichever enters first: level with the tail is refused, one unit less is not. */
static void check_rest(uint64_t length) {
    for (uint64_t tail = 764; tail <= 765; tail++) {
        const rondavitse_carrier ahead = {7, tail + length, 0, length, 255}, behind = {8, 700, 64, 9, 255};
        check_entries(started_lane(0, 100000), ahead, behind, tail == 765);
    }
}

/* Document 01's case with the tail where the front was: a wish that would rest level with the tail is replaced, one unit less stands. */
static void check_wish(uint64_t length) {
    const uint8_t sorts[] = {RONDAVITSE_HOLD, RONDAVITSE_UNITS};
    const uint32_t values[] = {0, 32};
    for (uint64_t tail = 1020; tail <= 1021; tail++) {
        rondavitse_lane lane = started_lane(0, 100000);
        const rondavitse_carrier ahead = {7, tail + length, 0, length, 255}, behind = {8, 700, 64, 9, 255};
        same("wish", "no of the one ahead", rondavitse_enter(&lane, ahead).no, RONDAVITSE_ACCEPTED);
        same("wish", "no of the one behind", rondavitse_enter(&lane, behind).no, RONDAVITSE_ACCEPTED);
        same("wish", "word", rondavitse_cycle(&lane, 2, sorts, 2, values, 2).word, tail == 1020 ? 2 : 0);
        same("wish", "position", lane.records[1].position, tail == 1020 ? 764 : 860);
        same("wish", "length", lane.records[1].length, 9);
    }
}

/* On each wetter house row one that would rest level with the tail ahead is refused the surface, one unit less is not. */
static void check_rain(uint64_t length) {
    const uint64_t stops[SURFACES] = {64, 80, 96, 112, 128, 256, 684, 4096}; /* from a speed of 64 */
    for (uint64_t code = 1; code < SURFACES; code++) {
        for (uint64_t room = stops[code]; room <= stops[code] + 1; room++) {
            rondavitse_lane lane = started_lane(0, 100000);
            const rondavitse_carrier ahead = {7, 700 + room + length, 0, length, 255}, behind = {8, 700, 64, 9, 255};
            same("rain", "no of the one ahead", rondavitse_enter(&lane, ahead).no, RONDAVITSE_ACCEPTED);
            same("rain", "no of the one behind", rondavitse_enter(&lane, behind).no, RONDAVITSE_ACCEPTED);
            same("rain", "no", rondavitse_surface(&lane, code), room == stops[code] ? RONDAVITSE_SURFACE_UNSAFE : 0);
            same("rain", "surface", lane.surface, room == stops[code] ? 0 : code);
        }
    }
}

int main(void) {
    const uint64_t lengths[] = {0, 1, 300, RONDAVITSE_LONGEST_CARRIER};
    check_start_and_load();
    check_surface(0);
    check_surface(ROAD.limit);
    check_enter();
    check_read_and_leave();
    check_text();
    check_cycle(0, 0);
    check_cycle(1, 1);
    check_tail_before_start();
    check_longer_than_lane();
    for (size_t i = 0; i < sizeof lengths / sizeof lengths[0]; i++) {
        check_rest(lengths[i]);
        check_wish(lengths[i]);
        check_rain(lengths[i]);
    }
    return verdict();
}
