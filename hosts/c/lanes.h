/* Lanes for the tests, each word with a value that no other one has, and comparisons of them. */
#ifndef LANES_H
#define LANES_H

#include "compare.h"
#include "table.h"

#include <string.h>

enum { MOST = RONDAVITSE_MOST_CARRIERS, SURFACES = RONDAVITSE_SURFACES, WORDS = sizeof(rondavitse_lane) / sizeof(uint64_t) };

static const rondavitse_road ROAD = {.surface = 5, .end = 0x7A6B5C4D, .limit = 0x1E2D};
static const uint64_t CYCLE = 0x1122334455667788;

/* Every word of a lane, free ones included. */
static inline void same_words(const char *call, const rondavitse_lane *got, const rondavitse_lane *wanted) {
    uint64_t words[2][WORDS];
    memcpy(words[0], got, sizeof *got);
    memcpy(words[1], wanted, sizeof *wanted);
    for (size_t i = 0; i < WORDS; i++) {
        char name[32];
        sprintf(name, "word %u", (unsigned)i);
        same(call, name, words[0][i], words[1][i]);
    }
}

static void same_rows(const char *call, const rondavitse_row *got, const rondavitse_row *wanted) {
    for (size_t code = 0; code < SURFACES; code++) {
        same(call, "guaranteed braking", got[code].guaranteed, wanted[code].guaranteed);
        same(call, "hardest braking", got[code].hardest, wanted[code].hardest);
        same(call, "most acceleration", got[code].most, wanted[code].most);
    }
}

/* What counts of a lane: its figures, its rows and its carriers. */
static inline void same_state(const char *call, const rondavitse_lane *got, const rondavitse_lane *wanted) {
    same(call, "started", got->started, wanted->started);
    same(call, "surface", got->surface, wanted->surface);
    same(call, "end", got->end, wanted->end);
    same(call, "limit", got->limit, wanted->limit);
    same(call, "cycle", got->cycle, wanted->cycle);
    same(call, "count", got->count, wanted->count);
    same_rows(call, got->rows, wanted->rows);
    same_rows(call, got->next_rows, wanted->next_rows);
    for (size_t i = 0; i < wanted->count; i++) {
        same(call, "number", got->records[i].number, wanted->records[i].number);
        same(call, "position", got->records[i].position, wanted->records[i].position);
        same(call, "speed", got->records[i].speed, wanted->records[i].speed);
        same(call, "length", got->records[i].length, wanted->records[i].length);
        same(call, "rate", got->records[i].rate, wanted->records[i].rate);
    }
}

/* What rondavitse_empty makes: the house rows in both sets, and every other word 0. */
static inline rondavitse_lane house_lane(void) {
    const rondavitse_row house[SURFACES] = {
        {64, 128, 32, {0}}, {56, 120, 32, {0}}, {48, 112, 24, {0}}, {40, 96, 24, {0}},
        {32, 96, 16, {0}},  {16, 64, 12, {0}},  {6, 48, 8, {0}},    {1, 255, 1, {0}},
    };
    rondavitse_lane lane;
    memset(&lane, 0, sizeof lane);
    memcpy(lane.rows, house, sizeof house);
    memcpy(lane.next_rows, house, sizeof house);
    return lane;
}

/* The rows of a set; their free words stay. */
static void put_rows(rondavitse_row *rows, size_t first) {
    for (size_t code = 0; code < SURFACES; code++) {
        rows[code].guaranteed = figure_of(first + code, GUARANTEED);
        rows[code].hardest = figure_of(first + code, HARDEST);
        rows[code].most = figure_of(first + code, MOST_ACCELERATION);
    }
}

/* A lane that no call but a start accepts, with a value of its own in every word but the first. */
static rondavitse_lane unsound_lane(void) {
    rondavitse_lane lane;
    uint64_t words[WORDS];
    for (size_t i = 0; i < WORDS; i++) {
        words[i] = UINT64_C(0xB1B2B3B4B5B60000) + i;
    }
    memcpy(&lane, words, sizeof lane);
    lane.started = 1;
    put_rows(lane.next_rows, NEXT);
    return lane;
}

/* The carrier at a place, all slow and far apart, with the bytes of a figure unlike each other; own rates are above every row's b. */
static rondavitse_carrier carrier_at(size_t place) {
    return (rondavitse_carrier){
        .number = 0xA1C2 + 0x0101 * place,
        .position = 0x7A69584C - 0x01010101 * place,
        .speed = 0x0102 + place,
        .length = 0x8483 + 0x0101 * place,
        .rate = 120 + place,
    };
}

/* A record's free words stay. */
static void put_carrier(rondavitse_record *record, rondavitse_carrier carrier) {
    record->number = carrier.number;
    record->position = carrier.position;
    record->speed = carrier.speed;
    record->length = carrier.length;
    record->rate = carrier.rate;
}

/* A sound lane; its free words and the records past the carriers hold anything. */
static rondavitse_lane lane_of(size_t count) {
    rondavitse_lane lane = unsound_lane();
    lane.surface = ROAD.surface;
    lane.end = ROAD.end;
    lane.limit = ROAD.limit;
    lane.cycle = CYCLE;
    lane.count = count;
    put_rows(lane.rows, IN_FORCE);
    for (size_t place = 0; place < count; place++) {
        put_carrier(&lane.records[place], carrier_at(place));
    }
    return lane;
}

/* Where the front is of one right behind the carrier at a place. */
static uint64_t close_behind(const rondavitse_lane *lane, size_t place) {
    return lane->records[place].position - lane->records[place].length - 1;
}

/* One that moves 100 units behind the tail of one that stands: safe on every row of the tests, and not on one that guarantees 1. */
static inline rondavitse_lane lane_near(void) {
    rondavitse_lane lane = lane_of(2);
    lane.records[0].speed = 0;
    lane.records[1].position = close_behind(&lane, 0) - 100;
    lane.records[1].speed = 30;
    return lane;
}

/* Writes what the lane text should be; gives its length. */
static inline size_t wanted_text(char *text, const rondavitse_lane *lane) {
    size_t length = (size_t)sprintf(text, "cars=%" PRIu64 "\n", lane->count);
    for (size_t place = 0; place < lane->count; place++) {
        const rondavitse_record *c = &lane->records[place];
        length += (size_t)sprintf(text + length, "car=%" PRIu64 "\nat=%" PRIu64 "\nspeed=%" PRIu64 "\nlength=%" PRIu64 "\nbrake=%" PRIu64 "\n",
                                  c->number, c->position, c->speed, c->length, c->rate);
    }
    return length;
}

/* Every figure with all its digits, the foremost with its front past the end. */
static inline rondavitse_lane longest_lane(void) {
    rondavitse_lane lane = lane_of(MOST);
    for (size_t code = 0; code < SURFACES; code++) {
        const rondavitse_row row = {RONDAVITSE_HIGHEST_RATE, RONDAVITSE_HIGHEST_RATE, RONDAVITSE_HIGHEST_RATE, {0}};
        lane.rows[code] = row;
        lane.next_rows[code] = row;
    }
    lane.end = RONDAVITSE_FARTHEST_END;
    lane.limit = RONDAVITSE_FASTEST;
    lane.cycle = RONDAVITSE_LAST_CYCLE;
    for (size_t place = 0; place < MOST; place++) {
        rondavitse_record *carrier = &lane.records[place];
        carrier->length = RONDAVITSE_LONGEST_CARRIER;
        carrier->position = lane.end - 1 + carrier->length - 0x00102030 * place;
        carrier->speed = 1000;
        carrier->rate = RONDAVITSE_HIGHEST_RATE;
    }
    return lane;
}

static inline size_t wanted_table(char *text, const rondavitse_row *rows) {
    size_t length = 0;
    for (size_t code = 0; code < SURFACES; code++) {
        const rondavitse_row *row = &rows[code];
        length += (size_t)sprintf(text + length, "b=%" PRIu64 "\nB=%" PRIu64 "\nA=%" PRIu64 "\n", row->guaranteed, row->hardest, row->most);
    }
    return length;
}

/* Writes what the handover text should be; gives its length. */
static inline size_t wanted_handover(char *text, const rondavitse_lane *lane) {
    size_t length = wanted_table(text, lane->rows);
    length += wanted_table(text + length, lane->next_rows);
    length += (size_t)sprintf(text + length, "surface=%" PRIu64 "\nend=%" PRIu64 "\nlimit=%" PRIu64 "\ncycle=%" PRIu64 "\n", lane->surface, lane->end,
                              lane->limit, lane->cycle);
    return length + wanted_text(text + length, lane);
}

/* An empty lane on a house row. */
static inline rondavitse_lane started_lane(uint64_t surface, uint64_t end) {
    rondavitse_lane lane;
    rondavitse_empty(&lane);
    same("start", "no", rondavitse_start(&lane, (rondavitse_road){surface, end, RONDAVITSE_FASTEST}, 0), RONDAVITSE_ACCEPTED);
    return lane;
}

/* Two enter an empty lane, whichever is first: safe or not, and then with 25 or 26 for the second. */
static inline void check_entries(rondavitse_lane lane, rondavitse_carrier ahead, rondavitse_carrier behind, bool safe) {
    rondavitse_lane from_rear = lane;
    same("entries", "no of the one ahead, first", rondavitse_enter(&lane, ahead).no, RONDAVITSE_ACCEPTED);
    same("entries", "no of the one behind", rondavitse_enter(&lane, behind).no, safe ? 0 : RONDAVITSE_UNSAFE_BEHIND_LEADER);
    same("entries", "no of the one behind, first", rondavitse_enter(&from_rear, behind).no, RONDAVITSE_ACCEPTED);
    same("entries", "no of the one ahead", rondavitse_enter(&from_rear, ahead).no, safe ? 0 : RONDAVITSE_FOLLOWER_UNSAFE);
}

static inline uint64_t lower(uint64_t one, uint64_t other) {
    return one < other ? one : other;
}

/* The positions gained until rest, cycle by cycle. */
static inline uint64_t stop(uint64_t rate, uint64_t speed) {
    uint64_t gained = 0;
    while (speed > 0) {
        const uint64_t braked = lower(rate, speed);
        gained += 2 * speed - braked;
        speed -= braked;
    }
    return gained;
}

/* The room with which one that gains so much until rest is level with the tail ahead, then or now. */
static inline uint64_t level(uint64_t gained, uint64_t gained_ahead) {
    return gained > gained_ahead ? gained - gained_ahead : 0;
}

/* What the opening should be in which the newcomer would have this place: its lowest position goes by the carrier then behind it, its highest
 * by the one ahead. */
static inline rondavitse_opening wanted_opening(const rondavitse_lane *lane, size_t place, rondavitse_newcomer newcomer) {
    const rondavitse_row *row = &lane->rows[lane->surface];
    uint64_t lowest = 0, past = lane->end;
    if (place < lane->count) {
        const rondavitse_record *behind = &lane->records[place];
        const uint64_t gained = stop(lower(behind->rate, row->guaranteed), behind->speed);
        lowest = behind->position + newcomer.length + level(gained, stop(row->hardest, newcomer.speed)) + 1;
    }
    if (place > 0) {
        const rondavitse_record *ahead = &lane->records[place - 1];
        const uint64_t gained = stop(lower(newcomer.rate, row->guaranteed), newcomer.speed);
        const uint64_t back = ahead->length + level(gained, stop(row->hardest, ahead->speed));
        past = lower(past, ahead->position > back ? ahead->position - back : 0);
    }
    if (lowest >= past) {
        return (rondavitse_opening){.exists = false};
    }
    return (rondavitse_opening){.exists = true, .lowest = lowest, .highest = past - 1};
}

/* What the library gives for it. */
static inline rondavitse_opening opening_at(const rondavitse_lane *lane, size_t place, rondavitse_newcomer newcomer) {
    if (place == 0) {
        return rondavitse_find_opening(lane, 1, 0, newcomer);
    }
    return rondavitse_find_opening(lane, 0, lane->records[place - 1].number, newcomer);
}

static inline void same_opening(const char *call, rondavitse_opening got, rondavitse_opening wanted) {
    same(call, "no", got.no, wanted.no);
    same(call, "exists", byte_of(&got.exists), wanted.exists);
    same(call, "lowest", got.lowest, wanted.lowest);
    same(call, "highest", got.highest, wanted.highest);
}

static inline uint32_t load(rondavitse_lane *lane) {
    char text[TABLE_BUFFER];
    const size_t length = table_text(text, TABLE_LINES, "");
    return rondavitse_load(lane, (const uint8_t *)text, length);
}

#endif
