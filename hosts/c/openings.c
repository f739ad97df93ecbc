/* That an opening is where an entry is let in, and nothing else is: every position of short lanes is tried by an entry, and so are the ends of
 * openings of no position, one and two on each house row. */
#include "lanes.h"

static const rondavitse_newcomer STANDING = {.speed = 0, .length = 0, .rate = RONDAVITSE_HIGHEST_RATE};

static rondavitse_opening none(void) {
    return (rondavitse_opening){.exists = false};
}

static rondavitse_opening between(uint64_t lowest, uint64_t highest) {
    return (rondavitse_opening){.exists = true, .lowest = lowest, .highest = highest};
}

static bool holds(rondavitse_opening opening, uint64_t position) {
    return opening.exists && opening.lowest <= position && position <= opening.highest;
}

static rondavitse_entered entry_at(rondavitse_lane lane, uint64_t position, rondavitse_newcomer newcomer) {
    return rondavitse_enter(&lane, (rondavitse_carrier){60000, position, newcomer.speed, newcomer.length, newcomer.rate});
}

/* The openings of a lane, by the newcomer's place. */
typedef struct {
    rondavitse_opening at[MOST + 1];
} openings;

/* Asked for twice, and the lane stays as it is. */
static openings openings_of(const rondavitse_lane *lane, rondavitse_newcomer newcomer) {
    const rondavitse_lane kept = *lane;
    openings all;
    for (size_t place = 0; place <= lane->count; place++) {
        all.at[place] = opening_at(lane, place, newcomer);
        same_opening("opening", all.at[place], wanted_opening(lane, place, newcomer));
        same_opening("opening again", opening_at(lane, place, newcomer), all.at[place]);
    }
    same("openings", "lane", (uint64_t)memcmp(lane, &kept, sizeof kept), 0);
    return all;
}

/* An entry there gets the place whose opening holds the position, and 5, 25 or 26 where none does. */
static void check_position(const rondavitse_lane *lane, const openings *all, uint64_t position, rondavitse_newcomer newcomer) {
    const rondavitse_entered got = entry_at(*lane, position, newcomer);
    const bool refused = got.no == RONDAVITSE_POSITION_PAST_END || got.no == RONDAVITSE_UNSAFE_BEHIND_LEADER || got.no == RONDAVITSE_FOLLOWER_UNSAFE;
    same("position", "let in, or refused by its position", got.no == RONDAVITSE_ACCEPTED || refused, true);
    for (size_t place = 0; place <= lane->count; place++) {
        same("position", "held", holds(all->at[place], position), !refused && got.place == place);
    }
}

static void check_every_position(const rondavitse_lane *lane, rondavitse_newcomer newcomer) {
    const openings all = openings_of(lane, newcomer);
    for (uint64_t position = 0; position <= lane->end + 1; position++) {
        check_position(lane, &all, position, newcomer);
    }
}

/* The same numbers in every run; one after another, since C leaves open which of two arguments comes first. */
static uint64_t draw(uint64_t below) {
    static uint64_t state = 1;
    state = state * UINT64_C(6364136223846793005) + UINT64_C(1442695040888963407);
    return (state >> 33) % below;
}

/* Slow and short for the most part, so that gaps of a few units are found. */
static rondavitse_newcomer any_newcomer(void) {
    rondavitse_newcomer newcomer;
    newcomer.speed = draw(7);
    newcomer.speed *= draw(4);
    newcomer.length = draw(3);
    newcomer.length *= draw(9);
    newcomer.rate = 1 + draw(RONDAVITSE_HIGHEST_RATE);
    if (draw(2) == 0) {
        newcomer.rate = 1 + newcomer.rate % 8;
    }
    return newcomer;
}

/* Up to six carriers on a short lane, after some cycles without a wish, in which fronts may pass the end. */
static rondavitse_lane any_lane(void) {
    const uint8_t sorts[MOST] = {0}; /* whole units */
    const uint32_t values[MOST] = {0};
    const uint64_t surface = draw(SURFACES), carriers = draw(7), cycles = draw(3);
    rondavitse_lane lane = started_lane(surface, 1 + draw(90));
    for (uint64_t number = 1; number <= carriers; number++) {
        const uint64_t position = draw(lane.end);
        const rondavitse_newcomer c = any_newcomer();
        rondavitse_enter(&lane, (rondavitse_carrier){number, position, c.speed, c.length, c.rate}); /* or not */
    }
    for (uint64_t i = 0; i < cycles; i++) {
        same("any lane", "no", rondavitse_cycle(&lane, lane.count, sorts, MOST, values, MOST).no, RONDAVITSE_ACCEPTED);
    }
    return lane;
}

/* That openings of every width are among them, ahead of all and elsewhere, is a part of the test. */
static void check_short_lanes(void) {
    enum { WIDTHS = 4 };
    unsigned found[2][WIDTHS] = {{0}};
    for (unsigned i = 0; i < 3000; i++) {
        const rondavitse_lane lane = any_lane();
        const rondavitse_newcomer newcomer = any_newcomer();
        check_every_position(&lane, newcomer);
        for (size_t place = 0; place <= lane.count; place++) {
            const rondavitse_opening opening = opening_at(&lane, place, newcomer);
            found[place > 0][opening.exists ? lower(opening.highest - opening.lowest + 1, WIDTHS - 1) : 0]++;
        }
    }
    for (size_t width = 0; width < WIDTHS; width++) {
        same("short lanes", "openings found ahead of all", found[0][width] > 20, true);
        same("short lanes", "openings found behind a carrier", found[1][width] > 20, true);
    }
}

/* A newcomer and the two that it would be between. */
typedef struct {
    uint64_t speed_ahead, length_ahead;
    rondavitse_newcomer newcomer;
    uint64_t speed_behind, rate_behind;
} meeting;

/* So far apart that the opening has so many positions. */
static rondavitse_lane lane_with(const meeting *m, uint64_t surface, uint64_t positions) {
    rondavitse_lane lane = started_lane(surface, RONDAVITSE_FARTHEST_END);
    const uint64_t b = lane.rows[surface].guaranteed, hardest = lane.rows[surface].hardest;
    const uint64_t behind = m->newcomer.length + level(stop(lower(m->rate_behind, b), m->speed_behind), stop(hardest, m->newcomer.speed));
    const uint64_t ahead = m->length_ahead + level(stop(lower(m->newcomer.rate, b), m->newcomer.speed), stop(hardest, m->speed_ahead));
    lane.count = 2;
    put_carrier(&lane.records[1], (rondavitse_carrier){8, 1000, m->speed_behind, 9, m->rate_behind});
    put_carrier(&lane.records[0], (rondavitse_carrier){7, 1000 + behind + 1 + positions + ahead, m->speed_ahead, m->length_ahead, 1});
    return lane;
}

static void check_width(const meeting *m, uint64_t surface, uint64_t positions) {
    const rondavitse_lane lane = lane_with(m, surface, positions);
    const openings all = openings_of(&lane, m->newcomer);
    const rondavitse_opening gap = all.at[1], rear = all.at[2], head = all.at[0];
    same("width", "positions", gap.exists ? gap.highest - gap.lowest + 1 : 0, positions);
    const uint64_t ahead = lane.records[0].position, behind = lane.records[1].position, middle = gap.exists ? gap.lowest : behind + 3;
    const uint64_t tried[] = {
        0, rear.highest, rear.highest + 1, behind - 1, behind, behind + 1, middle - 2, middle - 1, middle, middle + 1, middle + 2,
        ahead - 1, ahead, ahead + 1, head.lowest - 1, head.lowest, lane.end - 1, lane.end,
    };
    for (size_t i = 0; i < sizeof tried / sizeof tried[0]; i++) {
        check_position(&lane, &all, tried[i], m->newcomer);
    }
}

static void check_widths(uint64_t surface, rondavitse_newcomer newcomer) {
    const uint64_t speeds[] = {0, 40, 1000, RONDAVITSE_FASTEST}, rates[] = {1, RONDAVITSE_HIGHEST_RATE};
    for (size_t ahead = 0; ahead < 4; ahead++) {
        for (size_t behind = 0; behind < 4; behind++) {
            for (size_t rate = 0; rate < 2; rate++) {
                const meeting m = {speeds[ahead], 300 * ahead, newcomer, speeds[behind], rates[rate]};
                check_width(&m, surface, 0);
                check_width(&m, surface, 1);
                check_width(&m, surface, 2);
            }
        }
    }
}

/* Speeds, lengths and own rates of newcomers on each house row. */
static void check_rows(void) {
    const uint64_t speeds[] = {0, 1, 64, 1000, RONDAVITSE_FASTEST}, lengths[] = {0, 1, RONDAVITSE_LONGEST_CARRIER};
    for (uint64_t surface = 0; surface < SURFACES; surface++) {
        const uint64_t b = started_lane(surface, 1).rows[surface].guaranteed, rates[] = {1, b, b + 1};
        for (size_t i = 0; i < 5; i++) {
            for (size_t j = 0; j < 3; j++) {
                check_widths(surface, (rondavitse_newcomer){speeds[i], lengths[j], rates[(i + j) % 3]});
                check_widths(surface, (rondavitse_newcomer){speeds[i], lengths[j], rates[(i + j + 1) % 3]});
            }
        }
    }
}

/* A lane with nobody on it is open from its start to its last position. */
static void check_empty(uint64_t end) {
    const rondavitse_newcomer newcomers[] = {STANDING, {RONDAVITSE_FASTEST, RONDAVITSE_LONGEST_CARRIER, 1}};
    for (uint64_t surface = 0; surface < SURFACES; surface++) {
        const rondavitse_lane lane = started_lane(surface, end);
        for (size_t i = 0; i < 2; i++) {
            same_opening("empty lane", opening_at(&lane, 0, newcomers[i]), between(0, end - 1));
            same("empty lane", "no at its start", entry_at(lane, 0, newcomers[i]).no, RONDAVITSE_ACCEPTED);
            same("empty lane", "no before its end", entry_at(lane, end - 1, newcomers[i]).no, RONDAVITSE_ACCEPTED);
            same("empty lane", "no at its end", entry_at(lane, end, newcomers[i]).no, RONDAVITSE_POSITION_PAST_END);
        }
    }
}

/* One carrier alone, put there. */
static rondavitse_lane lane_of_one(uint64_t end, rondavitse_carrier carrier) {
    rondavitse_lane lane = started_lane(0, end);
    lane.count = 1;
    put_carrier(&lane.records[0], carrier);
    return lane;
}

/* A tail at the start or before it leaves nobody a position behind it; further on one that would still stop in time has one, from the start on. */
static void check_tail_at_start(uint64_t length) {
    const rondavitse_newcomer moving = {.speed = 64, .length = 0, .rate = 64}; /* gains 64 until rest */
    for (uint64_t position = length > 3 ? length - 3 : 0; position <= length + 70; position++) {
        const rondavitse_lane lane = lane_of_one(RONDAVITSE_FARTHEST_END, (rondavitse_carrier){7, position, 0, length, 255});
        const uint64_t tail = level(position, length);
        const openings all = openings_of(&lane, moving);
        same_opening("tail at the start", opening_at(&lane, 1, STANDING), tail > 0 ? between(0, tail - 1) : none());
        same_opening("tail at the start", all.at[1], tail > 64 ? between(0, tail - 65) : none());
        check_position(&lane, &all, 0, moving);
        check_position(&lane, &all, 1, moving);
    }
}

/* From a front well before the end to a tail right before it: ahead of all there is room up to the end, and none once the front is there. */
static void check_front_at_end(uint64_t speed) {
    const uint64_t end = 60, length = 20;
    for (uint64_t position = end - 5; position < end + length; position++) {
        const rondavitse_lane lane = lane_of_one(end, (rondavitse_carrier){7, position, speed, length, 255});
        check_every_position(&lane, STANDING);
        check_every_position(&lane, (rondavitse_newcomer){.speed = 200, .length = 2, .rate = 100});
        same_opening("front at the end", opening_at(&lane, 1, STANDING), between(0, position - length - 1));
        if (speed == 0) {
            same_opening("front at the end", opening_at(&lane, 0, STANDING), position < end - 1 ? between(position + 1, end - 1) : none());
        }
    }
}

/* 64 carriers, after the last cycle: an entry gets 22, and the openings are those that are there once a carrier far from them is out. */
static void check_full(rondavitse_newcomer newcomer) {
    rondavitse_lane full = lane_of(MOST);
    full.cycle = RONDAVITSE_LAST_CYCLE;
    const openings all = openings_of(&full, newcomer);
    for (size_t place = 0; place <= MOST; place++) {
        const rondavitse_opening opening = all.at[place];
        const size_t out = (place + MOST / 2) % MOST, now = place > out ? place - 1 : place;
        rondavitse_lane lane = full;
        same("full lane", "exists", opening.exists, true);
        same("full lane", "no of an entry", entry_at(full, opening.lowest, newcomer).no, RONDAVITSE_LANE_FULL);
        same("full lane", "no of a leave", rondavitse_leave(&lane, carrier_at(out).number), RONDAVITSE_ACCEPTED);
        same_opening("full lane", opening_at(&lane, now, newcomer), opening);
        same("full lane", "place at the lowest", entry_at(lane, opening.lowest, newcomer).place, now);
        same("full lane", "place at the highest", entry_at(lane, opening.highest, newcomer).place, now);
        same("full lane", "no past it", entry_at(lane, opening.highest + 1, newcomer).no, place == 0 ? 5 : 25);
        if (place < MOST) {
            same("full lane", "no before it", entry_at(lane, opening.lowest - 1, newcomer).no, RONDAVITSE_FOLLOWER_UNSAFE);
        }
    }
}

int main(void) {
    check_short_lanes();
    check_rows();
    check_empty(1);
    check_empty(2);
    check_empty(RONDAVITSE_FARTHEST_END);
    check_tail_at_start(0);
    check_tail_at_start(1);
    check_tail_at_start(300);
    check_tail_at_start(RONDAVITSE_LONGEST_CARRIER);
    check_front_at_end(0);
    check_front_at_end(50);
    check_full((rondavitse_newcomer){.speed = 0, .length = 0, .rate = 1});
    check_full((rondavitse_newcomer){.speed = 0x0145, .length = 0x6789, .rate = 9});
    return verdict();
}
