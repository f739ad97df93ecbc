/* What a carrier's own rate does, on each house row: one behind is reckoned with the smaller of it and b, one ahead with B, whatever its own
 * rate is, and no wish is trimmed by it. */
#include "lanes.h"

/* One behind another; how much room it has up to the tail ahead is said beside it. */
typedef struct {
    uint64_t rate, speed;
    uint64_t rate_ahead, speed_ahead;
} pair;

static rondavitse_carrier behind(const pair *p) {
    return (rondavitse_carrier){8, 1000, p->speed, 9, p->rate};
}

static rondavitse_carrier ahead(const pair *p, uint64_t room) {
    const uint64_t length = 300;
    return (rondavitse_carrier){7, behind(p).position + room + length, p->speed_ahead, length, p->rate_ahead};
}

static rondavitse_lane empty_lane(uint64_t surface) {
    return started_lane(surface, RONDAVITSE_FARTHEST_END);
}

/* Both are put there, safe or not. */
static rondavitse_lane lane_with(const pair *p, uint64_t room, uint64_t surface) {
    rondavitse_lane lane = empty_lane(surface);
    lane.count = 2;
    put_carrier(&lane.records[0], ahead(p, room));
    put_carrier(&lane.records[1], behind(p));
    return lane;
}

static rondavitse_row row_of(uint64_t surface) {
    return empty_lane(surface).rows[surface];
}

/* Document 01's figures: the bounds below are reckoned with these stops. */
static void check_stops(void) {
    same("stop", "from 7 at 3", stop(3, 7), 17);
    same("stop", "from 7 at 5", stop(5, 7), 11);
    same("stop", "from 100 at 255", stop(255, 100), 100);
    same("stop", "from 8192 at 1", stop(1, 8192), 67108864);
    same("stop", "from 96 at 64", stop(64, 96), 160);
    same("stop", "from 0 at 6", stop(6, 0), 0);
}

/* The most room with which the one behind is not safe. */
static uint64_t unsafe_room(const pair *p, uint64_t surface) {
    const rondavitse_row row = row_of(surface);
    return level(stop(lower(p->rate, row.guaranteed), p->speed), stop(row.hardest, p->speed_ahead));
}

/* A change to the surface from each one, on some of which the lane is unsafe already. */
static void check_changes(const pair *p, uint64_t room, uint64_t surface) {
    const bool safe = room > unsafe_room(p, surface);
    for (uint64_t from = 0; from < SURFACES; from++) {
        rondavitse_lane lane = lane_with(p, room, from);
        const bool sound = room > unsafe_room(p, from);
        const uint32_t no = !sound ? RONDAVITSE_LANE_UNSOUND : safe ? RONDAVITSE_ACCEPTED : RONDAVITSE_SURFACE_UNSAFE;
        same("change", "no", rondavitse_surface(&lane, surface), no);
        same("change", "surface", lane.surface, sound && safe ? surface : from);
    }
}

/* One unit of room decides for an entry, a lane handed in and a change of surface. */
static void check_bound(const pair *p, uint64_t surface) {
    const uint64_t most = unsafe_room(p, surface);
    for (uint64_t room = most; room <= most + 1; room++) {
        const rondavitse_lane lane = lane_with(p, room, surface);
        check_entries(empty_lane(surface), ahead(p, room), behind(p), room > most);
        same("bound", "no of a read", rondavitse_read(&lane, 8).no, room > most ? RONDAVITSE_ACCEPTED : RONDAVITSE_LANE_UNSOUND);
        check_changes(p, room, surface);
    }
}

/* The wish of the one behind stands, or braking is put in its place; `braked` is what its speed then loses. */
static void check_wish(rondavitse_lane lane, int64_t units, bool stands, int64_t braked) {
    const uint8_t sorts[] = {RONDAVITSE_HOLD, RONDAVITSE_UNITS};
    const uint32_t values[] = {0, rondavitse_units(units)};
    const rondavitse_record before = lane.records[1];
    const rondavitse_cycled got = rondavitse_cycle(&lane, 2, sorts, 2, values, 2);
    same("wish", "no", got.no, RONDAVITSE_ACCEPTED);
    same("wish", "word", got.word, stands ? 0 : 2);
    same("wish", "speed", lane.records[1].speed, before.speed - (uint64_t)braked);
    same("wish", "position", lane.records[1].position, before.position + 2 * before.speed - (uint64_t)braked);
    same("wish", "rate", lane.records[1].rate, before.rate);
}

/* With no room to spare the hardest braking stands, however low the own rate is, and so does guaranteed braking; one unit less is replaced by
 * it. With most acceleration one unit of room decides. */
static void check_wishes(const pair *p, uint64_t surface) {
    const rondavitse_row row = row_of(surface);
    const uint64_t rate = lower(p->rate, row.guaranteed), more = lower(row.most, RONDAVITSE_FASTEST - p->speed);
    const uint64_t gained = stop(rate, p->speed), gained_ahead = stop(row.hardest, p->speed_ahead);
    const uint64_t sped_up = level(2 * p->speed + more + stop(rate, p->speed + more), gained_ahead);
    const int64_t braked = (int64_t)lower(rate, p->speed), hardest = (int64_t)lower(row.hardest, p->speed);
    if (gained < gained_ahead) {
        return; /* there is always room to spare */
    }
    const rondavitse_lane lane = lane_with(p, unsafe_room(p, surface) + 1, surface);
    check_wish(lane, INT16_MIN, true, hardest);
    check_wish(lane, -(int64_t)row.hardest, true, hardest);
    check_wish(lane, -braked, true, braked);
    check_wish(lane, 1 - braked, false, braked);
    check_wish(lane_with(p, sped_up, surface), INT16_MAX, false, braked);
    check_wish(lane_with(p, sped_up + 1, surface), INT16_MAX, true, -(int64_t)more);
}

static void check_rate(uint64_t rate, uint64_t surface) {
    const uint64_t speeds[] = {0, 1, 40, 64, 300, 1000, RONDAVITSE_FASTEST};
    const size_t count = sizeof speeds / sizeof speeds[0];
    for (size_t i = 0; i < count; i++) {
        for (size_t j = 0; j < count; j++) {
            for (uint64_t rate_ahead = 1; rate_ahead <= RONDAVITSE_HIGHEST_RATE; rate_ahead += 127) {
                const pair p = {rate, speeds[i], rate_ahead, speeds[j]};
                check_bound(&p, surface);
                check_wishes(&p, surface);
            }
        }
    }
}

int main(void) {
    check_stops();
    for (uint64_t surface = 0; surface < SURFACES; surface++) {
        const rondavitse_row row = row_of(surface);
        const uint64_t b = row.guaranteed, rates[] = {1, b > 1 ? b - 1 : 1, b, b + 1, row.hardest, RONDAVITSE_HIGHEST_RATE};
        for (size_t i = 0; i < sizeof rates / sizeof rates[0]; i++) {
            check_rate(rates[i], surface);
        }
    }
    return verdict();
}
