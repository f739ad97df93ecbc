/* That a call which looks a number up, or for an opening, looks at no record past the last carrier present: those records are on pages that
 * cannot be read, so that one look further ends this program. */
#define _DEFAULT_SOURCE /* mmap's MAP_ANONYMOUS */
#include "compare.h"
#include "pages.h"

#include <stddef.h>

enum { MOST = RONDAVITSE_MOST_CARRIERS, APART = 10 };

/* Where the pages that can be written and read end, and those begin that cannot. */
static uint8_t *boundary;

/* Carriers 1 to `count` at rest, front to back, each right behind the tail of the one ahead. */
static rondavitse_lane standing(size_t count) {
    const rondavitse_road road = {.surface = 0, .end = 1 << 20, .limit = 1};
    rondavitse_lane lane;
    rondavitse_empty(&lane);
    same("start", "no", rondavitse_start(&lane, road, 0), RONDAVITSE_ACCEPTED);
    for (size_t place = 0; place < count; place++) {
        const rondavitse_carrier carrier = {.number = place + 1, .position = (MOST - place) * APART, .length = APART - 1, .rate = 1};
        same("enter", "no", rondavitse_enter(&lane, carrier).no, RONDAVITSE_ACCEPTED);
    }
    return lane;
}

/* The lane up to its last carrier at the boundary: no idle record can be read. */
static rondavitse_lane *put_at_boundary(const rondavitse_lane *lane) {
    const size_t length = offsetof(rondavitse_lane, records) + lane->count * sizeof lane->records[0];
    return memcpy(boundary - length, lane, length);
}

static void check_lookups(size_t count) {
    const rondavitse_lane kept = standing(count);
    rondavitse_lane *lane = put_at_boundary(&kept);
    same("read", "no", rondavitse_read(lane, count + 1).no, RONDAVITSE_NUMBER_ABSENT);
    same("leave", "no", rondavitse_leave(lane, count + 1), RONDAVITSE_NUMBER_ABSENT);
    for (uint64_t number = 1; number <= count; number++) {
        const rondavitse_carrier twin = {.number = number, .rate = 1};
        same("read", "no", rondavitse_read(lane, number).no, RONDAVITSE_ACCEPTED);
        if (count < MOST) {
            same("enter", "no", rondavitse_enter(lane, twin).no, RONDAVITSE_NUMBER_PRESENT);
        }
        same("leave", "no", rondavitse_leave(lane, number), RONDAVITSE_ACCEPTED);
        lane = put_at_boundary(&kept);
    }
}

/* Behind the last one nobody is looked for, and each of the others has its follower right behind it. */
static void check_openings(size_t count) {
    const rondavitse_newcomer newcomer = {.speed = 0, .length = 0, .rate = 1};
    const rondavitse_lane kept = standing(count);
    const rondavitse_lane *lane = put_at_boundary(&kept);
    const rondavitse_opening head = rondavitse_find_opening(lane, 1, 0, newcomer);
    same("opening ahead of all", "exists", byte_of(&head.exists), true);
    same("opening", "no", rondavitse_find_opening(lane, 0, count + 1, newcomer).no, RONDAVITSE_NUMBER_ABSENT);
    for (uint64_t number = 1; number <= count; number++) {
        const rondavitse_opening got = rondavitse_find_opening(lane, 0, number, newcomer);
        same("opening", "no", got.no, RONDAVITSE_ACCEPTED);
        same("opening", "exists", byte_of(&got.exists), number == count);
    }
}

int main(void) {
    boundary = boundary_of(sizeof(rondavitse_lane), sizeof(rondavitse_lane));
    for (size_t count = 0; count <= MOST; count++) {
        check_lookups(count);
        check_openings(count);
    }
    return verdict();
}
