/* That a lane goes over to another host by its text, and that of all texts those alone are taken that a sound and safe lane has. Lanes made by
 * calls go over and on; texts are cut, and changed at every byte, in every line and in every number. Each text, and each buffer for one, ends
 * where the memory does that can be used, so that one byte further ends this program. */
#define _DEFAULT_SOURCE /* mmap's MAP_ANONYMOUS */
#include "lanes.h"
#include "pages.h"
#include "wanted.h"

/* Where the pages that can be used end, and those begin that cannot. */
static uint8_t *boundary;

/* Texts taken, refused with 36 and refused with 37. */
static unsigned taken, malformed, not_safe;

/* Writes the lane's text into a buffer that is exactly as long. */
static void check_written(const rondavitse_lane *lane, const char *text, size_t length) {
    memset(boundary - length, 0x5A, length);
    const rondavitse_listed got = rondavitse_handover(lane, boundary - length, length);
    same("written", "no", got.no, RONDAVITSE_ACCEPTED);
    same("written", "length", got.length, length);
    same("written", "bytes", (uint64_t)memcmp(boundary - length, text, length), 0);
}

/* Reads a text, a zero byte after it, into a struct that held other bytes each time. What is accepted is the lane that it names, and is written
 * again byte for byte; what is refused leaves the empty lane. Gives the number that it should get. */
static uint32_t check_text(const char *text, size_t length) {
    static int filling;
    const rondavitse_lane empty = house_lane();
    rondavitse_lane wanted, lane;
    const uint32_t no = wanted_no(text, length, &wanted);
    memset(&lane, filling++, sizeof lane);
    memcpy(boundary - length, text, length);
    same("text", "no", rondavitse_take_over(&lane, boundary - length, length), no);
    same("text", "bytes lent", (uint64_t)memcmp(boundary - length, text, length), 0);
    if (no == RONDAVITSE_ACCEPTED) {
        taken++;
        same_state("text", &lane, &wanted);
        check_written(&lane, text, length);
    } else {
        malformed += no == RONDAVITSE_HANDOVER_MALFORMED;
        not_safe += no == RONDAVITSE_HANDOVER_UNSAFE;
        same("text", "lane left empty", (uint64_t)memcmp(&lane, &empty, sizeof lane), 0);
    }
    return no;
}

static uint32_t check_lane(const rondavitse_lane *lane) {
    char text[ROOM];
    return check_text(text, wanted_handover(text, lane));
}

/* One byte too few gets 9, and no byte is written; bytes after the text stay. */
static void check_buffers(const rondavitse_lane *lane, const char *text, size_t length) {
    const size_t longer[] = {length + 1, length + 2, length + 100};
    uint8_t kept[ROOM];
    memset(kept, 0xA5, sizeof kept);
    memset(boundary - ROOM, 0xA5, ROOM);
    for (size_t shorter = 0; shorter < length; shorter += shorter + 7 < length ? 7 : 1) {
        const rondavitse_listed got = rondavitse_handover(lane, boundary - shorter, shorter);
        same("short buffer", "no", got.no, RONDAVITSE_TEXT_BUFFER_TOO_SHORT);
        same("short buffer", "length", got.length, 0);
        same("short buffer", "bytes", (uint64_t)memcmp(boundary - ROOM, kept, ROOM), 0);
    }
    for (size_t i = 0; i < sizeof longer / sizeof longer[0]; i++) {
        uint8_t *out = boundary - longer[i];
        memset(out, 0xA5, longer[i]);
        same("long buffer", "length", rondavitse_handover(lane, out, longer[i]).length, length);
        same("long buffer", "bytes", (uint64_t)memcmp(out, text, length), 0);
        same("long buffer", "bytes after", (uint64_t)memcmp(out + length, kept, longer[i] - length), 0);
    }
}

/* Two lanes get the same cycle. */
static void check_cycle(rondavitse_lane *one, rondavitse_lane *other) {
    uint8_t sorts[MOST];
    uint32_t values[MOST];
    for (size_t place = 0; place < MOST; place++) {
        sorts[place] = RONDAVITSE_UNITS;
        values[place] = rondavitse_units((int64_t)place * 5 - 150);
    }
    const rondavitse_cycled first = rondavitse_cycle(one, one->count, sorts, MOST, values, MOST);
    const rondavitse_cycled second = rondavitse_cycle(other, one->count, sorts, MOST, values, MOST);
    same("going on", "no of a cycle", second.no, first.no);
    same("going on", "word", second.word, first.word);
    same_state("going on by a cycle", other, one);
}

/* The lane taken over answers as the one handed over does, and so it does after its next start. */
static void check_going_on(rondavitse_lane one, const char *text, size_t length) {
    const rondavitse_carrier newcomer = {.number = 7, .position = 5, .speed = 9, .length = 3, .rate = 200};
    rondavitse_lane other;
    same("going on", "no", rondavitse_take_over(&other, (const uint8_t *)text, length), RONDAVITSE_ACCEPTED);
    same_state("going on", &other, &one);
    check_cycle(&one, &other);
    same("going on", "no of an entry", rondavitse_enter(&other, newcomer).no, rondavitse_enter(&one, newcomer).no);
    same("going on", "no of a surface", rondavitse_surface(&other, 3), rondavitse_surface(&one, 3));
    same_state("going on by an entry", &other, &one);
    check_cycle(&one, &other);
    same("going on", "no of a leave", rondavitse_leave(&other, carrier_at(0).number), rondavitse_leave(&one, carrier_at(0).number));
    same_state("going on by a leave", &other, &one);
    same("going on", "no of a start", rondavitse_start(&other, ROAD, 5), rondavitse_start(&one, ROAD, 5));
    same_state("going on by a start", &other, &one);
}

static void load_rows(rondavitse_lane *lane, size_t first) {
    char text[TABLE_BUFFER];
    rondavitse_row rows[SURFACES];
    put_rows(rows, first);
    same("made lane", "no of a load", rondavitse_load(lane, (const uint8_t *)text, wanted_table(text, rows)), RONDAVITSE_ACCEPTED);
}

/* Loaded rows in force, for the next start, in both sets or in none. */
static rondavitse_lane made_lane(size_t count, uint64_t surface, bool in_force, bool next, uint64_t cycle) {
    rondavitse_lane lane;
    rondavitse_empty(&lane);
    if (in_force) {
        load_rows(&lane, IN_FORCE);
    }
    same("made lane", "no", rondavitse_start(&lane, (rondavitse_road){surface, ROAD.end, ROAD.limit}, cycle), RONDAVITSE_ACCEPTED);
    if (next) {
        load_rows(&lane, NEXT);
    }
    for (size_t place = 0; place < count; place++) {
        same("made lane", "no of an entry", rondavitse_enter(&lane, carrier_at(place)).no, RONDAVITSE_ACCEPTED);
    }
    return lane;
}

static void check_round_trip(const rondavitse_lane *lane) {
    char text[ROOM];
    const rondavitse_lane kept = *lane;
    const size_t length = wanted_handover(text, lane);
    check_written(lane, text, length);
    check_buffers(lane, text, length);
    same("round trip", "lane", (uint64_t)memcmp(lane, &kept, sizeof kept), 0);
    same("round trip", "no", check_text(text, length), RONDAVITSE_ACCEPTED);
    check_going_on(kept, text, length);
}

/* Each number of carriers on each surface, with every pair of tables and cycle numbers at both ends among them. */
static void check_round_trips(void) {
    const uint64_t cycles[] = {0, CYCLE, RONDAVITSE_LAST_CYCLE - 1, RONDAVITSE_LAST_CYCLE};
    for (size_t count = 0; count <= MOST; count++) {
        for (uint64_t surface = 0; surface < SURFACES; surface++) {
            const size_t sort = count + surface;
            const rondavitse_lane lane = made_lane(count, surface, sort % 2 == 0, sort % 4 < 2, cycles[(sort / 4 + surface) % 4]);
            check_round_trip(&lane);
        }
    }
    const rondavitse_lane longest = longest_lane();
    check_round_trip(&longest);
}

/* Every byte by each of these in turn. */
static void check_bytes(const char *text, size_t length, const char *others, size_t count) {
    char changed[ROOM];
    memcpy(changed, text, length + 1);
    for (size_t i = 0; i < length; i++) {
        for (size_t j = 0; j < count; j++) {
            changed[i] = others[j];
            check_text(changed, length);
        }
        changed[i] = text[i];
    }
}

/* Cut at every length, each byte left out, and others put in before each and after the last. */
static void check_lengths(const char *text, size_t length) {
    const char others[] = "0199-+ \n\r=a"; /* and the zero byte */
    char changed[ROOM];
    for (size_t i = 0; i < length; i++) {
        sprintf(changed, "%.*s", (int)i, text);
        same("cut", "no", check_text(changed, i), RONDAVITSE_HANDOVER_MALFORMED);
        sprintf(changed + i, "%s", text + i + 1);
        check_text(changed, length - 1);
    }
    for (size_t i = 0; i <= length; i++) {
        for (size_t j = 0; j < sizeof others; j++) {
            memcpy(changed, text, i);
            changed[i] = others[j];
            memcpy(changed + i + 1, text + i, length + 1 - i);
            check_text(changed, length + 1);
        }
    }
}

/* Each line left out, written twice, and after the one that follows it. */
static void check_lines(const char *text, size_t length) {
    char changed[ROOM];
    for (const char *line = text; line < text + length;) {
        const char *next = strchr(line, '\n') + 1, *after = next < text + length ? strchr(next, '\n') + 1 : next;
        const int before = (int)(line - text), own = (int)(next - line), other = (int)(after - next);
        check_text(changed, (size_t)sprintf(changed, "%.*s%s", before, text, next));
        check_text(changed, (size_t)sprintf(changed, "%.*s%.*s%s", before, text, own, line, line));
        check_text(changed, (size_t)sprintf(changed, "%.*s%.*s%.*s%s", before, text, other, next, own, line, after));
        line = next;
    }
}

/* Each line with these values in turn, and with its own and what a narrower word would not see. */
static void check_values(const char *text, size_t length) {
    static const char *const values[] = {
        "", "0", "00", "01", "1", "2", "3", "7", "8", "9", "63", "64", "65", "100", "254", "255", "256", "257", "8191", "8192", "8193", "65534",
        "65535", "65536", "2147483647", "2147483648", "2147483649", "4294967295", "4294967296", "4294967297", "18446744073709551615",
        "18446744073709551616", "18446744073709551617", "99999999999999999999", "-1", "-0", "+1", " 1", "1 ", "1\r", "1\n", "0x1", "1e1", "1.0", "a",
        "1=1", "000000000000000000000000000000000000000000000000000000000001",
        "111111111111111111111111111111111111111111111111111111111111111111111111",
    };
    char changed[ROOM];
    for (const char *line = text; line < text + length; line = strchr(line, '\n') + 1) {
        const char *value = strchr(line, '=') + 1, *rest = strchr(line, '\n');
        const uint64_t own = strtoull(value, NULL, 10);
        const int before = (int)(value - text);
        for (size_t i = 0; i < sizeof values / sizeof values[0]; i++) {
            check_text(changed, (size_t)sprintf(changed, "%.*s%s%s", before, text, values[i], rest));
        }
        for (unsigned bits = 8; bits < 64; bits *= 2) {
            check_text(changed, (size_t)sprintf(changed, "%.*s%" PRIu64 "%s", before, text, own + (UINT64_C(1) << bits), rest));
        }
        if (own <= UINT32_MAX) { /* and 2^64 more: ten digits, then these */
            check_text(changed, (size_t)sprintf(changed, "%.*s1844674407%010" PRIu64 "%s", before, text, own + UINT64_C(3709551616), rest));
        }
    }
}

static void check_changes(const rondavitse_lane *lane) {
    char text[ROOM], every[256];
    const size_t length = wanted_handover(text, lane);
    for (size_t i = 0; i < sizeof every; i++) {
        every[i] = (char)i;
    }
    check_bytes(text, length, every, sizeof every);
    check_lengths(text, length);
    check_lines(text, length);
    check_values(text, length);
}

/* Lanes of nobody and of some, a little room behind the second; the same with no room, and with another fault beside that. */
static void check_all_changes(void) {
    const char few[] = "0189\n=c";
    char text[ROOM];
    rondavitse_lane lane = lane_of(0), longest = longest_lane();
    check_changes(&lane);
    lane = lane_near();
    check_changes(&lane);
    lane.records[1].rate = 1;
    same("unsafe", "no", check_lane(&lane), RONDAVITSE_HANDOVER_UNSAFE);
    check_changes(&lane);
    lane.records[0].length = RONDAVITSE_LONGEST_CARRIER + 1;
    same("two faults", "no", check_lane(&lane), RONDAVITSE_HANDOVER_MALFORMED);
    check_changes(&lane);
    const size_t length = wanted_handover(text, &longest);
    check_bytes(text, length, few, sizeof few);
    check_lines(text, length);
    same("changes", "texts of every sort", taken > 10000 && malformed > 400000 && not_safe > 3000, true);
}

/* 65 carriers, each as it should be. */
static void check_one_too_many(void) {
    char text[ROOM], more[ROOM];
    const rondavitse_lane lane = lane_of(MOST);
    wanted_handover(text, &lane);
    const char *cars = strstr(text, "cars=64\n"), *carriers = cars + strlen("cars=64\n");
    const int length = sprintf(more, "%.*scars=65\n%scar=1\nat=0\nspeed=0\nlength=0\nbrake=1\n", (int)(cars - text), text, carriers);
    same("one too many", "no", check_text(more, (size_t)length), RONDAVITSE_HANDOVER_MALFORMED);
}

/* The first set of a text is in force and the second is for the next start: the other way round it is another lane's. */
static void check_tables(void) {
    char text[ROOM];
    rondavitse_lane lane = lane_of(2), swapped = lane, got;
    put_rows(swapped.rows, NEXT);
    put_rows(swapped.next_rows, IN_FORCE);
    same("swapped tables", "no", rondavitse_take_over(&got, (const uint8_t *)text, wanted_handover(text, &swapped)), RONDAVITSE_ACCEPTED);
    same_rows("swapped tables", got.rows, lane.next_rows);
    same_rows("swapped tables", got.next_rows, lane.rows);
    for (uint64_t code = 0; code < SURFACES; code++) { /* only the row in force of the surface counts for safety */
        rondavitse_lane safe = lane_near(), unsafe = lane_near();
        for (size_t other = 0; other < SURFACES; other++) {
            safe.next_rows[other].guaranteed = 1;
            safe.rows[other].guaranteed = other == code ? safe.rows[other].guaranteed : 1;
        }
        safe.surface = code;
        unsafe.surface = code;
        unsafe.rows[code].guaranteed = 1;
        same("row in force", "no", check_lane(&safe), RONDAVITSE_ACCEPTED);
        same("row in force", "no", check_lane(&unsafe), RONDAVITSE_HANDOVER_UNSAFE);
    }
}

/* On a row, the one behind with exactly the room that it needs, and with one unit less. */
static void check_edge(uint64_t surface, uint64_t rate, uint64_t speed, uint64_t speed_ahead) {
    rondavitse_lane lane = started_lane(surface, RONDAVITSE_FARTHEST_END);
    lane.count = 2;
    put_carrier(&lane.records[0], (rondavitse_carrier){7, 1000000000, speed_ahead, 300, 1});
    put_carrier(&lane.records[1], (rondavitse_carrier){8, 0, speed, 9, rate});
    lane.records[1].position = lane.records[0].position - 300 - room_needed(&lane.rows[surface], &lane.records[1], &lane.records[0]);
    same("edge", "no", check_lane(&lane), RONDAVITSE_ACCEPTED);
    lane.records[1].position++;
    same("edge", "no with a unit less", check_lane(&lane), RONDAVITSE_HANDOVER_UNSAFE);
}

static void check_edges(void) {
    const uint64_t speeds[] = {0, 1, 40, 1000, RONDAVITSE_FASTEST}, rates[] = {1, 5, 50, RONDAVITSE_HIGHEST_RATE};
    for (uint64_t surface = 0; surface < SURFACES; surface++) {
        for (size_t rate = 0; rate < 4; rate++) {
            for (size_t behind = 0; behind < 5; behind++) {
                for (size_t ahead = 0; ahead < 5; ahead++) {
                    check_edge(surface, rates[rate], speeds[behind], speeds[ahead]);
                }
            }
        }
    }
}

/* A tail right before the end, at it and past it, wherever the front is. */
static void check_tails(uint64_t end) {
    const uint64_t lengths[] = {0, 1, 300, RONDAVITSE_LONGEST_CARRIER};
    for (size_t i = 0; i < sizeof lengths / sizeof lengths[0]; i++) {
        rondavitse_lane lane = started_lane(0, end);
        lane.count = 1;
        put_carrier(&lane.records[0], (rondavitse_carrier){7, end - 1 + lengths[i], 0, lengths[i], 1});
        same("tail", "no before the end", check_lane(&lane), RONDAVITSE_ACCEPTED);
        lane.records[0].position++;
        same("tail", "no at the end", check_lane(&lane), RONDAVITSE_HANDOVER_MALFORMED);
        lane.records[0].position = UINT32_MAX;
        same("tail", "no past the end", check_lane(&lane), RONDAVITSE_HANDOVER_MALFORMED);
    }
}

/* At each place one that is level with the tail ahead, level with the front ahead, in the place of the one ahead, or of its number. */
static void check_places(void) {
    for (size_t place = 1; place < MOST; place++) {
        rondavitse_lane at_tail = lane_of(MOST), at_front = at_tail, exchanged = at_tail, twin = at_tail;
        at_tail.records[place].position = close_behind(&at_tail, place - 1) + 1;
        at_front.records[place].position = at_front.records[place - 1].position;
        exchanged.records[place] = at_tail.records[place - 1];
        exchanged.records[place - 1] = lane_of(MOST).records[place];
        twin.records[place].number = twin.records[place / 2].number;
        same("place", "no at a tail", check_lane(&at_tail), RONDAVITSE_HANDOVER_UNSAFE);
        same("place", "no at a front", check_lane(&at_front), RONDAVITSE_HANDOVER_UNSAFE);
        same("place", "no of two exchanged", check_lane(&exchanged), RONDAVITSE_HANDOVER_UNSAFE);
        same("place", "no of a number twice", check_lane(&twin), RONDAVITSE_HANDOVER_MALFORMED);
        at_front.records[place].number = 0;
        same("place", "no with a number 0 too", check_lane(&at_front), RONDAVITSE_HANDOVER_MALFORMED);
    }
}

int main(void) {
    boundary = boundary_of(ROOM, 4096);
    check_round_trips();
    check_all_changes();
    check_one_too_many();
    check_tables();
    check_edges();
    check_tails(1);
    check_tails(1000);
    check_tails(RONDAVITSE_FARTHEST_END);
    check_places();
    return verdict();
}
