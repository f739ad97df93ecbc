/* A worked host: five minutes of a lane with an entry at its start, a side road whose carriers wait for an opening, an exit and an end that
 * carriers run out at, on surface figures of the terminal's own; some trailers are loaded, and for a while it rains. Halfway the lane is handed over
 * as text and taken over again. It prints a summary that is the same in every run. */
#include "rondavitse.h"

#include <math.h>
#include <stdio.h>
#include <stdlib.h>
#include <string.h>

enum {
    METRE = 2048,           /* positions count 1/2048 m */
    METRE_PER_SECOND = 128, /* speeds count 1/128 m/s */
    CYCLES = 2400,          /* of 1/8 s */
    HANDED_OVER = 1200,     /* the cycle before which the lane is */
    DRY = 0,                /* surface codes */
    WET = 4,
    RAIN_BEGINS = 900,      /* cycles */
    RAIN_ENDS = 1700,
    LANE_END = 400 * METRE,
    SPEED_LIMIT = 20 * METRE_PER_SECOND,
    SIDE_ROAD_BEGINS = 110 * METRE, /* beside it carriers may drive in up to its end */
    SIDE_ROAD_ENDS = 150 * METRE,
    FIRST_ON_SIDE_ROAD = 1001, /* carriers there have numbers of their own */
    FULL = 24,              /* own braking rates of trailers: below the b of both surfaces, */
    HALF_FULL = 40,         /* of the dry one alone, */
    UNLOADED = 72,          /* and of neither */
    LAST_REFUSAL = RONDAVITSE_HANDOVER_UNSAFE
};

/* What the terminal has measured of its concrete, a row for each surface code. */
static const char TABLE[] = "b=58\nB=132\nA=30\n"
                            "b=52\nB=124\nA=30\n"
                            "b=45\nB=110\nA=24\n"
                            "b=38\nB=100\nA=22\n"
                            "b=30\nB=92\nA=16\n"
                            "b=15\nB=70\nA=12\n"
                            "b=5\nB=50\nA=8\n"
                            "b=1\nB=255\nA=1\n";

#define EXIT_POSITION 300.0 /* m */

typedef struct {
    rondavitse_lane lane; /* changed by the supervisor alone */
    uint64_t next_number;
    uint64_t next_on_side_road;
    bool side_road_taken;               /* by a carrier that waits to drive in */
    unsigned admitted, replaced, replaced_loaded, left, gone;
    unsigned refused[LAST_REFUSAL + 1]; /* entries at the start, by the refusal's number */
    unsigned ahead_of_all;              /* carriers in from the side road that became the foremost */
    unsigned unopened, out_of_reach;    /* questions there without an opening, and with one that is not beside it */
    unsigned changed, postponed;        /* changes of surface accepted, and refused with 34 */
    double closest;                     /* the least distance to the tail ahead, m */
    double farthest;                    /* where a front has been, m */
    double fastest;                     /* m/s */
} host;

static void expect_version(void) {
    if (rondavitse_version() != RONDAVITSE_VERSION) {
        fprintf(stderr, "header and library do not belong together\n");
        exit(EXIT_FAILURE);
    }
}

/* For the calls that this host makes only when they cannot be refused. */
static void expect_accepted(const char *call, uint32_t no) {
    if (no != RONDAVITSE_ACCEPTED) {
        fprintf(stderr, "%s refused: %s\n", call, rondavitse_words(no));
        exit(EXIT_FAILURE);
    }
}

/* The table's first `length` bytes. */
static uint32_t load(host *h, size_t length) {
    return rondavitse_load(&h->lane, (const uint8_t *)TABLE, length);
}

/* The codes mean the table's rows from the next start on, so it is loaded before. */
static void start(host *h) {
    const rondavitse_road road = {.surface = DRY, .end = LANE_END, .limit = SPEED_LIMIT};
    *h = (host){.next_number = 1, .next_on_side_road = FIRST_ON_SIDE_ROAD, .closest = INFINITY};
    rondavitse_empty(&h->lane);
    expect_accepted("load", load(h, strlen(TABLE)));
    expect_accepted("start", rondavitse_start(&h->lane, road, 0));
}

static uint64_t surface_wanted(int cycle) {
    return cycle >= RAIN_BEGINS && cycle < RAIN_ENDS ? WET : DRY;
}

/* Until a change is accepted nobody is let in, and all but the foremost slow down: once they stand, no surface is refused. */
static bool awaits_surface(const host *h, int cycle) {
    return h->lane.surface != surface_wanted(cycle);
}

/* A change that is refused is asked for again in the next cycle. */
static void try_surface(host *h, int cycle) {
    if (!awaits_surface(h, cycle)) {
        return;
    }
    const uint32_t no = rondavitse_surface(&h->lane, surface_wanted(cycle));
    if (no == RONDAVITSE_SURFACE_UNSAFE) {
        h->postponed++;
        return;
    }
    expect_accepted("surface", no);
    h->changed++;
}

/* Every third carrier takes a container of 20 feet, the others take one of 40. */
static uint64_t length_of(uint64_t number) {
    return (number % 3 == 0 ? 8 : 14) * METRE;
}

/* Two of seven trailers are loaded. */
static uint64_t rate_of(uint64_t number) {
    switch (number % 7) {
    case 0:
        return FULL;
    case 1:
        return HALF_FULL;
    default:
        return UNLOADED;
    }
}

/* A carrier that is refused at the lane's start waits with its number for the next try. */
static void try_start(host *h) {
    const rondavitse_carrier carrier = {
        .number = h->next_number,
        .position = 0,
        .speed = 14 * METRE_PER_SECOND,
        .length = length_of(h->next_number),
        .rate = rate_of(h->next_number),
    };
    const rondavitse_entered answer = rondavitse_enter(&h->lane, carrier);
    if (answer.no == RONDAVITSE_ACCEPTED) {
        h->next_number++;
        h->admitted++;
    } else {
        h->refused[answer.no]++;
    }
}

/* That of the gap behind the last carrier that has passed the side road, or ahead of all where none has. */
static rondavitse_opening opening_at_side_road(const host *h, rondavitse_newcomer newcomer) {
    uint64_t head = 1, number = 0;
    for (size_t place = 0; place < h->lane.count && h->lane.records[place].position > SIDE_ROAD_ENDS; place++) {
        head = 0;
        number = h->lane.records[place].number;
    }
    const rondavitse_opening answer = rondavitse_find_opening(&h->lane, head, number, newcomer);
    expect_accepted("find opening", answer.no);
    return answer;
}

/* A carrier may drive in anywhere in an opening. It cannot be refused there: its number is new, and 64 carriers do not fit on this lane. */
static void leave_side_road(host *h, uint64_t position, rondavitse_newcomer newcomer) {
    const rondavitse_carrier carrier = {
        .number = h->next_on_side_road,
        .position = position,
        .speed = newcomer.speed,
        .length = newcomer.length,
        .rate = newcomer.rate,
    };
    const rondavitse_entered answer = rondavitse_enter(&h->lane, carrier);
    expect_accepted("enter in an opening", answer.no);
    h->next_on_side_road++;
    h->side_road_taken = false;
    h->admitted++;
    h->ahead_of_all += answer.place == 0;
}

/* The carrier there takes the middle of what is beside the road of an opening. Where there is nothing it waits, and asks in the next cycle. */
static void try_side_road(host *h) {
    const uint64_t number = h->next_on_side_road;
    const rondavitse_newcomer newcomer = {.speed = 10 * METRE_PER_SECOND, .length = length_of(number), .rate = rate_of(number)};
    const rondavitse_opening opening = opening_at_side_road(h, newcomer);
    const uint64_t lowest = opening.lowest > SIDE_ROAD_BEGINS ? opening.lowest : SIDE_ROAD_BEGINS;
    const uint64_t highest = opening.highest < SIDE_ROAD_ENDS ? opening.highest : SIDE_ROAD_ENDS;
    if (!opening.exists) {
        h->unopened++;
    } else if (lowest > highest) {
        h->out_of_reach++;
    } else {
        leave_side_road(h, lowest + (highest - lowest) / 2, newcomer);
    }
}

static void let_carriers_in(host *h, int cycle) {
    if (cycle % 29 == 5) {
        h->side_road_taken = true;
    }
    if (awaits_surface(h, cycle)) {
        return;
    }
    if (cycle % 32 == 0) {
        try_start(h);
    }
    if (h->side_road_taken) {
        try_side_road(h);
    }
}

typedef struct {
    uint8_t sort;
    uint32_t value;
} wish;

static wish units(int64_t units) {
    return (wish){RONDAVITSE_UNITS, rondavitse_units(units)};
}

static wish acceleration(float metres_per_second_squared) {
    return (wish){RONDAVITSE_ACCELERATION, rondavitse_float(metres_per_second_squared)};
}

static wish target_speed(float metres_per_second) {
    return (wish){RONDAVITSE_TARGET_SPEED, rondavitse_float(metres_per_second)};
}

static wish hold(void) {
    return (wish){RONDAVITSE_HOLD, 0};
}

/* By the carrier's number; but now and then the foremost brakes for six seconds, and those behind it slow down where they are to. */
static wish wish_of(const rondavitse_record *carrier, size_t place, int cycle, bool slower) {
    if (place == 0 && cycle % 600 >= 552) {
        return acceleration(-2.5f);
    }
    if (place > 0 && slower) {
        return acceleration(-1.5f);
    }
    switch (carrier->number % 4) {
    case 0:
        return carrier->speed < 8 * METRE_PER_SECOND ? units(16) : hold();
    case 1:
        return units(cycle % 3 == 0 ? -4 : 12);
    case 2:
        return acceleration(0.7f);
    default:
        return target_speed(13.3f);
    }
}

/* A word with a bit for each place that has a loaded trailer. */
static uint64_t loaded_places(const host *h) {
    uint64_t word = 0;
    for (size_t place = 0; place < h->lane.count; place++) {
        word |= (uint64_t)(h->lane.records[place].rate < UNLOADED) << place;
    }
    return word;
}

static unsigned ones(uint64_t word) {
    unsigned count = 0;
    for (; word != 0; word &= word - 1) {
        count++;
    }
    return count;
}

static void drive(host *h, int cycle) {
    uint8_t sorts[RONDAVITSE_MOST_CARRIERS];
    uint32_t values[RONDAVITSE_MOST_CARRIERS];
    const size_t count = h->lane.count;
    const uint64_t loaded = loaded_places(h); /* a cycle's word goes by the places before it */
    const bool slower = awaits_surface(h, cycle);
    for (size_t place = 0; place < count; place++) {
        const wish w = wish_of(&h->lane.records[place], place, cycle, slower);
        sorts[place] = w.sort;
        values[place] = w.value;
    }
    const rondavitse_cycled answer = rondavitse_cycle(&h->lane, count, sorts, count, values, count);
    expect_accepted("cycle", answer.no);
    h->replaced += answer.replaced;
    h->replaced_loaded += ones(answer.word & loaded);
    h->gone += answer.gone;
}

static rondavitse_reading reading_at(const host *h, size_t place) {
    const rondavitse_read_out answer = rondavitse_read(&h->lane, h->lane.records[place].number);
    expect_accepted("read", answer.no);
    return answer.reading;
}

static double lower(double one, double other) {
    return one < other ? one : other;
}

static double higher(double one, double other) {
    return one > other ? one : other;
}

static void watch(host *h) {
    double tail_ahead = INFINITY;
    for (size_t place = 0; place < h->lane.count; place++) {
        const rondavitse_reading reading = reading_at(h, place);
        h->closest = lower(h->closest, tail_ahead - reading.position);
        h->farthest = higher(h->farthest, reading.position);
        h->fastest = higher(h->fastest, reading.speed);
        tail_ahead = reading.position - (double)h->lane.records[place].length / METRE;
    }
}

/* Every fifth carrier takes the exit. */
static void let_carriers_out(host *h) {
    size_t place = 0;
    while (place < h->lane.count) {
        const uint64_t number = h->lane.records[place].number;
        if (number % 5 != 0 || reading_at(h, place).position < EXIT_POSITION) {
            place++;
            continue;
        }
        expect_accepted("leave", rondavitse_leave(&h->lane, number));
        h->left++; /* the next carrier now has this place */
    }
}

typedef struct {
    char lines[RONDAVITSE_LONGEST_HANDOVER + 1]; /* a zero byte ends it here, and is no part of the text */
} handover;

static handover handover_of(const host *h) {
    handover text;
    const rondavitse_listed answer = rondavitse_handover(&h->lane, (uint8_t *)text.lines, RONDAVITSE_LONGEST_HANDOVER);
    expect_accepted("handover", answer.no);
    text.lines[answer.length] = '\0';
    return text;
}

static uint32_t take_over(rondavitse_lane *lane, const handover *text) {
    return rondavitse_take_over(lane, (const uint8_t *)text->lines, strlen(text->lines));
}

/* As when another host takes this one's place: nothing of the lane goes over but its text. What a host knows beside the lane, as its next number,
 * is not in it. */
static void change_hosts(host *h) {
    const handover text = handover_of(h);
    memset(&h->lane, 0xFF, sizeof h->lane);
    expect_accepted("take over", take_over(&h->lane, &text));
}

/* A text that is refused makes an empty lane, so this one is not the host's. */
static void try_take_over(const char *name, const handover *text) {
    rondavitse_lane lane;
    const uint32_t no = take_over(&lane, text);
    if (no != RONDAVITSE_ACCEPTED) {
        printf("%s refused with %u (%s)\n", name, (unsigned)no, rondavitse_words(no));
    }
}

/* A file that was not yet whole, and one in which somebody has put the lane on another surface, where nobody brakes so well. */
static void try_take_overs(const host *h) {
    handover cut = handover_of(h), changed = cut;
    cut.lines[strlen(cut.lines) - 1] = '\0';
    try_take_over("handover text cut short", &cut);
    strstr(changed.lines, "surface=")[strlen("surface=")] = '7';
    try_take_over("handover text with another surface", &changed);
}

/* A load that is refused leaves the lane, and the rows for its next start, as they were. */
static void try_table(host *h, const char *table, size_t length) {
    const uint32_t no = load(h, length);
    if (no != RONDAVITSE_ACCEPTED) {
        printf("%s refused with %u (%s)\n", table, (unsigned)no, rondavitse_words(no));
    }
}

/* A question that is refused says nothing of the lane. */
static void try_opening(const host *h, const char *gap, uint64_t number) {
    const rondavitse_newcomer newcomer = {.speed = 0, .length = 0, .rate = UNLOADED};
    const uint32_t no = rondavitse_find_opening(&h->lane, 0, number, newcomer).no;
    if (no != RONDAVITSE_ACCEPTED) {
        printf("%s refused with %u (%s)\n", gap, (unsigned)no, rondavitse_words(no));
    }
}

static void print_summary(const host *h) {
    uint8_t text[RONDAVITSE_LONGEST_TEXT];
    const rondavitse_listed answer = rondavitse_lane_text(&h->lane, text, sizeof text);
    expect_accepted("lane text", answer.no);
    printf("cycles run: %d\n", CYCLES);
    printf("entries admitted: %u\n", h->admitted);
    for (unsigned no = 1; no <= LAST_REFUSAL; no++) {
        if (h->refused[no] > 0) {
            printf("entries at the start refused with %u (%s): %u\n", no, rondavitse_words(no), h->refused[no]);
        }
    }
    printf("carriers in from the side road: %u, ahead of all: %u\n", (unsigned)(h->next_on_side_road - FIRST_ON_SIDE_ROAD), h->ahead_of_all);
    printf("questions there without an opening: %u, with one out of reach: %u\n", h->unopened, h->out_of_reach);
    printf("changes of surface: %u\n", h->changed);
    printf("changes of surface refused with %d (%s): %u\n", RONDAVITSE_SURFACE_UNSAFE, rondavitse_words(RONDAVITSE_SURFACE_UNSAFE),
           h->postponed);
    printf("wishes replaced: %u, of loaded trailers: %u\n", h->replaced, h->replaced_loaded);
    printf("carriers out by the exit: %u\n", h->left);
    printf("carriers gone at the lane end: %u\n", h->gone);
    /* As many digits as 1/2048 and 1/128 have: nothing is rounded. */
    printf("closest to the tail ahead: %.11f m\n", h->closest);
    printf("farthest front, on a lane of %d m: %.11f m\n", LANE_END / METRE, h->farthest);
    printf("fastest: %.7f m/s\n", h->fastest);
    printf("the lane now:\n");
    fwrite(text, 1, answer.length, stdout);
}

int main(void) {
    host h;
    expect_version();
    start(&h);
    for (int cycle = 0; cycle < CYCLES; cycle++) {
        if (cycle == HANDED_OVER) {
            change_hosts(&h);
        }
        try_surface(&h, cycle);
        let_carriers_in(&h, cycle);
        drive(&h, cycle);
        watch(&h);
        let_carriers_out(&h);
    }
    try_table(&h, "table on a lane in use", strlen(TABLE));
    try_table(&h, "table cut short", strlen(TABLE) - 1);
    try_opening(&h, "opening behind a carrier that is gone", 1);
    try_take_overs(&h);
    print_summary(&h);
    return EXIT_SUCCESS;
}
