/* Rondavitse: a supervisor for a lane of self-driving container carriers.
 *
 * A lane is a struct of the host's own: each call is lent it and changes it in place. A host begins with rondavitse_empty, or goes on with
 * another host's lane by rondavitse_take_over; a lane of zeros has unsound rows, and a start there gives 21 until a table is loaded. `no` is 0
 * where a call is accepted; else it is the number of its refusal, every value beside it is zero (but for a step's `next` and `stop`), and every
 * word of the lane and every lent byte is as before, with one exception: a refused rondavitse_take_over leaves an empty lane.
 * Positions and lengths count 1/2048 m, speeds 1/128 m/s, accelerations and braking rates 1/16 m/s²; a cycle is 1/8 s. A carrier's position
 * is that of its front; its tail is its length behind that, and may be before the lane's start.
 *
 * Any words may stand in the lane and any numbers may be given: those of a call are 64 bits wide and refused past their ranges, never cut.
 * The host sees to the pointers:
 * - `lane` points to a whole lane, aligned as the struct is, that nobody else uses during the call; others may read one that is const;
 * - any other pointer is to as many elements as the length beside it says, and never null;
 * - nothing that is lent overlaps a lane that is not const, nor a buffer to write to.
 * What is promised of a lane over many calls holds from rondavitse_empty or rondavitse_take_over on, whether that is accepted or not, if each
 * call gets the lane as the one before has left it.
 *
 * The library, libhost.a, is for x86-64 Linux and its C calling convention (System V), and position independent. It needs memcpy and memset
 * and nothing else, has no state of its own and allocates nothing: any threads may call it at once, each with a lane of its own. No call
 * takes more than RONDAVITSE_MOST_STACK bytes of stack, beside what memcpy and memset take, and the dynamic linker where it finds them late.
 * Answers are the same in every mode of the processor's floating point, as -ffast-math may set one, and no call raises an exception there.
 */
#ifndef RONDAVITSE_H
#define RONDAVITSE_H

#include <stdbool.h>
#include <stddef.h>
#include <stdint.h>
#include <string.h>

#ifdef __cplusplus
extern "C" {
#endif

/* The number of this interface, another one whenever a struct, a number, a constant or a function changes, a function in its form or in what it
 * answers. A host asks the library for its own before the first call: where they differ, header and library do not belong together. */
#define RONDAVITSE_VERSION 8
uint32_t rondavitse_version(void);

#define RONDAVITSE_LAST_SURFACE 7
#define RONDAVITSE_SURFACES (RONDAVITSE_LAST_SURFACE + 1)
#define RONDAVITSE_FARTHEST_END UINT64_C(2147483648)
#define RONDAVITSE_FASTEST 8192         /* the highest speed limit */
#define RONDAVITSE_HIGHEST_NUMBER 65535 /* of a carrier; the lowest is 1 */
#define RONDAVITSE_LONGEST_CARRIER 65535
#define RONDAVITSE_HIGHEST_RATE 255     /* of a row, and of a carrier's own; the lowest is 1 */
#define RONDAVITSE_MOST_CARRIERS 64
#define RONDAVITSE_LAST_CYCLE UINT64_MAX /* the cycle number after which no cycle is run */
#define RONDAVITSE_LONGEST_TEXT 3720     /* bytes: a buffer that holds every lane text */
#define RONDAVITSE_LONGEST_HANDOVER 4071 /* bytes: a buffer that holds every handover text */
#define RONDAVITSE_ANSWER_BUFFER 4096    /* bytes: the least buffer of a step */
#define RONDAVITSE_MOST_STACK 4096       /* bytes */

/* What the `no` of an answer says. 8 stands in the text of a step's answer alone, and 10 is the program's own. */
enum rondavitse_refusal {
    RONDAVITSE_ACCEPTED = 0,
    RONDAVITSE_SURFACE_UNKNOWN = 1,
    RONDAVITSE_END_OUT_OF_RANGE = 2,
    RONDAVITSE_LIMIT_OUT_OF_RANGE = 3,
    RONDAVITSE_NUMBER_OUT_OF_RANGE = 4,
    RONDAVITSE_POSITION_PAST_END = 5,
    RONDAVITSE_SPEED_ABOVE_LIMIT = 6,
    RONDAVITSE_FLOAT_OUT_OF_RANGE = 7,
    RONDAVITSE_TEXT_MALFORMED = 8,
    RONDAVITSE_TEXT_BUFFER_TOO_SHORT = 9,
    RONDAVITSE_INPUT_TOO_LONG = 10,
    RONDAVITSE_WISH_UNKNOWN = 11,
    RONDAVITSE_WISHES_TOO_FEW = 12,
    RONDAVITSE_ANSWER_BUFFER_TOO_SHORT = 13,
    RONDAVITSE_LANE_UNSOUND = 21,
    RONDAVITSE_LANE_FULL = 22,
    RONDAVITSE_NUMBER_PRESENT = 23,
    RONDAVITSE_NUMBER_ABSENT = 24,
    RONDAVITSE_UNSAFE_BEHIND_LEADER = 25,
    RONDAVITSE_FOLLOWER_UNSAFE = 26,
    RONDAVITSE_COUNT_DIFFERS = 27,
    RONDAVITSE_CYCLES_EXHAUSTED = 28,
    RONDAVITSE_TABLE_UNSOUND = 31,
    RONDAVITSE_LANE_OCCUPIED = 32,
    RONDAVITSE_LENGTH_TOO_LARGE = 33,
    RONDAVITSE_SURFACE_UNSAFE = 34,
    RONDAVITSE_RATE_OUT_OF_RANGE = 35,
    RONDAVITSE_HANDOVER_MALFORMED = 36,
    RONDAVITSE_HANDOVER_UNSAFE = 37
};

static inline const char *rondavitse_words(uint32_t no) {
    switch (no) {
    case RONDAVITSE_ACCEPTED: return "accepted";
    case RONDAVITSE_SURFACE_UNKNOWN: return "surface above 7";
    case RONDAVITSE_END_OUT_OF_RANGE: return "lane end outside 1 to 2^31";
    case RONDAVITSE_LIMIT_OUT_OF_RANGE: return "limit outside 1 to 8,192";
    case RONDAVITSE_NUMBER_OUT_OF_RANGE: return "carrier number 0, or above 65,535";
    case RONDAVITSE_POSITION_PAST_END: return "position at or past the end";
    case RONDAVITSE_SPEED_ABOVE_LIMIT: return "speed above the limit";
    case RONDAVITSE_FLOAT_OUT_OF_RANGE: return "a float outside its range";
    case RONDAVITSE_TEXT_MALFORMED: return "malformed text";
    case RONDAVITSE_TEXT_BUFFER_TOO_SHORT: return "lane or handover text longer than the buffer";
    case RONDAVITSE_INPUT_TOO_LONG: return "program input above 65,536 bytes";
    case RONDAVITSE_WISH_UNKNOWN: return "a wish of no sort that exists, or units past 16 bits";
    case RONDAVITSE_WISHES_TOO_FEW: return "an array of wishes shorter than the count";
    case RONDAVITSE_ANSWER_BUFFER_TOO_SHORT: return "a buffer for answers shorter than 4,096 bytes";
    case RONDAVITSE_LANE_UNSOUND: return "never started, or the lane handed in breaks a rule";
    case RONDAVITSE_LANE_FULL: return "64 carriers present";
    case RONDAVITSE_NUMBER_PRESENT: return "number present";
    case RONDAVITSE_NUMBER_ABSENT: return "number absent";
    case RONDAVITSE_UNSAFE_BEHIND_LEADER: return "not safe behind the carrier ahead";
    case RONDAVITSE_FOLLOWER_UNSAFE: return "the carrier behind not safe";
    case RONDAVITSE_COUNT_DIFFERS: return "count differs from the carriers present";
    case RONDAVITSE_CYCLES_EXHAUSTED: return "cycle number is 2^64 - 1";
    case RONDAVITSE_TABLE_UNSOUND: return "malformed table text, or an unsound row";
    case RONDAVITSE_LANE_OCCUPIED: return "carriers are on the lane";
    case RONDAVITSE_LENGTH_TOO_LARGE: return "length above 65,535";
    case RONDAVITSE_SURFACE_UNSAFE: return "the lane would not be safe on that surface";
    case RONDAVITSE_RATE_OUT_OF_RANGE: return "own rate outside 1 to 255";
    case RONDAVITSE_HANDOVER_MALFORMED: return "no handover text, or of a lane that breaks a rule other than safety";
    case RONDAVITSE_HANDOVER_UNSAFE: return "the lane handed over is not safe";
    default: return "unknown refusal";
    }
}

/* A surface is a code that stands for a row: guaranteed braking b, which a carrier's own rate may lower, hardest braking B, with which a
 * carrier ahead is reckoned, whatever its own rate, and most acceleration A, in 1/16 m/s². A row is sound if b is 1 to B, B at most 255 and A
 * 1 to 255. The house rows, which serve until a table is loaded:
 *     code   0    1    2    3    4    5    6    7
 *     b     64   56   48   40   32   16    6    1
 *     B    128  120  112   96   96   64   48  255
 *     A     32   32   24   24   16   12    8    1
 */
typedef struct rondavitse_row {
    uint64_t guaranteed; /* b */
    uint64_t hardest;    /* B */
    uint64_t most;       /* A */
    uint64_t free[5];
} rondavitse_row;

typedef struct rondavitse_road {
    uint64_t surface;
    uint64_t end;
    uint64_t limit;
} rondavitse_road;

typedef struct rondavitse_carrier {
    uint64_t number;
    uint64_t position;
    uint64_t speed;
    uint64_t length;
    uint64_t rate; /* its own braking rate, 1/16 m/s², 1 to 255: its guaranteed braking is the smaller of it and the row's b */
} rondavitse_carrier;

/* What is known of a newcomer before it has a number and a place. */
typedef struct rondavitse_newcomer {
    uint64_t speed;
    uint64_t length;
    uint64_t rate; /* its own, as a carrier's */
} rondavitse_newcomer;

/* A carrier as it stands in the lane: its front may be past the lane end, its tail is before it. */
typedef struct rondavitse_record {
    uint64_t number;
    uint64_t position;
    uint64_t speed;
    uint64_t length;
    uint64_t rate;
    uint64_t free[3];
} rondavitse_record;

/* The first `count` records are the carriers, front to back. An unsound row in either set gets 21, but for what is said at load, start and take
 * over; a started lane with one among `next_rows` can neither load nor start, and has to be made empty. No call's answer depends on a word
 * called free, nor on the records past the carriers; a call that is accepted and changes the lane may leave anything there, but for
 * rondavitse_surface. */
typedef struct rondavitse_lane {
    uint64_t started; /* 1; any other word counts as never started */
    uint64_t surface;
    uint64_t end;
    uint64_t limit;
    uint64_t cycle; /* the cycle number */
    uint64_t count;
    uint64_t free_figures[2];
    rondavitse_row rows[RONDAVITSE_SURFACES];      /* in force, by surface code */
    rondavitse_row next_rows[RONDAVITSE_SURFACES]; /* what the next start puts in force */
    uint64_t free_slots[RONDAVITSE_MOST_CARRIERS];
    rondavitse_record records[RONDAVITSE_MOST_CARRIERS];
} rondavitse_lane;

typedef struct rondavitse_entered {
    uint32_t no;
    size_t place; /* from 0 at the front */
} rondavitse_entered;

typedef struct rondavitse_opening {
    uint32_t no;
    bool exists;      /* 0 or 1; 0 where there is no such position, and after a refusal: both are then 0 */
    uint64_t lowest;
    uint64_t highest; /* the same as the lowest where there is one position alone */
} rondavitse_opening;

typedef struct rondavitse_cycled {
    uint32_t no;
    uint64_t word;     /* bit i: the wish of place i, as before the cycle, was replaced by guaranteed braking */
    uint32_t replaced; /* how many were */
    uint32_t gone;     /* carriers whose tail is at or past the lane end, which are no longer on the lane */
} rondavitse_cycled;

typedef struct rondavitse_reading {
    double position; /* metres, exact */
    double speed;    /* m/s, exact */
} rondavitse_reading;

typedef struct rondavitse_read_out {
    uint32_t no;
    rondavitse_reading reading;
} rondavitse_read_out;

typedef struct rondavitse_listed {
    uint32_t no;
    size_t length;
} rondavitse_listed;

typedef struct rondavitse_stepped {
    size_t next;    /* the place after the block; where stop is set, the place handed in */
    size_t written; /* the bytes put at the buffer's start */
    uint32_t no;    /* the step's own: 13 or 0; a refused block's number is in its answer */
    bool stop;      /* 0 or 1; 1 where nothing is left to run: the input has ended, its next block is malformed, or the step is refused */
} rondavitse_stepped;

/* Makes an empty lane that was never started, whatever was there: the house rows in both sets, and every other word 0. */
void rondavitse_empty(rondavitse_lane *lane);

/* Takes a terminal's own rows for the next start, and changes nothing else; gives `no`. A table text is 24 lines `b=`, `B=` and `A=`, row by
 * row from code 0, each with its newline and nothing after them: "b=64\nB=128\nA=32\nb=56\n" and so on, numbers decimal without leading
 * zeros. Checks in order: 21, but a lane never started counts as empty and sound here, whatever it holds; 31, 32. */
uint32_t rondavitse_load(rondavitse_lane *lane, const uint8_t *text, size_t text_length);

/* Takes the road and the first cycle number, puts `next_rows` in force, which stay the next ones too, and empties the lane, whatever it held;
 * gives `no`. Checks in order: 21, for an unsound row among `next_rows` and nothing else; 1, 2, 3. */
uint32_t rondavitse_start(rondavitse_lane *lane, rondavitse_road road, uint64_t first);

/* Changes the surface between cycles, as when it rains; gives `no`. The word `surface` becomes the code, and every other word of the lane, free
 * ones and idle records included, stays as it was. The whole lane has to be safe under the code's row among `rows`, each carrier by its own
 * guaranteed braking on it; by that row trimming, braking, wishes, entries and 21 then go. The code in force is accepted on every lane that 21
 * passes, and so is every code up to 7 where no carrier behind the foremost moves: a host that gets 34 lets them slow down and asks again.
 * Checks: 21, 1, 34. */
uint32_t rondavitse_surface(rondavitse_lane *lane, uint64_t surface);

/* The carrier goes in at the place found, if it and the one behind it are safe there, each behind the tail of the one ahead.
 * Checks: 21, 4, 5 for its front, 6, 33, 35, 22, 23, 25, 26. */
rondavitse_entered rondavitse_enter(rondavitse_lane *lane, rondavitse_carrier carrier);

/* Where a newcomer with these values could enter: the lowest and the highest position in the gap directly behind the carrier `number`, or, for
 * any `head` but 0, ahead of all, and `number` is then not looked at. From the lowest to the highest, and nowhere else, an entry with a free
 * number and a free place goes into that gap, given none of 5, 25 and 26. 22 and 23 are not looked at: a full lane has openings too. That there is
 * no such position is no refusal: `exists` is then 0. An opening holds until another call changes the lane.
 * Checks: 21; for a carrier named 4, 24; then 6, 33, 35. */
rondavitse_opening rondavitse_find_opening(const rondavitse_lane *lane, uint64_t head, uint64_t number, rondavitse_newcomer newcomer);

/* The carrier named comes out; gives `no`. Checks: 21, 4, 24. */
uint32_t rondavitse_leave(rondavitse_lane *lane, uint64_t number);

/* Sorts of wishes, and what their value is. A float becomes units: 16 times an acceleration, or 128 times a target speed, to the nearest whole
 * number, a value exactly halfway to the even one; from that of a target speed the present speed is then subtracted. */
enum {
    RONDAVITSE_UNITS = 0,        /* 1/16 m/s², 16 bits signed: rondavitse_units(units) */
    RONDAVITSE_ACCELERATION = 1, /* m/s², -16 to 16: rondavitse_float(acceleration) */
    RONDAVITSE_TARGET_SPEED = 2, /* m/s, 0 to 64: rondavitse_float(speed) */
    RONDAVITSE_HOLD = 3          /* anything */
};

/* A number wider than an element of `sorts` or `values` is cut by C itself where a host stores it, before a call can see it. These two cut
 * nothing: units past 16 bits become a value that a cycle refuses with 11. What C converts for their own arguments they cannot see, as a
 * double that it rounds to a float, or unsigned units of 64 bits: -Wconversion warns of that. */
static inline uint32_t rondavitse_units(int64_t units) {
    return units >= INT16_MIN && units <= INT16_MAX ? (uint32_t)units : UINT32_C(0x8000);
}

static inline uint32_t rondavitse_float(float value) {
    uint32_t bits;
    memcpy(&bits, &value, sizeof bits);
    return bits;
}

/* One cycle: the wish of place i is of sort sorts[i] with values[i], and the first `count` are looked at. A wish, which may brake harder than
 * the carrier's own rate, stands, or the carrier's guaranteed braking is put in its place. Checks: 21, 27, 28, 12, 11, 7. */
rondavitse_cycled rondavitse_cycle(rondavitse_lane *lane, size_t count, const uint8_t *sorts, size_t sorts_length,
                                   const uint32_t *values, size_t values_length);

/* Where a carrier's front is and how fast it drives. Checks: 21, 4, 24. */
rondavitse_read_out rondavitse_read(const rondavitse_lane *lane, uint64_t number);

/* The lane as lines of text at the buffer's start; bytes after the text stay as they were. Checks: 21, 9. */
rondavitse_listed rondavitse_lane_text(const rondavitse_lane *lane, uint8_t *out, size_t out_length);

/* The whole lane as lines of text at the buffer's start, for the host that goes on with it: `rows` as a table text, `next_rows` as another with
 * nothing between, `surface=`, `end=`, `limit=` and `cycle=`, then the lane text, `cars=` and of each carrier, front to back, `car=`, `at=`,
 * `speed=`, `length=` and `brake=`. Each line has its newline, and numbers are decimal without leading zeros. There is nothing in it but ASCII,
 * and no zero byte: it may go through a file or a pipe. Free words and idle records are not in it, so that one lane has one text. Bytes after
 * the text stay as they were, and the lane is not changed. Checks: 21; 9, for this text. */
rondavitse_listed rondavitse_handover(const rondavitse_lane *lane, uint8_t *out, size_t out_length);

/* Makes the lane that a handover text names; gives `no`. What the struct held is not looked at: it may be anything, uninitialised too. The text
 * is only read, and only that is taken which rondavitse_handover writes: what it wrote of any lane is accepted, and of a lane taken over it writes
 * the same bytes again. The lane is then started, with both sets of rows, surface, end, limit, cycle number and carriers of the text; its free
 * words and idle records may be anything. It is as good a beginning as an empty lane.
 *
 * A refusal leaves AN EMPTY LANE, every word as rondavitse_empty makes it, and not the one that was there. Checks in order:
 * - 36, a text of another form: another key or order of lines, a line without its newline or longer than 64 bytes with it, a number with a sign,
 *   with a leading zero or past its width (16 bits for `car`, 64 for `cycle` and for rows, 32 for the others), `cars` above 64, more or fewer
 *   carriers than it says, a byte after the last line; or a rule broken that 21 looks at, other than safety: surface, end or limit outside its
 *   range, an unsound row in either set, a number 0 or twice, a speed above the limit, a length above 65,535, an own rate outside 1 to 255, a
 *   tail at or past the end;
 * - 37, a lane that is not safe by the row in force of its surface: carriers that are out of order, level, overlapping or too close to stop. */
uint32_t rondavitse_take_over(rondavitse_lane *lane, const uint8_t *text, size_t text_length);

/* One block of call texts, read at the place `at` of the input and run on the lane; its answer is put at the buffer's start, and the bytes
 * after it stay as they were. A refused block's answer is `no=` and its number, 8 for a malformed one: the step itself is then not refused.
 * After a refused block, and where nothing is run, every word of the lane is as before. The input's length is not looked at: 10 is the
 * program's alone. Checks: 13, a buffer shorter than RONDAVITSE_ANSWER_BUFFER, before anything else; `next` is then `at` and `stop` is set. */
rondavitse_stepped rondavitse_step(rondavitse_lane *lane, const uint8_t *input, size_t input_length, size_t at, uint8_t *out,
                                   size_t out_length);

#ifdef __cplusplus
}
#endif

#endif
