/* The number that a handover text should get: it is read without care, and whether it is of the right form is seen by writing the text of the lane
 * that it names; then come the rules. */
#ifndef WANTED_H
#define WANTED_H

#include "lanes.h"

/* Bytes for a text whose numbers are as long as 64 bits make them. */
enum { ROOM = 16384 };

/* The number after `key`, and the place after its line. */
static bool read_figure(const char **at, const char *key, uint64_t *figure) {
    char *end;
    if (strncmp(*at, key, strlen(key)) != 0) {
        return false;
    }
    *figure = strtoull(*at + strlen(key), &end, 10);
    *at = *end == '\0' ? end : end + 1;
    return true;
}

static bool read_rows(const char **at, rondavitse_row *rows) {
    bool read = true;
    for (size_t code = 0; code < SURFACES; code++) {
        read = read && read_figure(at, "b=", &rows[code].guaranteed) && read_figure(at, "B=", &rows[code].hardest) &&
               read_figure(at, "A=", &rows[code].most);
    }
    return read;
}

/* The lane that a text names, read without care. */
static bool read_lane(const char *at, rondavitse_lane *lane) {
    lane->started = 1;
    if (!read_rows(&at, lane->rows) || !read_rows(&at, lane->next_rows) || !read_figure(&at, "surface=", &lane->surface) ||
        !read_figure(&at, "end=", &lane->end) || !read_figure(&at, "limit=", &lane->limit) || !read_figure(&at, "cycle=", &lane->cycle) ||
        !read_figure(&at, "cars=", &lane->count) || lane->count > MOST) {
        return false;
    }
    for (size_t place = 0; place < lane->count; place++) {
        rondavitse_record *c = &lane->records[place];
        if (!read_figure(&at, "car=", &c->number) || !read_figure(&at, "at=", &c->position) || !read_figure(&at, "speed=", &c->speed) ||
            !read_figure(&at, "length=", &c->length) || !read_figure(&at, "brake=", &c->rate)) {
            return false;
        }
    }
    return true;
}

static bool within(uint64_t figure, uint64_t lowest, uint64_t highest) {
    return lowest <= figure && figure <= highest;
}

static bool sound_row(const rondavitse_row *row) {
    return within(row->guaranteed, 1, row->hardest) && row->hardest <= RONDAVITSE_HIGHEST_RATE && within(row->most, 1, RONDAVITSE_HIGHEST_RATE);
}

static bool sound_carrier(const rondavitse_lane *lane, size_t place) {
    const rondavitse_record *c = &lane->records[place];
    bool sound = within(c->number, 1, RONDAVITSE_HIGHEST_NUMBER) && c->speed <= lane->limit && c->length <= RONDAVITSE_LONGEST_CARRIER &&
                 within(c->rate, 1, RONDAVITSE_HIGHEST_RATE) && c->position < lane->end + c->length;
    for (size_t other = 0; other < place; other++) {
        sound = sound && lane->records[other].number != c->number;
    }
    return sound;
}

/* What 21 looks at, other than safety. */
static bool sound_lane(const rondavitse_lane *lane) {
    bool sound = lane->surface <= RONDAVITSE_LAST_SURFACE && within(lane->end, 1, RONDAVITSE_FARTHEST_END) &&
                 within(lane->limit, 1, RONDAVITSE_FASTEST);
    for (size_t code = 0; code < SURFACES; code++) {
        sound = sound && sound_row(&lane->rows[code]) && sound_row(&lane->next_rows[code]);
    }
    for (size_t place = 0; place < lane->count; place++) {
        sound = sound && sound_carrier(lane, place);
    }
    return sound;
}

/* The least room to the tail ahead that is not too little. */
static uint64_t room_needed(const rondavitse_row *row, const rondavitse_record *behind, const rondavitse_record *ahead) {
    return level(stop(lower(behind->rate, row->guaranteed), behind->speed), stop(row->hardest, ahead->speed)) + 1;
}

static bool safe_lane(const rondavitse_lane *lane) {
    bool safe = true;
    for (size_t place = 1; place < lane->count; place++) {
        const rondavitse_record *behind = &lane->records[place], *ahead = behind - 1;
        safe = safe && behind->position + ahead->length + room_needed(&lane->rows[lane->surface], behind, ahead) <= ahead->position;
    }
    return safe;
}

/* Gives the number; the lane is the one named, where there is one. */
static uint32_t wanted_no(const char *text, size_t length, rondavitse_lane *lane) {
    char again[ROOM];
    if (!read_lane(text, lane) || wanted_handover(again, lane) != length || memcmp(again, text, length) != 0 || !sound_lane(lane)) {
        return RONDAVITSE_HANDOVER_MALFORMED;
    }
    return safe_lane(lane) ? RONDAVITSE_ACCEPTED : RONDAVITSE_HANDOVER_UNSAFE;
}

#endif
