/* That of a line without an end no more than 64 bytes are looked at, the most that a line has with its newline, and no byte past the end of a
 * table text or a handover text: the bytes after them are on pages that cannot be read, so that one look further ends this program. */
#define _DEFAULT_SOURCE /* mmap's MAP_ANONYMOUS */
#include "compare.h"
#include "pages.h"
#include "table.h"

#include <string.h>

enum { LONGEST_LINE = 64, READABLE = 4096, UNREADABLE = 64 << 20 };

/* Of it READABLE bytes can be written and read, and UNREADABLE after them cannot. */
static uint8_t *page;

/* Puts a text at the page's end and gives its place. */
static size_t put_at_end(const char *text, size_t length) {
    const size_t at = READABLE - length;
    memcpy(page + at, text, length);
    return at;
}

/* Never started, so that a load takes it for empty and sound. */
static rondavitse_lane any_lane(void) {
    rondavitse_lane lane;
    memset(&lane, 0xB7, sizeof lane);
    return lane;
}

/* The text at the page's end, with what cannot be read counted to the input, is malformed and changes nothing. */
static void expect_malformed_block(const char *text, size_t length) {
    uint8_t out[RONDAVITSE_ANSWER_BUFFER];
    rondavitse_lane lane = any_lane();
    const rondavitse_lane kept = lane;
    const size_t at = put_at_end(text, length);
    const rondavitse_stepped got = rondavitse_step(&lane, page, READABLE + UNREADABLE, at, out, sizeof out);
    same(text, "no", got.no, RONDAVITSE_ACCEPTED);
    same(text, "next", got.next, at);
    same(text, "stop", got.stop, 1);
    same(text, "written", got.written, strlen("no=8\n"));
    same(text, "answer", (uint64_t)memcmp(out, "no=8\n", strlen("no=8\n")), 0);
    same(text, "lane", (uint64_t)memcmp(&lane, &kept, sizeof lane), 0);
}

/* A load of the text at the page's end, with so many bytes that cannot be read, gives `no`, and changes the lane only if it is accepted. */
static void expect_load(uint32_t no, const char *text, size_t length, size_t unreadable) {
    rondavitse_lane lane = any_lane();
    const rondavitse_lane kept = lane;
    const size_t at = put_at_end(text, length);
    same(text, "no", rondavitse_load(&lane, page + at, length + unreadable), no);
    same(text, "lane changed", memcmp(&lane, &kept, sizeof lane) != 0, no == RONDAVITSE_ACCEPTED);
}

static void expect_malformed_table(const char *text, size_t length) {
    expect_load(RONDAVITSE_TABLE_UNSOUND, text, length, UNREADABLE);
}

/* A refused reading leaves an empty lane. */
static void expect_malformed_handover(const char *text, size_t length) {
    rondavitse_lane lane = any_lane(), empty;
    rondavitse_empty(&empty);
    const size_t at = put_at_end(text, length);
    same(text, "no", rondavitse_take_over(&lane, page + at, length + UNREADABLE), RONDAVITSE_HANDOVER_MALFORMED);
    same(text, "lane", (uint64_t)memcmp(&lane, &empty, sizeof lane), 0);
}

/* After `lines` one that begins so and goes on with `filling`: 64 bytes with no end that can be read, then 64 and 65 with their newline. No
 * line that means something is so long. */
static void check_line(void (*expect_malformed)(const char *, size_t), const char *lines, const char *begun, char filling) {
    char text[TABLE_BUFFER];
    const size_t before = strlen(lines), length = before + LONGEST_LINE;
    strcpy(text, lines);
    memset(text + before, filling, LONGEST_LINE);
    memcpy(text + before, begun, strlen(begun));
    strcpy(text + length, "\n");
    expect_malformed(text, length);
    expect_malformed(text, length + 1);
    strcpy(text + length - 1, "\n");
    expect_malformed(text, length);
}

static void check_blocks(void) {
    check_line(expect_malformed_block, "", "", 'x');
    check_line(expect_malformed_block, "", "call=", 'x');
    check_line(expect_malformed_block, "", "call=show", ' ');
    check_line(expect_malformed_block, "call=start\n", "surface=", '0');
    check_line(expect_malformed_block, "call=start\nsurface=0\nend=1\nlimit=1\n", "cycle=", '1');
    check_line(expect_malformed_block, "call=enter\n", "car=7", ' ');
    check_line(expect_malformed_block, "call=enter\ncar=7\n", "at=", '0');
    check_line(expect_malformed_block, "call=enter\ncar=7\nat=0\nspeed=0\n", "length=", '1');
    check_line(expect_malformed_block, "call=enter\ncar=7\nat=0\nspeed=0\nlength=0\n", "brake=", '1');
    check_line(expect_malformed_block, "call=leave\n", "car=", '1');
    check_line(expect_malformed_block, "call=surface\n", "surface=", '0');
    check_line(expect_malformed_block, "call=cycle\n", "cars=", '1');
    check_line(expect_malformed_block, "call=cycle\ncars=1\n", "want=hold", ' ');
    check_line(expect_malformed_block, "call=cycle\ncars=2\nwant=hold\n", "want=units:", '1');
    check_line(expect_malformed_block, "call=cycle\ncars=2\nwant=hold\n", "want=accel:", 'A');
}

/* Each line of a table text in turn without an end, and the text cut off at each of its bytes. */
static void check_tables(void) {
    char text[TABLE_BUFFER], lines[TABLE_BUFFER];
    const size_t length = table_text(text, TABLE_LINES, "");
    const char *line = text;
    for (size_t i = 0; i < TABLE_LINES; i++, line = strchr(line, '\n') + 1) {
        const char begun[] = {line[0], '=', '\0'};
        sprintf(lines, "%.*s", (int)(line - text), text);
        check_line(expect_malformed_table, lines, begun, '0');
        check_line(expect_malformed_table, lines, begun, '1');
        check_line(expect_malformed_table, lines, "", 'x');
    }
    for (size_t cut = 0; cut < length; cut++) {
        expect_load(RONDAVITSE_TABLE_UNSOUND, text, cut, 0);
    }
    expect_load(RONDAVITSE_ACCEPTED, text, length, 0);
}

/* That of a lane with one carrier, and a zero byte after it. */
static size_t handover_text(char *text, size_t room) {
    rondavitse_lane lane;
    rondavitse_empty(&lane);
    rondavitse_start(&lane, (rondavitse_road){.surface = 0, .end = 100, .limit = 100}, 0);
    same("enter", "no", rondavitse_enter(&lane, (rondavitse_carrier){.number = 1, .rate = 1}).no, RONDAVITSE_ACCEPTED);
    return rondavitse_handover(&lane, (uint8_t *)text, room - 1).length;
}

/* Each line of a handover text in turn without an end, and all of it with more after it that cannot be read. */
static void check_handovers(void) {
    char text[TABLE_BUFFER] = "", lines[TABLE_BUFFER], begun[16];
    const size_t length = handover_text(text, sizeof text);
    for (const char *line = text; line < text + length; line = strchr(line, '\n') + 1) {
        sprintf(lines, "%.*s", (int)(line - text), text);
        sprintf(begun, "%.*s", (int)(strchr(line, '=') + 1 - line), line);
        check_line(expect_malformed_handover, lines, begun, '0');
        check_line(expect_malformed_handover, lines, begun, '1');
        check_line(expect_malformed_handover, lines, "", 'x');
    }
    expect_malformed_handover(text, length);
}

int main(void) {
    page = boundary_of(READABLE, UNREADABLE) - READABLE;
    check_blocks();
    check_tables();
    check_handovers();
    return verdict();
}
