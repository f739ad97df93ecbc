/* A host that can be replaced while its lane runs. It runs call texts block by block, as the program does; once its input has ended it hands the
 * lane over by a file, and the next host, this one again or that in Rust, takes it over and goes on. Together they print what one host prints
 * that runs the whole.
 *
 * Usage: relay [--take-over FILE] [--hand-over FILE] < CALL_TEXTS
 */
#include "rondavitse.h"

#include <stdio.h>
#include <stdlib.h>
#include <string.h>

enum { LONGEST_INPUT = 65536 }; /* the program's */

typedef struct {
    const char *taken_over, *handed_over; /* null where it begins with an empty lane, and where the lane ends with it */
} files;

static void fail(const char *what, const char *why) {
    fprintf(stderr, "relay: %s: %s\n", what, why);
    exit(EXIT_FAILURE);
}

static void expect_accepted(const char *call, uint32_t no) {
    if (no != RONDAVITSE_ACCEPTED) {
        fail(call, rondavitse_words(no));
    }
}

static files files_of(int argc, char **argv) {
    files named = {NULL, NULL};
    for (int i = 1; i < argc; i += 2) {
        if (i + 1 < argc && strcmp(argv[i], "--take-over") == 0) {
            named.taken_over = argv[i + 1];
        } else if (i + 1 < argc && strcmp(argv[i], "--hand-over") == 0) {
            named.handed_over = argv[i + 1];
        } else {
            fail(argv[i], "usage: relay [--take-over FILE] [--hand-over FILE] < CALL_TEXTS");
        }
    }
    return named;
}

/* Up to so many bytes of a file, or of standard input; gives their number. */
static size_t read_bytes(const char *path, uint8_t *bytes, size_t most) {
    FILE *file = path == NULL ? stdin : fopen(path, "rb");
    if (file == NULL) {
        fail(path, "cannot be opened");
    }
    const size_t length = fread(bytes, 1, most, file);
    if (ferror(file)) {
        fail(path == NULL ? "standard input" : path, "cannot be read");
    }
    fclose(file);
    return length;
}

/* After a refusal the lane would be an empty one, and this host does not go on. Of a file that is too long one byte more tells enough. */
static void take_over(rondavitse_lane *lane, const char *path) {
    uint8_t text[RONDAVITSE_LONGEST_HANDOVER + 1];
    const size_t length = read_bytes(path, text, sizeof text);
    expect_accepted("take over", rondavitse_take_over(lane, text, length));
}

/* What is refused leaves the file as it was. A reader of a text that is not yet whole refuses it. */
static void hand_over(const rondavitse_lane *lane, const char *path) {
    uint8_t text[RONDAVITSE_LONGEST_HANDOVER];
    const rondavitse_listed answer = rondavitse_handover(lane, text, sizeof text);
    expect_accepted("hand over", answer.no);
    FILE *file = fopen(path, "wb");
    if (file == NULL || fwrite(text, 1, answer.length, file) != answer.length || fclose(file) != 0) {
        fail(path, "cannot be written");
    }
}

/* The answers are out when this returns, so that those of the next host come after them. */
static void run(rondavitse_lane *lane, const uint8_t *input, size_t length) {
    uint8_t out[RONDAVITSE_ANSWER_BUFFER];
    rondavitse_stepped step = {.next = 0, .stop = false};
    while (!step.stop) {
        step = rondavitse_step(lane, input, length, step.next, out, sizeof out);
        expect_accepted("step", step.no);
        fwrite(out, 1, step.written, stdout);
    }
    if (fflush(stdout) != 0 || ferror(stdout)) {
        fail("standard output", "cannot be written");
    }
}

int main(int argc, char **argv) {
    static uint8_t input[LONGEST_INPUT + 1];
    const files named = files_of(argc, argv);
    rondavitse_lane lane;
    if (rondavitse_version() != RONDAVITSE_VERSION) {
        fail("library", "header and library do not belong together");
    }
    if (named.taken_over == NULL) {
        rondavitse_empty(&lane);
    } else {
        take_over(&lane, named.taken_over);
    }
    const size_t length = read_bytes(NULL, input, sizeof input);
    if (length > LONGEST_INPUT) {
        fail("standard input", rondavitse_words(RONDAVITSE_INPUT_TOO_LONG));
    }
    run(&lane, input, length);
    if (named.handed_over != NULL) {
        hand_over(&lane, named.handed_over);
    }
    return EXIT_SUCCESS;
}
