/* Calls pz_read_course through pizhgarol.h: files, refusals in their order, and that only lent memory is touched (lent.h). */
#include "lent.h"
#include "pizhgarol.h"

#define UNTOUCHED 12345u

struct read {
    uint32_t answer;
    size_t count, room;
    uint8_t *out;
};

/* Reads a text of so many bytes into an output of `room` bytes, and checks what the call left alone. */
static struct read read_bytes(const char *text, size_t size, size_t room, const char *what)
{
    uint8_t *input = lend_input(text, size);
    struct read r = { 0, UNTOUCHED, room, lend(room) };
    r.answer = pz_read_course(input, size, r.out, room, &r.count);
    check((r.answer == PZ_DONE) != (r.count == UNTOUCHED), what);
    check(kept(r.out, room, r.answer == PZ_DONE ? r.count : 0), what);
    give_back(input, size);
    return r;
}

static void done_with(struct read r)
{
    give_back(r.out, r.room);
}

static void refuses(const char *text, size_t room, uint32_t number)
{
    struct read r = read_bytes(text, strlen(text), room, text);
    check(r.answer == number, text);
    done_with(r);
}

/* `count` times an item, with single spaces between. */
static char *repeated(const char *first, const char *item, size_t count)
{
    char *text = malloc(strlen(first) + count * (strlen(item) + 1) + 1);
    size_t at = (size_t)sprintf(text, "%s", first);
    for (size_t i = 0; i < count; i++) {
        at += (size_t)sprintf(text + at, at ? " %s" : "%s", item);
    }
    return text;
}

static void put_u32(uint8_t *at, uint32_t n)
{
    for (int i = 0; i < 4; i++) {
        at[i] = (uint8_t)(n >> 8 * i);
    }
}

/* A command of so many numbers, in the file's order. */
static void put_command(uint8_t *at, uint8_t kind, const double *nine)
{
    at[0] = kind;
    memcpy(at + 1, nine, 72);
}

/* Two laps: a Move with a Line, and a Move with a Bezier, whose end stands last in the text and first in the file. */
static void reads_two_laps(void)
{
    static const double moved[9] = { 1.5, -2.25 }, line[9] = { -0.001, 0 }, second[9] = { 1000000, -1000000 },
                        curve[9] = { 5, 6, 0, 1, 2, 0, 3, 4, 0 };
    const char *text = "M 1.5 -2.25 L -0.001 -0 M 1000000 -1000000.000 C 1 2 3 4 5 6";
    uint8_t expected[8 + 16 + 4 * 73];
    struct read r = read_bytes(text, strlen(text), sizeof expected, "two laps");
    memcpy(expected, "LAPS", 4);
    put_u32(expected + 4, 2);
    put_u32(expected + 8, 24);
    put_u32(expected + 12, 2);
    put_u32(expected + 16, 24 + 2 * 73);
    put_u32(expected + 20, 2);
    put_command(expected + 24, PZ_MOVE, moved);
    put_command(expected + 24 + 73, PZ_LINE, line);
    put_command(expected + 24 + 2 * 73, PZ_MOVE, second);
    put_command(expected + 24 + 3 * 73, PZ_BEZIER, curve);
    check(r.answer == PZ_DONE && r.count == sizeof expected, "two laps");
    check(!memcmp(r.out, expected, sizeof expected), "the bytes of two laps");
    done_with(r);
}

static void reads_nothing(void)
{
    struct read r = read_bytes("", 0, 8, "no text");
    check(r.answer == PZ_DONE && r.count == 8 && !memcmp(r.out, "LAPS\0\0\0\0", 8), "no text");
    done_with(r);
    refuses("", 7, PZ_NO_ROOM);
}

static void breaks_rules(void)
{
    static const char *const texts[] = {
        " ", "M 1 2 ", " M 1 2", "M  1 2", "M 1  2", "M 1 2  L 3 4", "M 1,2", "M1 2", "m 1 2", "L 1 2", "M 1 2 Z", "M 1 2 3 4",
        "M 1", "M 1 2 C 1 2 3 4", "M 12345678 2", "M 1.2345 2", "M 1. 2", "M .5 2", "M +1 2", "M --1 2", "M 1e3 2", "M 1 2\n",
        "M 1 2 H 3", "M 1 2\tL 3 4", "M 1 - 2", "M 1 2 l 3 4",
    };
    for (size_t i = 0; i < sizeof texts / sizeof *texts; i++) {
        refuses(texts[i], PZ_MOST_OUTPUT_BYTES, PZ_BAD_TEXT);
    }
}

/* The rows in their order: each text falls under its own and under all behind it. */
static void refuses_in_order(void)
{
    char *long_text = repeated("", "m", PZ_MOST_TEXT_BYTES / 2 + 1);
    char *full = repeated("M 0 0", "L 1 1", PZ_MOST_COMMANDS - 1), *many = repeated("M 0 0", "L 9999999 1", PZ_MOST_COMMANDS);
    char *laps = repeated("", "M 1 1", PZ_MOST_LAPS), *more_laps = repeated("", "M 9999999 1", PZ_MOST_LAPS + 1);
    struct read r;
    check(strlen(long_text) == PZ_MOST_TEXT_BYTES + 1, "a text one byte too long");
    refuses(long_text, 0, PZ_TOO_MANY);
    long_text[PZ_MOST_TEXT_BYTES] = 0;
    refuses(long_text, 0, PZ_BAD_TEXT);
    refuses(many, 0, PZ_TOO_MANY);
    refuses(more_laps, 0, PZ_TOO_MANY);
    refuses("M 1000000.001 0", 0, PZ_BAD_NUMBER);
    refuses("M 0 -1000000.001", PZ_MOST_OUTPUT_BYTES, PZ_BAD_NUMBER);
    refuses("M 1 2", pz_file_bytes(1, 1) - 1, PZ_NO_ROOM);
    refuses(full, pz_file_bytes(1, PZ_MOST_COMMANDS) - 1, PZ_NO_ROOM);
    r = read_bytes(full, strlen(full), pz_file_bytes(1, PZ_MOST_COMMANDS), "800 commands");
    check(r.answer == PZ_DONE && r.count == pz_file_bytes(1, PZ_MOST_COMMANDS), "800 commands");
    done_with(r);
    r = read_bytes(laps, strlen(laps), pz_file_bytes(PZ_MOST_LAPS, PZ_MOST_LAPS), "64 laps");
    check(r.answer == PZ_DONE && r.count == pz_file_bytes(PZ_MOST_LAPS, PZ_MOST_LAPS), "64 laps");
    done_with(r);
    free(long_text);
    free(full);
    free(many);
    free(laps);
    free(more_laps);
}

/* What was read is fitted. */
static void fits_what_was_read(void)
{
    const char *text = "M 0 0 L 10 0 L 20 0 C 25 0 30 5 30 10 L 30 20";
    struct read r = read_bytes(text, strlen(text), PZ_MOST_OUTPUT_BYTES, text);
    uint8_t *fitted = lend(PZ_MOST_OUTPUT_BYTES);
    size_t count = 0;
    check(pz_fit_file(r.out, r.count, 0.5, fitted, PZ_MOST_OUTPUT_BYTES, &count) == PZ_DONE, "the fit of a course that was read");
    check(count == pz_file_bytes(1, fitted[12]) && !memcmp(fitted, "LAPS\1\0\0\0\20\0\0\0", 12), "its bytes");
    done_with(r);
    give_back(fitted, PZ_MOST_OUTPUT_BYTES);
}

int main(void)
{
    reads_two_laps();
    reads_nothing();
    breaks_rules();
    refuses_in_order();
    fits_what_was_read();
    printf("path data: %d checks, %d wrong\n", checks, failures);
    return failures != 0;
}
