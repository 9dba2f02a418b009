/* One call each of what reads files, on memory that ends where a page ends that nothing may touch; and what must hold of its answer:
   the refusal is the one that rows.h finds, a refusal leaves all lent memory, an accepted call writes a file at the front of its
   output and nothing else. The first fault prints the case and ends the run. */
#ifndef CALLS_H
#define CALLS_H

#include <stdio.h>
#include <stdlib.h>
#include <sys/mman.h>
#include "rows.h"

#define MARK 0xA5
#define UNTOUCHED 12345u

/* 17 pages hold the greatest input, the greatest output, and the numbers of more commands than there may be. */
#define LENT (17u * 4096u)

/* Where the pages of a list end. */
static uint8_t *recorded_end, *fitted_end, *kinds_end, *nums_end, *out_end;
static uint64_t case_number;

static void fault(const char *what)
{
    fprintf(stderr, "wrong in case %llu: %s\n", (unsigned long long)case_number, what);
    abort();
}

static void hold(bool right, const char *what)
{
    if (!right) {
        fault(what);
    }
}

static uint8_t *make_pages(void)
{
    uint8_t *pages = mmap(NULL, LENT + 4096, PROT_READ | PROT_WRITE, MAP_PRIVATE | MAP_ANONYMOUS, -1, 0);
    if (pages == MAP_FAILED || mprotect(pages + LENT, 4096, PROT_NONE)) {
        perror("mmap");
        exit(2);
    }
    return pages + LENT;
}

static void make_all_pages(void)
{
    recorded_end = make_pages();
    fitted_end = make_pages();
    kinds_end = make_pages();
    nums_end = make_pages();
    out_end = make_pages();
}

/* No bytes have no pointer. */
static const uint8_t *lend_bytes(uint8_t *end, const uint8_t *bytes, size_t size)
{
    return size ? memcpy(end - size, bytes, size) : NULL;
}

/* An output of so many bytes, all marked, with the marks of a command in front of it. */
static uint8_t *lend_out(size_t room)
{
    uint8_t *at = out_end - room;
    memset(at - PZ_COMMAND_BYTES, MARK, room + PZ_COMMAND_BYTES);
    return at;
}

static void hold_marks(const uint8_t *out, size_t room, size_t used)
{
    static uint8_t marks[LENT];
    if (!marks[0]) {
        memset(marks, MARK, sizeof marks);
    }
    hold(!memcmp(out - PZ_COMMAND_BYTES, marks, PZ_COMMAND_BYTES), "a byte before the output is changed");
    hold(!memcmp(out + used, marks, room - used), "a byte behind what was written is changed");
}

/* Laps of a fitted file: as many as were recorded, from the recorded Move, or without one, to the recorded end, and no more
   commands where there are no curves, whose steps count. */
static void hold_fit(const uint8_t *file, const struct view *v, const uint8_t *fit, size_t size)
{
    struct view f = look(fit, size);
    hold(f.row == 0 && !f.curves && f.laps == v->laps, "the fit is no file of as many laps");
    for (uint32_t lap = 0; lap < v->laps; lap++) {
        const uint8_t *last = file + v->at[lap] + PZ_COMMAND_BYTES * (size_t)(v->count[lap] - 1);
        const uint8_t *fitted_last = fit + f.at[lap] + PZ_COMMAND_BYTES * (size_t)(f.count[lap] - 1);
        const uint8_t *first = file + v->at[lap], *fitted_first = fit + f.at[lap];
        hold(first[0] == PZ_MOVE ? !memcmp(first, fitted_first, PZ_COMMAND_BYTES) : fitted_first[0] != PZ_MOVE, "a lap starts elsewhere");
        hold(v->curves || !memcmp(last + 1, fitted_last + 1, 24), "a lap ends elsewhere");
        hold(v->curves || f.count[lap] <= v->count[lap], "a lap has more commands than were recorded");
    }
}

/* A fit of a file: the flat one, or that for hills, which makes no Arc and keeps each recorded one. */
typedef uint32_t (*fitter)(const uint8_t *, size_t, double, uint8_t *, size_t, size_t *);

static uint32_t arcs_in(const uint8_t *file, const struct view *v, uint32_t lap)
{
    uint32_t arcs = 0;
    for (uint32_t i = 0; i < v->count[lap]; i++) {
        arcs += file[v->at[lap] + PZ_COMMAND_BYTES * (size_t)i] == PZ_ARC;
    }
    return arcs;
}

static void hold_arcs(const uint8_t *file, const struct view *v, const uint8_t *fit, size_t size)
{
    struct view f = look(fit, size);
    for (uint32_t lap = 0; lap < v->laps; lap++) {
        hold(arcs_in(fit, &f, lap) == arcs_in(file, v, lap), "a hill fit has other Arcs than were recorded");
    }
}

/* A fit of a file to an output of so many bytes; its answer. */
static uint32_t try_fit(fitter fit_by, const uint8_t *file, size_t size, double tolerance, size_t room)
{
    struct view v = look(file, size);
    size_t count = UNTOUCHED, needed = pz_file_bytes(v.laps, v.commands);
    const uint8_t *in = lend_bytes(recorded_end, file, size);
    uint8_t *out = lend_out(room);
    uint32_t answer = fit_by(in, size, tolerance, room ? out : NULL, room, &count);
    uint32_t row = v.row ? v.row : !tolerance_passes(tolerance) ? PZ_BAD_TOLERANCE : room < needed ? PZ_NO_ROOM : PZ_DONE;
    bool by_steps = !v.row && v.curves && tolerance_passes(tolerance);
    hold(answer == row || (by_steps && (answer == PZ_TOO_MUCH || answer == PZ_NO_ROOM || answer == PZ_DONE)), "another refusal of a fit");
    hold(!size || !memcmp(in, file, size), "the recorded file is changed");
    if (answer == PZ_DONE) {
        hold(count <= room, "more is told than there is room for");
        hold_fit(file, &v, out, count);
        if (fit_by == pz_fit_hills) {
            hold_arcs(file, &v, out, count);
        }
    }
    hold((answer == PZ_DONE) != (count == UNTOUCHED), "a count of a refusal, or none of an answer");
    hold_marks(out, room, answer == PZ_DONE ? count : 0);
    return answer;
}

/* The new commands of a replacement, as a file holds them, and how many numbers are lent for them. */
struct lap {
    const uint8_t *bytes;
    size_t commands, numbers;
};

/* The first row that refuses the new commands alone, 0 for none: they are lent as kinds and numbers, and are lap `lap`. */
static uint32_t lap_row(const struct lap *l, size_t lap, bool *curves)
{
    bool form = l->commands > 0, numbers = true;
    for (size_t i = 0; i < l->commands; i++) {
        const uint8_t *command = l->bytes + PZ_COMMAND_BYTES * i;
        form = form && form_passes(command, i == 0, lap <= 1);
        numbers = numbers && numbers_pass(command);
        *curves = *curves || command[0] == PZ_BEZIER;
    }
    return l->numbers != PZ_COMMAND_NUMBERS * l->commands ? PZ_NOT_WHOLE
        : l->commands > PZ_MOST_COMMANDS                  ? PZ_TOO_MANY
        : !form                                           ? PZ_BAD_COMMAND
        : !numbers                                        ? PZ_BAD_NUMBER
                                                          : 0;
}

static uint32_t first_of(uint32_t row, uint32_t other)
{
    return !row || (other && other < row) ? other : row;
}

/* Kinds and numbers at the ends of their pages. */
static void lend_lap(const struct lap *l, const uint8_t **kinds, const double **nums)
{
    uint8_t *kind = kinds_end - l->commands, *number = nums_end - 8 * l->numbers;
    for (size_t i = 0; i < l->commands; i++) {
        kind[i] = l->bytes[PZ_COMMAND_BYTES * i];
    }
    for (size_t i = 0; i < l->numbers; i++) {
        memcpy(number + 8 * i, l->bytes + PZ_COMMAND_BYTES * (i / 9) + 1 + 8 * (i % 9), 8);
    }
    *kinds = kind;
    *nums = (const double *)(const void *)number;
}

/* All laps but the new one, and the next where that is fitted again, are those of the fitted file. */
static void hold_replacement(const uint8_t *fit, const struct view *f, size_t lap, bool next, const uint8_t *out, size_t count)
{
    struct view r = look(out, count);
    hold(r.row == 0 || (f->row && r.row >= f->row), "the new file is refused for more than the fitted one");
    hold(r.laps == f->laps, "the new file has other laps");
    for (uint32_t i = 0; i < f->laps; i++) {
        hold(i == lap - 1 || (next && i == lap) || (r.count[i] == f->count[i] && !memcmp(out + r.at[i], fit + f->at[i], PZ_COMMAND_BYTES * (size_t)f->count[i])),
            "another lap is changed");
    }
}

/* New commands in the place of lap `lap`, to an output with so many bytes less than it needs. Of the fitted file rows 1 to 3 are
   checked, of the recorded one and of the new commands all. */
static uint32_t try_replacement(const uint8_t *file, size_t size, const uint8_t *fit, size_t fit_size, size_t lap, const struct lap *l,
    double tolerance, size_t less)
{
    struct view v = look(file, size), f = look(fit, fit_size);
    bool curves = false;
    uint32_t row = first_of(first_of(v.row, f.row <= PZ_BAD_FILE ? f.row : 0), lap_row(l, lap, &curves));
    row = first_of(row, v.laps != f.laps ? PZ_BAD_FILE : 0);
    row = row ? row : !tolerance_passes(tolerance) ? PZ_BAD_TOLERANCE : lap < 1 || lap > v.laps ? PZ_NO_SUCH : 0;
    bool next = !row && lap < v.laps && file[v.at[lap]] != PZ_MOVE;
    size_t most = row ? 0 : f.commands - f.count[lap - 1] + l->commands, count = UNTOUCHED;
    if (next) {
        most = most - f.count[lap] + v.count[lap];
        curves = curves || v.curves;
    }
    size_t room = row || curves || most > PZ_MOST_COMMANDS ? PZ_MOST_OUTPUT_BYTES : pz_file_bytes(f.laps, most) - less;
    bool by_steps = !row && curves;
    row = row ? row : most > PZ_MOST_COMMANDS ? PZ_TOO_MUCH : room < pz_file_bytes(f.laps, most) ? PZ_NO_ROOM : PZ_DONE;
    const uint8_t *in = lend_bytes(recorded_end, file, size), *fitted = lend_bytes(fitted_end, fit, fit_size), *kinds;
    const double *nums;
    lend_lap(l, &kinds, &nums);
    uint8_t *out = lend_out(room);
    uint32_t answer = pz_replace_lap(in, size, fitted, fit_size, lap, kinds, l->commands, nums, l->numbers, tolerance, out, room, &count);
    hold(answer == row || (by_steps && (answer == PZ_TOO_MUCH || answer == PZ_DONE)), "another refusal of a replacement");
    hold((answer == PZ_DONE) != (count == UNTOUCHED), "a count of a refusal, or none of an answer");
    hold_marks(out, room, answer == PZ_DONE ? count : 0);
    if (answer == PZ_DONE) {
        hold_replacement(fit, &f, lap, next, out, count);
    }
    return answer;
}

/* Path data: refused by its own rows, or read to a file that the fit takes. */
static uint32_t try_text(const uint8_t *text, size_t size)
{
    size_t count = UNTOUCHED, room = PZ_MOST_OUTPUT_BYTES;
    const uint8_t *in = lend_bytes(recorded_end, text, size);
    uint8_t *out = lend_out(room);
    uint32_t answer = pz_read_course(in, size, out, room, &count);
    hold(answer == PZ_DONE || answer == PZ_TOO_MANY || answer == PZ_BAD_NUMBER || answer == PZ_BAD_TEXT, "another refusal of a text");
    hold((answer == PZ_DONE) != (count == UNTOUCHED), "a count of a refusal, or none of an answer");
    hold_marks(out, room, answer == PZ_DONE ? count : 0);
    hold(answer != PZ_DONE || look(out, count).row == 0, "a text is read to no file");
    return answer;
}

#endif
