/* Which refusal a lap file meets, read off the papers' words and apart from the proved code: rows 1 to 5 of document 01's table. It is
   compiled with what the compiler can watch, so it also leads a guided fuzzer, which does not see into the archive. */
#ifndef ROWS_H
#define ROWS_H

#include <math.h>
#include <stdbool.h>
#include <string.h>
#include "../pizhgarol.h"

/* What a file is found to be: the first row that refuses it, 0 for none; and behind row 3, its laps. */
struct view {
    uint32_t row, laps, commands, count[PZ_MOST_LAPS];
    size_t at[PZ_MOST_LAPS];
    bool curves;
};

static uint32_t u32_at(const uint8_t *file, size_t at)
{
    return file[at] | (uint32_t)file[at + 1] << 8 | (uint32_t)file[at + 2] << 16 | (uint32_t)file[at + 3] << 24;
}

static double number_at(const uint8_t *command, int i)
{
    double x;
    memcpy(&x, command + 1 + 8 * i, 8);
    return x;
}

/* "Wrong mark or table": the bodies stand in the table's order, without gaps, to the file's end. */
static bool table_passes(const uint8_t *file, size_t size, struct view *v)
{
    size_t at = 8 + 8 * (size_t)v->laps;
    if (memcmp(file, "LAPS", 4) || size < at) {
        return false;
    }
    for (uint32_t lap = 0; lap < v->laps; lap++) {
        uint32_t count = u32_at(file, 12 + 8 * lap);
        if (u32_at(file, 8 + 8 * lap) != at || count < 1 || count > PZ_MOST_COMMANDS - v->commands) {
            return false;
        }
        v->at[lap] = at;
        v->count[lap] = count;
        v->commands += count;
        at += PZ_COMMAND_BYTES * (size_t)count;
    }
    return at == size;
}

/* "Unknown kind, unused number not +0, or in a lap a Move missing or misplaced"; "a lap after the first may lack its Move". */
static bool form_passes(const uint8_t *command, bool first, bool first_lap)
{
    static const uint8_t zeros[48];
    uint8_t kind = command[0];
    bool misplaced = kind == PZ_MOVE ? !first : first && first_lap;
    if (kind > PZ_BEZIER || misplaced) {
        return false;
    }
    return kind == PZ_ARC || kind == PZ_BEZIER || !memcmp(command + 25, zeros, 48);
}

/* "Ends and controls: finite, at most 1,000,000 from zero in each coordinate. Centre offsets and normals: finite." */
static bool numbers_pass(const uint8_t *command)
{
    for (int i = 0; i < (int)PZ_COMMAND_NUMBERS; i++) {
        double x = number_at(command, i);
        if (!isfinite(x) || ((i < 3 || command[0] == PZ_BEZIER) && fabs(x) > 1e6)) {
            return false;
        }
    }
    return true;
}

static struct view look(const uint8_t *file, size_t size)
{
    struct view v = {0};
    bool form = true, numbers = true;
    if (size < 8) {
        v.row = PZ_NOT_WHOLE;
        return v;
    }
    v.laps = u32_at(file, 4);
    if (size > PZ_MOST_FILE_BYTES || v.laps > PZ_MOST_LAPS) {
        v.row = PZ_TOO_MANY;
        return v;
    }
    if (!table_passes(file, size, &v)) {
        v.row = PZ_BAD_FILE;
        return v;
    }
    for (uint32_t lap = 0; lap < v.laps; lap++) {
        for (uint32_t i = 0; i < v.count[lap]; i++) {
            const uint8_t *command = file + v.at[lap] + PZ_COMMAND_BYTES * (size_t)i;
            form = form && form_passes(command, i == 0, lap == 0);
            numbers = numbers && numbers_pass(command);
            v.curves = v.curves || command[0] == PZ_BEZIER;
        }
    }
    v.row = !form ? PZ_BAD_COMMAND : !numbers ? PZ_BAD_NUMBER : 0;
    return v;
}

static bool tolerance_passes(double tolerance)
{
    return tolerance >= 0.001 && tolerance <= 1000;
}

#endif
