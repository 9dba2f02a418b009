/* Calls the proved functions through pizhgarol.h: answers, refusals, and that only lent memory is touched (lent.h). */
#include "lent.h"
#include "pizhgarol.h"

static void put_u32(unsigned char *at, uint32_t n)
{
    for (int i = 0; i < 4; i++) {
        at[i] = (unsigned char)(n >> (8 * i));
    }
}

/* A lap file of `laps` laps, each the same commands; returns its size. The machine's f64 is little-endian here. */
static size_t write_file(unsigned char *file, uint32_t laps, const uint8_t *kinds, const double *nums, uint32_t commands)
{
    size_t at = 8 + 8 * (size_t)laps;
    memcpy(file, "LAPS", 4);
    put_u32(file + 4, laps);
    for (uint32_t lap = 0; lap < laps; lap++) {
        put_u32(file + 8 + 8 * lap, (uint32_t)at);
        put_u32(file + 12 + 8 * lap, commands);
        for (uint32_t i = 0; i < commands; i++, at += PZ_COMMAND_BYTES) {
            file[at] = kinds[i];
            memcpy(file + at + 1, nums + 9 * i, 72);
        }
    }
    return at;
}

/* The right angle (0,0),(10,0),(10,10) as a lap. */
static const uint8_t corner_kinds[3] = {PZ_MOVE, PZ_LINE, PZ_LINE};
static const double corner_nums[27] = {[9] = 10, [18] = 10, [19] = 10};

/* (3,4),(4,3),(5,0): at 0.3 one Arc. */
static const double bend[9] = {3, 4, 0, 4, 3, 0, 5, 0, 0};

static void test_points(void)
{
    uint8_t *kinds = lend(2);
    double *nums = lend(144), *points = lend_input(bend, sizeof bend);
    size_t *count = lend(sizeof *count), *ranges = lend(sizeof *ranges);
    uint32_t *worst = lend(8);
    uint32_t r = pz_fit_points_with_primitives(points, 9, 0.3, kinds, 2, nums, 18, worst, 1, count, ranges);
    check(r == PZ_NO_ROOM && kept(worst, 8, 0) && kept(kinds, 2, 0), "a list of worst steps that is too short");
    r = pz_fit_points_with_primitives(points, 9, 0.3, kinds, 2, nums, 18, worst, 2, count, ranges);
    const double arc[9] = {5, 0, 0, -3, -4, 0, 0, 0, -1};
    check(r == PZ_DONE && *count == 1 && kinds[0] == PZ_ARC, "0.3 gives one Arc");
    check(*ranges == 1, "one piece, one range");
    check(worst[0] == 1 && kept(worst, 8, 4), "its second step is the worst, and no more is told");
    check(memcmp(nums, arc, sizeof arc) == 0, "the Arc's end, offset and normal");
    check(kept(kinds, 2, 1) && kept(nums, 144, 72), "no more than one command is written");
    r = pz_fit_points_with_primitives(points, 9, 0.25, kinds, 2, nums, 18, worst, 2, count, ranges);
    check(r == PZ_DONE && *count == 2 && kinds[0] == PZ_LINE && kinds[1] == PZ_LINE, "0.25 gives two Lines");
    check(*ranges == 3, "a cut and two pieces are three ranges");
    check(worst[0] == 0 && worst[1] == 0 && kept(worst, 8, 8), "a Line has no worst step");
    worst[0] = worst[1] = 77;
    check(kept(kinds, 2, 2) && kept(nums, 144, 144) && kept(count, 8, 8), "nothing beside the lent commands is touched");
    r = pz_fit_points_with_primitives(points, 8, 0.25, kinds, 2, nums, 18, worst, 2, count, ranges);
    check(r == PZ_NOT_WHOLE && *count == 2 && *ranges == 3, "eight numbers are not whole points, and nothing is told");
    check(worst[0] == 77 && worst[1] == 77, "no worst step either");
    give_back(kinds, 2);
    give_back(nums, 144);
    give_back(points, sizeof bend);
    give_back(count, sizeof *count);
    give_back(ranges, sizeof *ranges);
    give_back(worst, 8);
}

static void test_thinning(void)
{
    const double line[9] = {0, 0, 0, 10, 0, 0, 20, 0, 0}, plane[6] = {0, 0, 10, 0, 20, 0};
    double *out = lend(72), *flat = lend(48);
    double *in = lend_input(line, sizeof line), *in_plane = lend_input(plane, sizeof plane);
    size_t count = 77;
    uint32_t r = pz_simplify_polyline_3d(in, 9, 0.5, out, 9, &count);
    check(r == PZ_DONE && count == 2 && out[3] == 20 && kept(out, 72, 48), "a straight is thinned to its ends");
    r = pz_simplify_polyline(in_plane, 6, 0.5, flat, 6, &count);
    check(r == PZ_DONE && count == 2 && flat[2] == 20 && kept(flat, 48, 32), "a straight in the plane too");
    give_back(out, 72);
    give_back(flat, 48);
    give_back(in, sizeof line);
    give_back(in_plane, sizeof plane);
}

/* A corner's commands, thinned or fitted, stay as they are; with room for two commands the call is refused. */
static void test_commands(void)
{
    uint8_t *kinds = lend(3), *in_kinds = lend_input(corner_kinds, 3);
    double *nums = lend(216), *in_nums = lend_input(corner_nums, 216);
    size_t count = 77;
    uint32_t r = pz_fit_arcs(in_kinds, 3, in_nums, 27, 0.5, kinds, 2, nums, 27, &count);
    check(r == PZ_NO_ROOM && count == 77 && kept(kinds, 3, 0) && kept(nums, 216, 0), "no room for the most of a fit");
    r = pz_simplify_data(in_kinds, 3, in_nums, 27, 0.5, kinds, 3, nums, 18, &count);
    check(r == PZ_NO_ROOM && count == 77 && kept(kinds, 3, 0) && kept(nums, 216, 0), "no room for the most of thinning");
    r = pz_simplify_data(in_kinds, 3, in_nums, 27, 0.5, kinds, 3, nums, 27, &count);
    check(r == PZ_DONE && count == 3 && memcmp(nums, corner_nums, 216) == 0, "a corner's commands are all kept");
    memset(nums, MARK, 216);
    r = pz_fit_arcs(in_kinds, 3, in_nums, 27, 0.5, kinds, 3, nums, 27, &count);
    check(r == PZ_DONE && count == 3 && memcmp(kinds, corner_kinds, 3) == 0, "a corner is a Move and two Lines");
    check(memcmp(nums, corner_nums, 216) == 0 && kept(nums, 216, 216) && kept(kinds, 3, 3), "and no byte more");
    give_back(kinds, 3);
    give_back(in_kinds, 3);
    give_back(nums, 216);
    give_back(in_nums, 216);
}

/* Out to 100 m and back to 50: as a course all three points stay, since the far turn is far from the segment; thinning the same
   points measures from the endless line, on which it lies. */
static void test_shuttle(void)
{
    const double shuttle[27] = {[9] = 100, [18] = 50}, points[9] = {[3] = 100, [6] = 50};
    uint8_t *kinds = lend(3), *in_kinds = lend_input(corner_kinds, 3);
    double *nums = lend(216), *in_nums = lend_input(shuttle, 216), *in = lend_input(points, 72);
    size_t count = 77;
    uint32_t r = pz_fit_arcs(in_kinds, 3, in_nums, 27, 0.5, kinds, 3, nums, 27, &count);
    check(r == PZ_DONE && count == 3 && memcmp(kinds, corner_kinds, 3) == 0, "a shuttle is a Move and two Lines");
    check(memcmp(nums, shuttle, 216) == 0, "and keeps its far turn");
    r = pz_simplify_polyline_3d(in, 9, 0.5, nums, 27, &count);
    check(r == PZ_DONE && count == 2 && nums[3] == 50, "thinning alone leaves the far turn out");
    give_back(kinds, 3);
    give_back(in_kinds, 3);
    give_back(nums, 216);
    give_back(in_nums, 216);
    give_back(in, 72);
}

/* One call of the fit of a file that must be refused: the number, and every lent byte as it was. */
static void refused(uint32_t number, const unsigned char *file, size_t size, double tolerance, size_t room, const char *what)
{
    unsigned char *out = lend(room), *in = lend_input(file, size);
    size_t count = 77;
    check(pz_fit_file(in, size, tolerance, out, room, &count) == number, what);
    check(kept(out, room, 0) && count == 77, "a refusal changes nothing");
    give_back(out, room);
    give_back(in, size);
}

static void test_refusals(void)
{
    static unsigned char file[PZ_MOST_FILE_BYTES + 1], broken[1024];
    const uint8_t curve[2] = {PZ_MOVE, PZ_BEZIER};
    const double long_curve[18] = {[9] = 900000};
    size_t size = write_file(file, 2, corner_kinds, corner_nums, 3);
    size_t room = pz_file_bytes(2, 6);
    refused(PZ_NOT_WHOLE, file, 7, 0.5, room, "a file under 8 bytes");
    refused(PZ_TOO_MANY, file, PZ_MOST_FILE_BYTES + 1, 0.5, room, "a file of 65,537 bytes");
    refused(PZ_BAD_FILE, file, size - 1, 0.5, room, "a file that ends early");
    memcpy(broken, file, size);
    broken[24] = PZ_LINE;
    refused(PZ_BAD_COMMAND, broken, size, 0.5, room, "a first lap without a Move");
    memcpy(broken, file, size);
    memset(broken + 25, 0xFF, 8);
    refused(PZ_BAD_NUMBER, broken, size, 0.5, room, "an end that is no number");
    refused(PZ_BAD_TOLERANCE, file, size, 0, room, "tolerance 0");
    refused(PZ_NO_ROOM, file, size, 0.5, room - 1, "one byte too few");

    size = write_file(file, 1, curve, long_curve, 2);
    refused(PZ_TOO_MUCH, file, size, 0.001, PZ_MOST_OUTPUT_BYTES, "a Bezier of more than 800 steps");
}

static void test_replacement(void)
{
    unsigned char recorded[1024], fitted[1024];
    const double nums[27] = {3, 4, [9] = 4, 3, [18] = 5, 0};
    size_t size = write_file(recorded, 2, corner_kinds, corner_nums, 3);
    size_t room = pz_file_bytes(2, 6), count = 77, fit_size;
    unsigned char *out = lend(room), *in = lend_input(recorded, size);
    uint32_t r = pz_fit_file(in, size, 0.3, fitted, sizeof fitted, &fit_size);
    check(r == PZ_DONE && fit_size == size, "the fit of a file");
    r = pz_replace_lap(in, size, fitted, fit_size, 0, corner_kinds, 3, nums, 27, 0.3, out, room, &count);
    check(r == PZ_NO_SUCH && count == 77 && kept(out, room, 0), "lap 0 is refused");
    r = pz_replace_lap(in, size, fitted, fit_size, 2, corner_kinds, 3, nums, 27, 0.3, out, room, &count);
    check(r == PZ_DONE && count == pz_file_bytes(2, 5), "lap 2 becomes a Move and an Arc");
    check(memcmp(out + 24, fitted + 24, 3 * PZ_COMMAND_BYTES) == 0, "lap 1 stays as it was fitted");
    check(out[24 + 4 * PZ_COMMAND_BYTES] == PZ_ARC && kept(out, room, count), "and nothing past the file is touched");
    give_back(out, room);
    give_back(in, size);
}

/* Replacement gives the bytes of a fresh fit of the course with the lap replaced. */
static void test_fresh(void)
{
    unsigned char recorded[1024], fitted[1024], fresh[1024], swapped[1024];
    size_t fit_size, fresh_size, swapped_size;
    const double nums[27] = {3, 4, [9] = 4, 3, [18] = 5, 0};
    size_t size = write_file(recorded, 1, corner_kinds, corner_nums, 3);
    pz_fit_file(recorded, size, 0.3, fitted, sizeof fitted, &fit_size);
    pz_replace_lap(recorded, size, fitted, fit_size, 1, corner_kinds, 3, nums, 27, 0.3,
        swapped, sizeof swapped, &swapped_size);
    size = write_file(recorded, 1, corner_kinds, nums, 3);
    pz_fit_file(recorded, size, 0.3, fresh, sizeof fresh, &fresh_size);
    check(fresh_size == swapped_size && memcmp(fresh, swapped, fresh_size) == 0, "replacement and fresh fit agree");
}

/* Lap 2 lacks its Move and starts where lap 1 ends: with a new lap 1 it is fitted again, from the new end. */
static void test_carried(void)
{
    unsigned char recorded[1024], alone[1024], fitted[1024], fresh[1024], swapped[1024];
    size_t fit_size, fresh_size, swapped_size, lap = 3 * PZ_COMMAND_BYTES;
    const double nums[27] = {3, 4, [9] = 4, 3, [18] = 5, 0};
    size_t size = write_file(recorded, 2, corner_kinds, corner_nums, 3);
    recorded[24 + lap] = PZ_LINE;
    check(pz_fit_file(recorded, size, 0.3, fitted, sizeof fitted, &fit_size) == PZ_DONE, "a lap that carries on");
    check(fitted[24 + lap] == PZ_LINE && fit_size == size, "has no Move in its fit");
    check(pz_replace_lap(recorded, size, fitted, fit_size, 1, corner_kinds, 3, nums, 27, 0.3,
        swapped, sizeof swapped, &swapped_size) == PZ_DONE, "the lap before it replaced");
    write_file(alone, 1, corner_kinds, nums, 3);
    memcpy(recorded + 24, alone + 16, lap);
    pz_fit_file(recorded, size, 0.3, fresh, sizeof fresh, &fresh_size);
    check(fresh_size == swapped_size && memcmp(fresh, swapped, fresh_size) == 0, "gives the fresh fit of both");
}

/* 64 laps of 12 commands, in exactly the bytes that document 01 asks for. */
static void test_largest(void)
{
    static unsigned char file[PZ_MOST_FILE_BYTES];
    uint8_t kinds[12] = {PZ_MOVE};
    double nums[108] = {0};
    size_t count = 0;
    for (int i = 1; i < 12; i++) {
        kinds[i] = PZ_LINE;
        nums[9 * i] = 10 * i;
        nums[9 * i + 1] = i % 2 ? 10 : 0;
    }
    size_t size = write_file(file, 64, kinds, nums, 12), room = pz_file_bytes(64, 768);
    unsigned char *out = lend(room), *in = lend_input(file, size);
    check(pz_fit_file(in, size, 0.5, out, room, &count) == PZ_DONE, "64 laps of 12 commands");
    check(count == size && memcmp(out, file, size) == 0 && kept(out, room, count), "a zigzag fits to itself");
    check(pz_file_bytes(64, 800) == PZ_MOST_OUTPUT_BYTES, "the largest output");
    give_back(out, room);
    give_back(in, size);
}

int main(void)
{
    test_points();
    test_thinning();
    test_commands();
    test_shuttle();
    test_refusals();
    test_replacement();
    test_fresh();
    test_carried();
    test_largest();
    printf("firmware: %d checks, %d wrong\n", checks, failures);
    return failures != 0;
}
