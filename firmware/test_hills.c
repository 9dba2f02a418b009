/* The fit for hills, through pizhgarol.h: climbs that stay, Arcs that are kept and none that is made, laps that carry on, refusals in
   their order, and that only lent memory is touched (lent.h). */
#include "lent.h"
#include "pizhgarol.h"

#define MOST 8

/* A file of one lap, from kinds and numbers; its bytes. */
static size_t write_lap(unsigned char *file, const uint8_t *kinds, const double *nums, size_t commands)
{
    memcpy(file, "LAPS\1\0\0\0\20\0\0\0\0\0\0\0", 16);
    file[12] = (unsigned char)commands;
    for (size_t i = 0; i < commands; i++) {
        file[16 + PZ_COMMAND_BYTES * i] = kinds[i];
        memcpy(file + 17 + PZ_COMMAND_BYTES * i, nums + 9 * i, 72);
    }
    return pz_file_bytes(1, commands);
}

/* The same of a Move and Lines to points in space. */
static size_t write_points(unsigned char *file, const double *points, size_t count)
{
    static const uint8_t kinds[MOST] = {PZ_MOVE, PZ_LINE, PZ_LINE, PZ_LINE, PZ_LINE, PZ_LINE, PZ_LINE, PZ_LINE};
    double nums[9 * MOST] = {0};
    for (size_t i = 0; i < count; i++) {
        memcpy(nums + 9 * i, points + 3 * i, 24);
    }
    return write_lap(file, kinds, nums, count);
}

/* Whether the fit of points keeps those of a list of places, each from 0, and nothing behind the file is touched. */
static int keeps(const double *points, size_t count, double tolerance, const size_t *places, size_t left)
{
    unsigned char file[1024], expected[1024];
    double ends[3 * MOST];
    size_t size = write_points(file, points, count), written = 77;
    unsigned char *in = lend_input(file, size), *out = lend(size);
    uint32_t answer = pz_fit_hills(in, size, tolerance, out, size, &written);
    for (size_t i = 0; i < left; i++) {
        memcpy(ends + 3 * i, points + 3 * places[i], 24);
    }
    size_t needed = write_points(expected, ends, left);
    int right = answer == PZ_DONE && written == needed && memcmp(out, expected, needed) == 0 && kept(out, size, needed);
    give_back(in, size);
    give_back(out, size);
    return right;
}

static void test_climbs(void)
{
    const size_t all[3] = {0, 1, 2}, ends[2] = {0, 2};
    const double summit[9] = {0, 0, 0, 50, 0, 30, 100, 0, 0}, slope[9] = {0, 0, 0, 50, 0, 25, 100, 0, 50};
    const double at[9] = {0, 0, 0, 50, 0, 0.5, 100, 0, 0}, above[9] = {0, 0, 0, 50, 0, 0.5000000000000001, 100, 0, 0};
    const double up_and_down[9] = {0, 0, 0, 0, 0, 100, 0, 0, 50}, shuttle[9] = {0, 0, 7, 100, 0, 7, 50, 0, 7};
    const double beside[9] = {0, 0, 0.2, 0, 0, 1, 0, 0, 0.9};
    check(keeps(summit, 3, 0.5, all, 3), "a summit stays");
    check(keeps(slope, 3, 0.5, ends, 2), "an even slope is one Line");
    check(keeps(at, 3, 0.5, ends, 2), "a summit at the tolerance goes");
    check(keeps(above, 3, 0.5, all, 3), "one just above it stays");
    check(keeps(up_and_down, 3, 0.5, all, 3), "straight up and half-way down: the top stays");
    check(keeps(shuttle, 3, 0.5, all, 3), "out and back on the level: the far turn stays");
    check(keeps(beside, 3, 0.1, all, 3), "the foot is start + 1 * (end - start) in height too");
}

/* Points that share one z, zeros of either sign: those that the flat fit's thinning keeps. */
static void test_level(void)
{
    const size_t left[4] = {0, 2, 3, 4};
    const double level[15] = {0, 0, 0, 40, 0.25, -0.0, 80, 0, 0, 60, 0, -0.0, 60, 9, 0};
    check(keeps(level, 5, 0.5, left, 4), "on the level the thinned points stay, with the signs of their zeros");
}

/* A bend, of which the flat fit makes an Arc; and a recorded Arc, which stays. */
static void test_arcs(void)
{
    const size_t all[3] = {0, 1, 2};
    const double bend[9] = {3, 4, 0, 4, 3, 0, 5, 0, 0};
    const uint8_t kinds[4] = {PZ_MOVE, PZ_LINE, PZ_ARC, PZ_LINE};
    const double nums[36] = {[9] = 4, 0, 3, [18] = 9, 4, 7, 2, 2, 0, 0, 0, 1, [27] = 9, 9, 0};
    unsigned char file[1024], out[1024];
    size_t size = write_points(file, bend, 3), count = 0;
    check(pz_fit_file(file, size, 0.3, out, sizeof out, &count) == PZ_DONE && out[16 + PZ_COMMAND_BYTES] == PZ_ARC, "flat, a bend is an Arc");
    check(keeps(bend, 3, 0.3, all, 3), "and in hills two Lines");
    size = write_lap(file, kinds, nums, 4);
    check(pz_fit_hills(file, size, 0.5, out, sizeof out, &count) == PZ_DONE && count == size, "a lap with an Arc");
    check(memcmp(out, file, size) == 0, "stays as it was recorded");
}

/* Lap 2 lacks its Move and starts at the end of lap 1, in height too. */
static void test_carried(void)
{
    const double climb[9] = {0, 0, 0, 50, 0, 40, 100, 0, 80}, on[9] = {0, 0, 0, 150, 0, 40, 200, 0, 0};
    unsigned char first[1024], second[1024], both[1024], out[1024];
    size_t lap = 2 * PZ_COMMAND_BYTES, count = 0, size = pz_file_bytes(2, 5);
    write_points(first, climb, 3);
    write_points(second, on, 3);
    memcpy(both, "LAPS\2\0\0\0\30\0\0\0\3\0\0\0\0\0\0\0\2\0\0\0", 24);
    both[16] = 24 + 3 * PZ_COMMAND_BYTES;
    memcpy(both + 24, first + 16, 3 * PZ_COMMAND_BYTES);
    memcpy(both + 24 + 3 * PZ_COMMAND_BYTES, second + 16 + PZ_COMMAND_BYTES, lap);
    check(pz_fit_hills(both, size, 0.5, out, sizeof out, &count) == PZ_DONE, "a lap that carries on");
    check(count == pz_file_bytes(2, 3) && out[24 + lap] == PZ_LINE, "is one slope down from where the climb ended");
    check(memcmp(out + 24 + lap, second + 16 + lap, PZ_COMMAND_BYTES) == 0, "to its own end");
}

static void refused(uint32_t number, const unsigned char *file, size_t size, double tolerance, size_t room, const char *what)
{
    unsigned char *out = lend(room), *in = lend_input(file, size);
    size_t count = 77;
    check(pz_fit_hills(in, size, tolerance, out, room, &count) == number, what);
    check(kept(out, room, 0) && count == 77, "a refusal changes nothing");
    give_back(out, room);
    give_back(in, size);
}

static void test_refusals(void)
{
    static unsigned char file[PZ_MOST_FILE_BYTES + 1], broken[1024];
    const double climb[9] = {0, 0, 0, 50, 0, 40, 100, 0, 80}, high[6] = {[5] = 1000000.0000000001};
    const uint8_t curve[2] = {PZ_MOVE, PZ_BEZIER};
    const double long_curve[18] = {[9] = 900000};
    size_t size = write_points(file, climb, 3);
    refused(PZ_NOT_WHOLE, file, 7, 0, size, "a file under 8 bytes, with a tolerance of 0");
    refused(PZ_TOO_MANY, file, PZ_MOST_FILE_BYTES + 1, 0, size, "a file of 65,537 bytes");
    refused(PZ_BAD_FILE, file, size - 1, 0, size, "a file that ends early");
    memcpy(broken, file, size);
    broken[16] = PZ_LINE;
    refused(PZ_BAD_COMMAND, broken, size, 0, size, "a first lap without a Move");
    refused(PZ_BAD_NUMBER, broken, write_points(broken, high, 2), 0, size, "a height past the limit");
    refused(PZ_BAD_TOLERANCE, file, size, 0, 0, "tolerance 0");
    refused(PZ_NO_ROOM, file, size, 0.5, size - 1, "one byte too few");
    size = write_lap(broken, curve, long_curve, 2);
    refused(PZ_TOO_MUCH, broken, size, 0.001, 0, "a Bezier of more than 800 steps");
}

int main(void)
{
    test_climbs();
    test_level();
    test_arcs();
    test_carried();
    test_refusals();
    printf("firmware, hills: %d checks, %d wrong\n", checks, failures);
    return failures != 0;
}
