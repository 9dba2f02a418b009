/* The parts of a fit, the curves and the numbers, through pizhgarol.h: an answer of each function, its refusals in their order, that
   a refusal leaves all lent memory, and that nothing beside it is touched (lent.h). */
#include <math.h>
#include "lent.h"
#include "pizhgarol.h"

#define FAR 1000000.5
#define UNTOUCHED 12345u

/* Four points on the circle of radius 5 round (0, 0), clockwise, and three on a line. */
static const double round_points[12] = {3, 4, 0, 4, 3, 0, 5, 0, 0, 4, -3, 0};
static const double straight[9] = {0, 0, 0, 10, 0, 5, 20, 0, 10};

static void test_version(void)
{
    check(pz_version() == PZ_VERSION, "the archive is of the header's version");
}

static void test_numbers(void)
{
    check(pz_sqrt(25) == 5 && pz_sqrt(2) == sqrt(2) && isnan(pz_sqrt(-1)), "roots");
    check(pz_ceil(1.25) == 2 && pz_ceil(-1.25) == -1, "ceilings");
    check(pz_abs(-3) == 3 && !signbit(pz_abs(-0.0)), "absolute values");
    check(pz_max(2, 3) == 3 && pz_max(NAN, 3) == 3 && pz_max(2, NAN) == 2, "the greater");
    check(pz_clamp(5, 0, 1) == 1 && pz_clamp(-5, 0, 1) == 0 && pz_clamp(0.5, 0, 1) == 0.5, "kept within");
}

static void test_deviations(void)
{
    double *points = lend_input(round_points, sizeof round_points), dist = -1;
    size_t index = UNTOUCHED;
    check(pz_get_polyline_line_deviation(points, 12, 0, 2, &dist, &index) == PZ_DONE && index == 1, "the farthest point");
    check(dist == 2 / sqrt(20), "and how far it is");
    dist = -1;
    check(pz_get_polyline_line_deviation(points, 11, 0, 9, &dist, &index) == PZ_NOT_WHOLE, "eleven numbers come before the index");
    check(pz_get_polyline_line_deviation(points, 12, 0, 4, &dist, &index) == PZ_NO_SUCH && dist == -1 && index == 1, "index 4 of 4");
    check(pz_get_polyline_arc_deviation(points, 12, 0, 0, 5, &dist, &index) == PZ_DONE && dist > 0 && dist < 0.5, "steps inside a circle");
    check(index == 1, "the second step is the first of two that are longest");
    dist = -1, index = UNTOUCHED;
    check(pz_get_polyline_arc_deviation(points, 12, 0, 0, -1, &dist, &index) == PZ_BAD_NUMBER && dist == -1, "a radius below 0");
    check(pz_get_polyline_arc_deviation(points, 12, 1e13, 0, 5, &dist, &index) == PZ_BAD_NUMBER && dist == -1, "a centre too far");
    check(index == UNTOUCHED, "refusals leave the index too");
    give_back(points, sizeof round_points);
}

static void test_ranges(void)
{
    double *points = lend_input(round_points, sizeof round_points), *nums = lend(2 * 72);
    uint8_t *kinds = lend(2);
    uint32_t *worst = lend(8);
    size_t count = UNTOUCHED;
    check(pz_fit_points_recursive(points, 12, 0.25, 1, 3, kinds, 1, nums, 18, worst, 2, &count) == PZ_NO_ROOM, "room for one of two");
    check(pz_fit_points_recursive(points, 12, 0.25, 1, 3, kinds, 2, nums, 18, worst, 1, &count) == PZ_NO_ROOM, "or for one worst step");
    check(pz_fit_points_recursive(points, 12, 0.25, 1, 4, kinds, 1, nums, 18, worst, 2, &count) == PZ_NO_SUCH, "the index comes first");
    check(pz_fit_points_recursive(points, 12, 0, 1, 4, kinds, 1, nums, 18, worst, 2, &count) == PZ_BAD_TOLERANCE, "and the tolerance before");
    check(count == UNTOUCHED && kept(kinds, 2, 0) && kept(nums, 144, 0) && kept(worst, 8, 0), "refusals leave all");
    check(pz_fit_points_recursive(points, 12, 0.25, 3, 1, kinds, 0, nums, 0, worst, 0, &count) == PZ_DONE && count == 0, "an empty range");
    check(pz_fit_points_recursive(points, 12, 3, 1, 3, kinds, 2, nums, 18, worst, 2, &count) == PZ_DONE && count == 1, "one Line");
    check(kinds[0] == PZ_LINE && nums[0] == 4 && nums[1] == -3 && kept(kinds, 2, 1) && kept(nums, 144, 72), "to the last point");
    check(worst[0] == 0 && kept(worst, 8, 4), "a Line has no worst step");
    give_back(points, sizeof round_points);
    give_back(nums, 144);
    give_back(kinds, 2);
    give_back(worst, 8);
}

static void test_path(void)
{
    const uint8_t path[4] = {PZ_MOVE, PZ_LINE, PZ_LINE, PZ_ARC};
    const double numbers[36] = {[9] = 10, [18] = 20, [27] = 20, 10, 0, 0, 5, 0, 0, 0, 1};
    uint8_t *in_kinds = lend_input(path, 4), *kinds = lend(4);
    double *in_nums = lend_input(numbers, sizeof numbers), *nums = lend(sizeof numbers);
    size_t count = UNTOUCHED;
    check(pz_optimize_path_from_array(in_kinds, 4, in_nums, 36, 0.5, true, kinds, 3, nums, 36, &count) == PZ_NO_ROOM, "room for three");
    check(pz_optimize_path_from_array(in_kinds, 3, in_nums, 36, 0.5, true, kinds, 3, nums, 36, &count) == PZ_NOT_WHOLE, "36 for three");
    check(count == UNTOUCHED && kept(kinds, 4, 0) && kept(nums, sizeof numbers, 0), "refusals leave all");
    for (int fits = 0; fits < 2; fits++) {
        check(pz_optimize_path_from_array(in_kinds, 4, in_nums, 36, 0.5, fits, kinds, 4, nums, 36, &count) == PZ_DONE, "a path");
        check(count == 3 && kinds[1] == PZ_LINE && nums[9] == 20 && kinds[2] == PZ_ARC, "two Lines become one, the Arc stays");
        check(memcmp(nums + 18, numbers + 27, 72) == 0 && kept(kinds, 4, 3) && kept(nums, sizeof numbers, 216), "with its numbers");
    }
    give_back(in_kinds, 4);
    give_back(kinds, 4);
    give_back(in_nums, sizeof numbers);
    give_back(nums, sizeof numbers);
}

static void test_circles(void)
{
    double *points = lend_input(round_points, sizeof round_points), *line = lend_input(straight, sizeof straight);
    double *three = lend(24), *four = lend(32), *two = lend(16);
    bool found = false, is = false;
    check(pz_fit_circle_to_3_points(3, 4, 0, 4, 3, 0, FAR, 0, 0, &found, three) == PZ_BAD_NUMBER && !found, "a point too far");
    check(pz_fit_circle_to_3_points(0, 0, 0, 1, 0, 0, 2, 0, 0, &found, three) == PZ_DONE && !found && kept(three, 24, 0), "no circle");
    check(pz_fit_circle_to_3_points(3, 4, 0, 4, 3, 0, 5, 0, 0, &found, three) == PZ_DONE && found, "a circle");
    check(fabs(three[0]) < 1e-9 && fabs(three[1]) < 1e-9 && fabs(three[2] - 5) < 1e-9, "round the origin, of radius 5");
    check(pz_fit_circle_to_points_3d(line, 9, &found, four) == PZ_DONE && !found && kept(four, 32, 0), "none of points on a line");
    check(pz_fit_circle_to_points_3d(points, 12, &found, four) == PZ_DONE && found && kept(four, 32, 32), "of four points");
    check(fabs(four[2] - 5) < 1e-9 && four[3] < 1e-9, "its radius and its error");
    check(pz_project_circle_center_to_bisector(0, 0, 0, 2, 0, 0, 0, 7, two) == PZ_DONE && two[0] == 1 && two[1] == 7, "a bisector");
    check(pz_are_points_collinear_3d(line, 9, 0.5, &is) == PZ_DONE && is, "points on a line");
    check(pz_are_points_collinear_3d(points, 12, 0.5, &is) == PZ_DONE && !is, "points on none");
    check(pz_are_points_collinear_3d(points, 12, 0, &is) == PZ_BAD_TOLERANCE && !is, "tolerance 0");
    give_back(points, sizeof round_points);
    give_back(line, sizeof straight);
    give_back(three, 24);
    give_back(four, 32);
    give_back(two, 16);
}

static void test_directions(void)
{
    const double turn[6] = {0, 1, 1, 0, 0, -1};
    double *points = lend_input(turn, sizeof turn), *middle = lend(24);
    bool is = false;
    check(pz_is_arc_clockwise(points, 6, 0, 0, &is) == PZ_DONE && is, "clockwise");
    check(pz_is_arc_clockwise(points, 2, 0, 0, &is) == PZ_DONE && !is, "one point is not");
    check(pz_is_arc_clockwise(points, 0, 0, 0, &is) == PZ_NO_SUCH && !is, "no points");
    check(pz_get_midpoint_3d(0, 0, 0, 2, 4, FAR, middle) == PZ_BAD_NUMBER && kept(middle, 24, 0), "an end too far");
    check(pz_get_midpoint_3d(0, 0, 0, 2, 4, 6, middle) == PZ_DONE && middle[0] == 1 && middle[2] == 3, "the midpoint");
    give_back(points, sizeof turn);
    give_back(middle, 24);
}

static void test_plane_curves(void)
{
    double *two = lend(16), *parts = lend(128), *out = lend(6 * 16);
    bool flat = false;
    size_t count = UNTOUCHED;
    check(pz_get_bezier_point_at(0, 0, 0, 4, 4, 4, 4, 0, 1.5, two) == PZ_BAD_NUMBER && kept(two, 16, 0), "t above 1");
    check(pz_get_bezier_point_at(0, 0, 0, 4, 4, 4, 4, 0, 0.5, two) == PZ_DONE && two[0] == 2 && two[1] == 3, "the point at a half");
    check(pz_split_bezier(0, 0, 0, 4, 4, 4, 4, 0, 0.5, parts) == PZ_DONE && kept(parts, 128, 128), "both halves");
    check(parts[6] == 2 && parts[7] == 3 && parts[8] == 2 && parts[9] == 3 && parts[14] == 4, "which meet at that point");
    check(pz_is_bezier_flat(0, 0, 0, 4, 4, 4, 4, 0, 1, &flat) == PZ_DONE && !flat, "it is not flat");
    check(pz_is_bezier_flat(0, 0, 0, 4, 4, 4, 4, 0, 16, &flat) == PZ_DONE && flat, "at a tolerance of 4 it is");
    check(pz_is_bezier_flat(0, 0, 0, 4, 4, 4, 4, 0, 0, &flat) == PZ_BAD_TOLERANCE && flat, "a squared tolerance of 0");
    check(pz_linearize_bezier_adaptive(0, 0, 0, 4, 4, 4, 4, 0, 0.01, 11, out, 10, &count) == PZ_TOO_MANY, "eleven halvings");
    check(pz_linearize_bezier_adaptive(0, 0, 0, 4, 4, 4, 4, 0, 0.01, 2, out, 8, &count) == PZ_NO_ROOM, "room for four of five points");
    check(count == UNTOUCHED && kept(out, 96, 0), "refusals leave all");
    check(pz_linearize_bezier_adaptive(0, 0, 0, 4, 4, 4, 4, 0, 0.01, 2, out, 12, &count) == PZ_DONE && count == 5, "five points");
    check(out[0] == 0 && out[4] == 2 && out[5] == 3 && out[8] == 4 && kept(out, 96, 80), "from the start to the end");
    give_back(two, 16);
    give_back(parts, 128);
    give_back(out, 96);
}

static void test_space_curves(void)
{
    double *out = lend(3 * 48), *segment = lend(24 * PZ_MOST_SEGMENT_POINTS);
    size_t count = UNTOUCHED;
    check(pz_linearize_bezier(0, 0, 0, 0, 4, 0, 4, 4, 8, 4, 0, 8, 0, out, 18, &count) == PZ_TOO_MANY, "0 steps");
    check(pz_linearize_bezier(0, 0, 0, 0, 4, 0, 4, 4, 8, 4, 0, 8, 4, out, 18, &count) == PZ_NO_ROOM, "room for three of four");
    check(pz_linearize_bezier_from_params(4, 0, 8, 0, 4, 0, 4, 4, 8, 0, 0, 0, 1000, out, 17, &count) == PZ_NOT_WHOLE, "17 numbers");
    check(pz_linearize_bezier_from_params(9e5, 0, 0, 0, 4, 0, 4, 4, 8, 0, 0, 0, 1, out, 18, &count) == PZ_TOO_MUCH, "above 800 steps");
    check(count == UNTOUCHED && kept(out, 144, 0), "refusals leave all");
    check(pz_linearize_bezier(0, 0, 0, 0, 4, 0, 4, 4, 8, 4, 0, 8, 2, out, 18, &count) == PZ_DONE && count == 2, "two steps");
    check(out[3] == 2 && out[4] == 3 && out[5] == 4 && memcmp(out + 3, out + 6, 24) == 0 && kept(out, 144, 96), "which meet");
    check(pz_linearize_bezier_from_params(4, 0, 8, 0, 4, 0, 4, 4, 8, 0, 0, 0, 1000, out, 18, &count) == PZ_DONE, "a coarse one");
    check(count == 2 && out[9] == 4 && out[11] == 8, "has two steps at least, to the end");
    check(pz_linearize_bezier_segment(0, 0, 0, 0, 4, 0, 4, 4, 8, 4, 0, 8, true, 0, segment, 3075, &count) == PZ_BAD_TOLERANCE, "0 given");
    check(pz_linearize_bezier_segment(0, 0, 0, 0, 4, 0, 4, 4, 8, 4, 0, 8, false, 0, segment, 3072, &count) == PZ_NO_ROOM, "1,024 points");
    check(count == 2 && kept(segment, 24 * PZ_MOST_SEGMENT_POINTS, 0), "and nothing is written");
    check(pz_linearize_bezier_segment(0, 0, 0, 0, 4, 0, 4, 4, 8, 4, 0, 8, false, 0, segment, 3075, &count) == PZ_DONE, "0 not given");
    check(count > 2 && segment[3 * count - 1] == 8 && kept(segment, 24 * PZ_MOST_SEGMENT_POINTS, 24 * count), "as parts");
    give_back(out, 144);
    give_back(segment, 24 * PZ_MOST_SEGMENT_POINTS);
}

static void test_cubic(void)
{
    const double line[6] = {0, 0, 3, 0, 9, 0};
    double *points = lend_input(line, sizeof line), *curve = lend(64);
    bool found = true;
    check(pz_fit_cubic_bezier(points, 5, &found, curve) == PZ_NOT_WHOLE && found && kept(curve, 64, 0), "five numbers");
    check(pz_fit_cubic_bezier(points, 2, &found, curve) == PZ_DONE && !found && kept(curve, 64, 0), "none of one point");
    check(pz_fit_cubic_bezier(points, 6, &found, curve) == PZ_DONE && found && curve[0] == 0 && curve[6] == 9, "a curve of three");
    give_back(points, sizeof line);
    give_back(curve, 64);
}

int main(void)
{
    test_version();
    test_numbers();
    test_deviations();
    test_ranges();
    test_path();
    test_circles();
    test_directions();
    test_plane_curves();
    test_space_curves();
    test_cubic();
    printf("firmware, the parts: %d checks, %d wrong\n", checks, failures);
    return failures != 0;
}
