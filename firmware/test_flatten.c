/* Arcs drawn by Lines, through pizhgarol.h: answers, refusals in their order, and that only lent memory is touched (lent.h). */
#include "lent.h"
#include "pizhgarol.h"

#define KINDS PZ_MOST_LINES
#define NUMBERS (9 * PZ_MOST_LINES)

/* From (5, 0, 0) round the origin to (0, 5, 10), a quarter turn to the left. */
static const double quarter[9] = {0, 5, 10, -5, 0, 0, 0, 0, 1};

/* Calls with outputs of so many kinds and numbers: the answer, and whether `lines` Lines were written, or nothing where it is 0. */
static uint32_t draw(uint8_t kind, const double *command, size_t length, double tolerance, size_t kinds_length,
    size_t nums_length, size_t lines, double *first)
{
    uint8_t *kinds = lend(kinds_length);
    double *nums = lend(8 * nums_length), *lent = lend_input(command, 8 * length);
    size_t *count = lend(sizeof *count);
    uint32_t answer =
        pz_flatten_arc(kind, lent, length, 5, 0, 0, tolerance, kinds, kinds_length, nums, nums_length, count);
    check(kept(kinds, kinds_length, lines) && kept(nums, 8 * nums_length, 72 * lines), "behind the Lines all is as it was");
    check(lines ? *count == lines : kept(count, sizeof *count, 0), "the count of Lines, or none");
    for (size_t i = 0; i < lines; i++) {
        check(kinds[i] == PZ_LINE, "each command is a Line");
    }
    if (lines) {
        memcpy(first, nums, 72);
        check(memcmp(nums + 9 * (lines - 1), command, 24) == 0, "the last Line ends at the Arc's own end");
    }
    give_back(kinds, kinds_length);
    give_back(nums, 8 * nums_length);
    give_back(lent, 8 * length);
    give_back(count, sizeof *count);
    return answer;
}

static uint32_t refuse(uint8_t kind, const double *command, size_t length, double tolerance, size_t kinds, size_t nums)
{
    return draw(kind, command, length, tolerance, kinds, nums, 0, NULL);
}

static void test_lines(void)
{
    double first[9];
    const double full[9] = {5, 0, 4, -5, 0, 0, 0, 0, -1};
    check(draw(PZ_ARC, quarter, 9, 4, KINDS, NUMBERS, 2, first) == PZ_DONE, "a quarter, halved once");
    check(first[0] == first[1] && first[0] > 3.53 && first[0] < 3.54 && first[2] == 5, "its middle, half way up");
    check(draw(PZ_ARC, quarter, 9, 8, KINDS, NUMBERS, 1, first) == PZ_DONE, "one Line at twice the tolerance");
    check(draw(PZ_ARC, full, 9, 8, KINDS, NUMBERS, 4, first) == PZ_DONE, "a full circle, clockwise");
    check(first[0] == 0 && first[1] == -5 && first[2] == 1, "its first quarter turn");
    check(draw(PZ_ARC, quarter, 9, 0.001, KINDS + 1, NUMBERS + 9, 128, first) == PZ_DONE, "a fine quarter");
}

static void test_refusals(void)
{
    double other[9];
    memcpy(other, quarter, sizeof other);
    check(refuse(PZ_ARC, quarter, 8, 4, KINDS, NUMBERS) == PZ_NOT_WHOLE, "eight numbers");
    check(refuse(9, quarter, 9, 0, KINDS, NUMBERS - 1) == PZ_NOT_WHOLE, "an output of no whole commands comes first");
    check(refuse(9, quarter, 9, 0, 0, 0) == PZ_BAD_COMMAND, "an unknown kind");
    check(refuse(PZ_LINE, quarter, 9, 0, 0, 0) == PZ_BAD_COMMAND, "a Line with numbers that it does not use");
    check(refuse(3, quarter, 9, 0, 0, 0) == PZ_BAD_TOLERANCE, "the tolerance comes before the kind of command");
    check(refuse(3, quarter, 9, 4, 0, 0) == PZ_NOT_DRAWABLE, "a Bezier");
    check(refuse(PZ_ARC, quarter, 9, 4, KINDS - 1, NUMBERS) == PZ_NO_ROOM, "room for 4,095 kinds");
    check(refuse(PZ_ARC, quarter, 9, 4, KINDS, NUMBERS - 9) == PZ_NO_ROOM, "room for 4,095 times nine numbers");
    other[1] = 9;
    check(refuse(PZ_ARC, other, 9, 4, 0, 0) == PZ_NOT_DRAWABLE, "an end off the circle by the tolerance");
    other[8] = 0.5;
    check(refuse(PZ_ARC, other, 9, 8, 0, 0) == PZ_NOT_DRAWABLE, "another normal");
    other[0] = 1e7;
    check(refuse(PZ_ARC, other, 9, 8, 0, 0) == PZ_BAD_NUMBER, "an end out of the domain");
}

int main(void)
{
    test_lines();
    test_refusals();
    printf("firmware, Arcs drawn by Lines: %d checks, %d wrong\n", checks, failures);
    return failures != 0;
}
