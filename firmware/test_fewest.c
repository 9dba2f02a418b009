/* The fewest straights, through pizhgarol.h: answers, budgets, refusals in their order, and that only lent memory is touched (lent.h). */
#include "lent.h"
#include "pizhgarol.h"

/* At 0.75 the recursive cut of these has three Lines, and the fewest are two: by way of (1, 1). */
static const double shorter[12] = {0, 1, 5, 3, 1, 6, 1, 1, 7, 3, 0, 8};

/* At 0.5 only neighbours pass. */
static const double corner[9] = {0, 0, 0, 1, 1, 0, 2, 0, 0};

struct answer {
    size_t count, bound;
    uint64_t tested;
    double ends[12];
};

/* Calls with an output of so many numbers: the answer, and whether it wrote `lines` ends, or nothing where it is 0. */
static uint32_t find(const double *points, size_t length, double tolerance, uint64_t budget, size_t room, size_t lines,
    struct answer *a)
{
    double *lent = lend_input(points, 8 * length), *out = lend(8 * room);
    size_t *count = lend(sizeof *count), *bound = lend(sizeof *bound);
    uint64_t *tested = lend(sizeof *tested);
    uint32_t answer = pz_fewest_straights(lent, length, tolerance, budget, out, room, count, tested, bound);
    check(kept(out, 8 * room, 24 * lines), "behind the ends all is as it was");
    check(lines ? *count == lines : kept(count, sizeof *count, 0) && kept(tested, sizeof *tested, 0) && kept(bound, sizeof *bound, 0),
        "the count of Lines, or none of the three");
    if (lines) {
        a->count = *count;
        a->bound = *bound;
        a->tested = *tested;
        memcpy(a->ends, out, 24 * lines);
        check(memcmp(out + 3 * (lines - 1), points + length - 3, 24) == 0, "the last Line ends at the last point");
    }
    give_back(lent, 8 * length);
    give_back(out, 8 * room);
    give_back(count, sizeof *count);
    give_back(bound, sizeof *bound);
    give_back(tested, sizeof *tested);
    return answer;
}

static void test_budgets(void)
{
    struct answer a;
    for (uint64_t budget = 0; budget < 4; budget++) {
        check(find(corner, 9, 0.5, budget, 6, 2, &a) == PZ_DONE, "a corner");
        check(a.tested == budget && a.bound == (budget < 2 ? 1 : 2), "the budget is looked at only when a pair is due");
    }
    check(find(corner, 9, 0.5, UINT64_MAX, 9, 2, &a) == PZ_DONE && a.tested == 3 && a.bound == 2, "any budget");
    check(find(shorter, 12, 0.75, 4, 9, 3, &a) == PZ_DONE && a.tested == 4 && a.bound == 2, "the cut, of three Lines");
    check(find(shorter, 12, 0.75, 5, 9, 2, &a) == PZ_DONE && a.tested == 5 && a.bound == 2, "the fewest are two");
    check(memcmp(a.ends, shorter + 6, 24) == 0, "by way of the third point, with its height");
}

static uint32_t refuse(const double *points, size_t length, double tolerance, size_t room)
{
    return find(points, length, tolerance, 9, room, 0, NULL);
}

static void test_refusals(void)
{
    static double many[3 * (PZ_MOST_STRAIGHT_POINTS + 1)];
    double far[9];
    memcpy(far, corner, sizeof far);
    far[4] = 1000000.5;
    check(refuse(corner, 8, 0, 6) == PZ_NOT_WHOLE, "eight numbers");
    check(refuse(corner, 3, 0, 5) == PZ_NOT_WHOLE, "an output of no whole points comes before the count");
    check(refuse(corner, 3, 0, 0) == PZ_TOO_MANY, "one point");
    check(refuse(many, 3 * (PZ_MOST_STRAIGHT_POINTS + 1), 0, 0) == PZ_TOO_MANY, "257 points");
    check(refuse(far, 9, 0, 0) == PZ_BAD_NUMBER, "a number out of the domain comes before the tolerance");
    check(refuse(corner, 9, 0, 0) == PZ_BAD_TOLERANCE, "the tolerance comes before the room");
    check(refuse(corner, 9, 0.5, 3) == PZ_NO_ROOM, "room for one end, and the most is two");
}

int main(void)
{
    test_budgets();
    test_refusals();
    printf("firmware, the fewest straights: %d checks, %d wrong\n", checks, failures);
    return failures != 0;
}
