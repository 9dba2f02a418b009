/* Runs the live thinner through pizhgarol.h: what a run hands out, every refusal, that a refused call leaves all lent memory, and
   that only lent memory is touched (lent.h). */
#include <math.h>
#include "lent.h"
#include "pizhgarol.h"

/* The state, and what a call hands out. */
typedef struct {
    pz_thinner live;
    double end[3];
    size_t handed;
} bytes;

/* The same, each lent by itself. */
typedef struct {
    pz_thinner *live;
    double *end;
    size_t *handed;
} watch;

static watch set_up(void)
{
    watch w = { lend(sizeof *w.live), lend(3 * sizeof *w.end), lend(sizeof *w.handed) };
    return w;
}

static bytes bytes_of(watch w)
{
    bytes b;
    memcpy(&b.live, w.live, sizeof b.live);
    memcpy(b.end, w.end, sizeof b.end);
    memcpy(&b.handed, w.handed, sizeof b.handed);
    return b;
}

static int unchanged(watch w, bytes before)
{
    bytes after = bytes_of(w);
    return !memcmp(&after, &before, sizeof before);
}

static int guards_whole(watch w)
{
    return kept(w.live, sizeof *w.live, sizeof *w.live) && kept(w.end, 3 * sizeof *w.end, 3 * sizeof *w.end)
        && kept(w.handed, sizeof *w.handed, sizeof *w.handed);
}

static void done_with(watch w, const char *what)
{
    check(guards_whole(w), what);
    give_back(w.live, sizeof *w.live);
    give_back(w.end, 3 * sizeof *w.end);
    give_back(w.handed, sizeof *w.handed);
}

static uint32_t feed(watch w, double x, double y, double z)
{
    const double numbers[3] = {x, y, z};
    double *point = lend_input(numbers, sizeof numbers);
    uint32_t answer = pz_thinner_feed(w.live, point, w.end, w.handed);
    give_back(point, sizeof numbers);
    return answer;
}

/* A call that is refused by this number and leaves every byte. */
static void refuses(watch w, double x, int closing, uint32_t number, const char *what)
{
    bytes before = bytes_of(w);
    uint32_t answer = closing ? pz_thinner_close(w.live, w.end, w.handed) : feed(w, x, 0, 0);
    check(answer == number && unchanged(w, before), what);
}

static void test_run(void)
{
    watch w = set_up();
    check(pz_thinner_start(w.live, 1) == PZ_DONE && w.live->count == 0 && w.live->closed == 0, "a start");
    check(w.live->tolerance == 1 && w.live->points[194] == 0, "a start writes the whole state");
    check(feed(w, 0, 0, 0) == PZ_DONE && *w.handed == 0, "the first point");
    check(feed(w, 1, 0, 1) == PZ_DONE && *w.handed == 0, "the second point");
    check(feed(w, 2, 0, 2) == PZ_DONE && *w.handed == 0 && w.live->count == 3, "a point on the line is held");
    refuses(w, NAN, 0, PZ_BAD_NUMBER, "a refused point in the middle changes nothing");
    check(feed(w, 2, 5, 3) == PZ_DONE && *w.handed == 1, "a point off the line");
    check(w.end[0] == 2 && w.end[1] == 0 && w.end[2] == 2 && w.live->count == 2, "hands out the one before it");
    check(pz_thinner_close(w.live, w.end, w.handed) == PZ_DONE && *w.handed == 1 && w.live->closed == 1, "a close");
    check(w.end[0] == 2 && w.end[1] == 5 && w.end[2] == 3, "hands out the last point");
    refuses(w, 3, 0, PZ_CLOSED, "a point after the close");
    refuses(w, 3, 1, PZ_CLOSED, "a second close");
    done_with(w, "only the state and the end are written");
}

static void test_short(void)
{
    watch w = set_up();
    check(pz_thinner_start(w.live, 1) == PZ_DONE && feed(w, 7, 8, 9) == PZ_DONE, "one point");
    check(pz_thinner_close(w.live, w.end, w.handed) == PZ_DONE && *w.handed == 0, "a run of one point hands out none");
    check(pz_thinner_start(w.live, 1) == PZ_DONE, "a start again");
    check(pz_thinner_close(w.live, w.end, w.handed) == PZ_DONE && *w.handed == 0, "a run of no point hands out none");
    done_with(w, "a short run writes nothing else");
}

/* A straight run: the 66th point finds 64 held, and the one before it is handed out. */
static void test_full(void)
{
    watch w = set_up();
    pz_thinner_start(w.live, 1);
    for (int i = 0; i < 65; i++) {
        check(feed(w, i, 0, 0) == PZ_DONE && *w.handed == 0, "a point of a straight run is held");
    }
    check(w.live->count == PZ_LIVE_SLOTS, "64 are held after the anchor");
    check(feed(w, 65, 0, 0) == PZ_DONE && *w.handed == 1 && w.end[0] == 64 && w.live->count == 2, "the 65th after it ends the Line");
    done_with(w, "the slots are not overrun");
}

static void test_refusals(void)
{
    watch w = set_up();
    bytes before = bytes_of(w);
    check(pz_thinner_start(w.live, 0) == PZ_BAD_TOLERANCE && unchanged(w, before), "a start at 0 writes nothing");
    pz_thinner_start(w.live, 1);
    w.live->count = 66;
    w.live->points[194] = NAN;
    refuses(w, 0, 0, PZ_TOO_MANY, "65 held comes before a NaN");
    w.live->count = 65;
    w.live->tolerance = 0;
    refuses(w, 0, 0, PZ_BAD_NUMBER, "a NaN in the last slot comes before the tolerance");
    w.live->points[194] = 0;
    w.live->closed = 1;
    refuses(w, 0, 0, PZ_BAD_TOLERANCE, "the tolerance comes before the close");
    refuses(w, 1000001, 0, PZ_BAD_NUMBER, "the point's numbers too");
    w.live->tolerance = 1;
    w.live->closed = 256;
    refuses(w, 0, 0, PZ_CLOSED, "any flag but 0 is closed");
    refuses(w, 0, 1, PZ_CLOSED, "for a close, too");
    done_with(w, "refusals write nothing else");
}

/* To and fro between two points: all are held at 1000, and 63 ends come out at 1. */
static void test_retune(void)
{
    watch w = set_up();
    size_t size = (3 * PZ_LIVE_MOST_ENDS + 3) * sizeof(double);
    double *out = lend(size);
    pz_thinner_start(w.live, 1000);
    for (int i = 0; i < 65; i++) {
        feed(w, 0, i % 2 ? 3 : 0, i);
    }
    bytes before = bytes_of(w);
    check(pz_thinner_retune(w.live, 1, out, 190, w.handed) == PZ_NOT_WHOLE, "an output that is not whole points");
    check(pz_thinner_retune(w.live, 1, out, 186, w.handed) == PZ_NO_ROOM, "room for 62 ends");
    check(pz_thinner_retune(w.live, 0, out, 186, w.handed) == PZ_BAD_TOLERANCE, "the new tolerance comes before the room");
    w.live->closed = 1;
    check(pz_thinner_retune(w.live, 1, out, 186, w.handed) == PZ_CLOSED, "the close comes before the room");
    check(pz_thinner_retune(w.live, 0, out, 189, w.handed) == PZ_BAD_TOLERANCE, "and after the tolerance");
    w.live->closed = 0;
    check(unchanged(w, before) && kept(out, size, 0), "refusals leave all");
    check(pz_thinner_retune(w.live, 1, out, 192, w.handed) == PZ_DONE && *w.handed == 63, "63 ends come out");
    check(out[0] == 0 && out[1] == 3 && out[2] == 1 && out[188] == 63 && w.live->count == 2, "the held points in order");
    check(kept(out, size, 189 * sizeof *out) && w.live->tolerance == 1, "and no more is written");
    check(pz_thinner_retune(w.live, 1000, out, 189, w.handed) == PZ_DONE && *w.handed == 0, "a coarser one hands out none");
    check(kept(out, size, 189 * sizeof *out), "and writes none");
    give_back(out, size);
    done_with(w, "only the state and the ends are written");
}

int main(void)
{
    test_run();
    test_short();
    test_full();
    test_refusals();
    test_retune();
    printf("live thinner: %d checks, %d wrong\n", checks, failures);
    return failures != 0;
}
