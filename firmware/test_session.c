/* Look first, then store, through pizhgarol.h: an asking and its commit beside a replacement; tickets that are stale, repeated and forged;
   parts that are damaged, or hold a Bezier or a number that is not finite; and that a refusal leaves all lent memory (lent.h). */
#include <math.h>
#include "lent.h"
#include "pizhgarol.h"

#define ROOM 2048

static void put_u32(unsigned char *at, uint32_t n)
{
    for (int i = 0; i < 4; i++) {
        at[i] = (unsigned char)(n >> (8 * i));
    }
}

/* The right angle (0,0),(10,0),(10,10), and (3,4),(4,3),(5,0), which at 0.3 is a Move and an Arc. */
static const uint8_t kinds[3] = {PZ_MOVE, PZ_LINE, PZ_LINE};
static const double corner[27] = {[9] = 10, [18] = 10, [19] = 10};
static const double bend[27] = {3, 4, [9] = 4, 3, [18] = 5, 0};
#define TOLERANCE 0.3

/* A lap file of three right angles; the second may lack its Move, so that it has a Line in front. */
static size_t write_file(unsigned char *file, int carries_on)
{
    size_t at = 8 + 8 * 3;
    memcpy(file, "LAPS", 4);
    put_u32(file + 4, 3);
    for (uint32_t lap = 0; lap < 3; lap++) {
        put_u32(file + 8 + 8 * lap, (uint32_t)at);
        put_u32(file + 12 + 8 * lap, 3);
        for (int i = 0; i < 3; i++, at += PZ_COMMAND_BYTES) {
            file[at] = lap == 1 && carries_on ? PZ_LINE : kinds[i];
            memcpy(file + at + 1, corner + 9 * i, 72);
        }
    }
    return at;
}

/* Both files, a session, and the last ticket with its part; outputs end where a page ends that nothing may touch. */
typedef struct {
    unsigned char recorded[ROOM], fitted[ROOM];
    size_t recorded_bytes, fitted_bytes;
    pz_session session;
    pz_ticket ticket;
    unsigned char part[ROOM];
    size_t part_bytes;
} desk;

static void set_up(desk *d, int carries_on)
{
    memset(d, 0, sizeof *d);
    d->recorded_bytes = write_file(d->recorded, carries_on);
    check(pz_fit_file(d->recorded, d->recorded_bytes, TOLERANCE, d->fitted, ROOM, &d->fitted_bytes) == PZ_DONE, "the fit of a file");
}

/* Asks for a lap with a buffer of so many bytes; what is refused leaves the buffer and the ticket, what is given is kept. */
static uint32_t ask_in(desk *d, size_t lap, const double *nums, double tolerance, size_t room)
{
    unsigned char *buffer = lend(room);
    unsigned char *recorded = lend_input(d->recorded, d->recorded_bytes), *fitted = lend_input(d->fitted, d->fitted_bytes);
    pz_ticket *ticket = lend(sizeof *ticket);
    pz_session before = d->session;
    uint32_t r = pz_session_ask(&d->session, recorded, d->recorded_bytes, fitted, d->fitted_bytes, lap, kinds, 3, nums, 27,
        tolerance, buffer, room, ticket);
    check(before.edits == d->session.edits, "an asking leaves the session");
    if (r) {
        check(kept(buffer, room, 0) && kept(ticket, sizeof *ticket, 0), "a refused asking changes nothing");
    } else {
        d->ticket = *ticket;
        d->part_bytes = pz_part_bytes(ticket);
        check(d->part_bytes <= room && kept(buffer, room, d->part_bytes), "an asking writes its part and no more");
        memcpy(d->part, buffer, d->part_bytes);
    }
    give_back(buffer, room);
    give_back(recorded, d->recorded_bytes);
    give_back(fitted, d->fitted_bytes);
    give_back(ticket, sizeof *ticket);
    return r;
}

static uint32_t ask(desk *d, size_t lap, const double *nums)
{
    return ask_in(d, lap, nums, TOLERANCE, ROOM);
}

/* Commits a ticket with a part, in an output of so many bytes. What is refused leaves output, count and session; what is accepted
   becomes the fitted file, with one edit more. */
static uint32_t commit_in(desk *d, const pz_ticket *ticket, const unsigned char *part, size_t part_bytes, size_t room)
{
    unsigned char *out = lend(room), *in = lend_input(part, part_bytes);
    unsigned char *recorded = lend_input(d->recorded, d->recorded_bytes), *fitted = lend_input(d->fitted, d->fitted_bytes);
    size_t written = 77;
    uint32_t edits = d->session.edits;
    uint32_t r = pz_session_commit(&d->session, ticket, recorded, d->recorded_bytes, fitted, d->fitted_bytes, in, part_bytes,
        out, room, &written);
    if (r) {
        check(kept(out, room, 0) && written == 77 && d->session.edits == edits, "a refused commit changes nothing");
    } else {
        check(written <= room && kept(out, room, written) && d->session.edits == edits + 1, "a commit writes the file and counts one edit");
        memcpy(d->fitted, out, written);
        d->fitted_bytes = written;
    }
    give_back(out, room);
    give_back(in, part_bytes);
    give_back(recorded, d->recorded_bytes);
    give_back(fitted, d->fitted_bytes);
    return r;
}

static uint32_t commit(desk *d, const pz_ticket *ticket)
{
    return commit_in(d, ticket, d->part, d->part_bytes, ROOM);
}

/* A commit of this ticket and part that must be refused. */
static void refuses(desk *d, const pz_ticket *ticket, size_t part_bytes, uint32_t number, const char *what)
{
    check(commit_in(d, ticket, d->part, part_bytes, ROOM) == number, what);
}

/* Asking and then committing has the effect of replacement, of a lap alone and of one whose next lap lacks its Move. */
static void test_effect(int carries_on)
{
    desk d;
    unsigned char replaced[ROOM];
    size_t size = 0, laps = carries_on ? 2 : 1;
    set_up(&d, carries_on);
    check(pz_replace_lap(d.recorded, d.recorded_bytes, d.fitted, d.fitted_bytes, 1, kinds, 3, bend, 27, TOLERANCE,
        replaced, ROOM, &size) == PZ_DONE, "a replacement");
    check(ask_in(&d, 1, bend, TOLERANCE, laps * 3 * PZ_COMMAND_BYTES - 1) == PZ_NO_ROOM, "a buffer one byte below the most");
    check(ask_in(&d, 1, bend, TOLERANCE, laps * 3 * PZ_COMMAND_BYTES) == PZ_DONE, "an asking in exactly the most");
    check(d.ticket.lap == 1 && d.ticket.tolerance == TOLERANCE && d.ticket.edit == 0, "its ticket");
    check(d.ticket.count == 2 && d.part[PZ_COMMAND_BYTES] == PZ_ARC, "a Move and an Arc");
    check(carries_on ? d.ticket.next > 0 : d.ticket.next == 0, "and the next lap where that is fitted again");
    refuses(&d, &d.ticket, d.part_bytes - 1, PZ_NOT_WHOLE, "a part less a byte");
    check(commit_in(&d, &d.ticket, d.part, d.part_bytes, size - 1) == PZ_NO_ROOM, "an output one byte below the file");
    check(commit_in(&d, &d.ticket, d.part, d.part_bytes, size) == PZ_DONE, "a commit in exactly the file's bytes");
    check(d.fitted_bytes == size && memcmp(d.fitted, replaced, size) == 0, "has the effect of replacement");
    check(commit(&d, &d.ticket) == PZ_OLD_TICKET, "a ticket serves once");
}

/* Two looks, a store, and the second ticket is stale: what was stored stays, and a third look finds it. */
static void test_stale(void)
{
    desk d;
    set_up(&d, 0);
    check(ask(&d, 1, bend) == PZ_DONE, "a look");
    pz_ticket first = d.ticket;
    check(ask(&d, 2, bend) == PZ_DONE, "a second look");
    pz_ticket second = d.ticket;
    check(first.edit == 0 && second.edit == 0, "looks do not count as edits");
    check(commit(&d, &first) == PZ_DONE && d.session.edits == 1, "the first one is stored, with a part that is as long");
    check(commit(&d, &second) == PZ_OLD_TICKET, "the second ticket is stale");
    second.edit = 2;
    check(commit(&d, &second) == PZ_OLD_TICKET, "one of an edit that is still to come, too");
    check(ask(&d, 2, bend) == PZ_DONE && d.ticket.edit == 1, "a look again");
    check(commit(&d, &d.ticket) == PZ_DONE && d.session.edits == 2, "is stored");
}

static void test_last_edit(void)
{
    desk d;
    set_up(&d, 0);
    d.session.edits = PZ_MOST_EDITS - 1;
    check(ask(&d, 1, bend) == PZ_DONE && commit(&d, &d.ticket) == PZ_DONE, "the last edit");
    check(commit(&d, &d.ticket) == PZ_OLD_TICKET, "12 comes before 13");
    check(ask(&d, 1, corner) == PZ_DONE, "an asking is not counted");
    d.part_bytes = 0;
    check(commit(&d, &d.ticket) == PZ_FULL_SESSION, "13 comes before the part");
    d.session.edits = d.ticket.edit = 0xffffffffu;
    check(commit(&d, &d.ticket) == PZ_FULL_SESSION, "and at every number above");
}

/* Fields of a ticket that were made up. */
static void test_forged(void)
{
    desk d;
    set_up(&d, 1);
    check(ask(&d, 1, bend) == PZ_DONE, "a look at two laps");
    pz_ticket right = d.ticket, t = right;
    size_t sum = right.count + right.next;
    t.count = 0, t.next = sum;
    refuses(&d, &t, d.part_bytes, PZ_BAD_FILE, "no command for the lap");
    t.count = sum, t.next = 0;
    refuses(&d, &t, d.part_bytes, PZ_BAD_FILE, "none for the next one, which is fitted again");
    t.count = right.count + 1, t.next = right.next;
    refuses(&d, &t, d.part_bytes, PZ_BAD_FILE, "counts above the part's");
    t.count = SIZE_MAX, t.next = sum + 1;
    refuses(&d, &t, d.part_bytes, PZ_BAD_FILE, "counts whose sum wraps to the part's");
    t = right, t.lap = 3;
    refuses(&d, &t, d.part_bytes, PZ_BAD_FILE, "a next lap for the last one");
    t.lap = 0;
    refuses(&d, &t, d.part_bytes, PZ_BAD_FILE, "and for lap 0");
    t.count = 2, t.next = 0, t.tolerance = 0;
    refuses(&d, &t, 2 * PZ_COMMAND_BYTES, PZ_BAD_TOLERANCE, "the tolerance comes before the lap");
    t.tolerance = NAN;
    refuses(&d, &t, 2 * PZ_COMMAND_BYTES, PZ_BAD_TOLERANCE, "one that is no number");
    t.tolerance = TOLERANCE;
    refuses(&d, &t, 2 * PZ_COMMAND_BYTES, PZ_NO_SUCH, "lap 0");
    t.lap = 4;
    refuses(&d, &t, 2 * PZ_COMMAND_BYTES, PZ_NO_SUCH, "lap 4 of three");
    t.lap = SIZE_MAX;
    refuses(&d, &t, 2 * PZ_COMMAND_BYTES, PZ_NO_SUCH, "the greatest lap");
    check(commit(&d, &right) == PZ_DONE, "the ticket as it was given");
}

/* A part with one byte, or one number, another. */
static void spoilt(const desk *whole, size_t at, const void *bytes, size_t count, uint32_t number, const char *what)
{
    desk d = *whole;
    memcpy(d.part + at, bytes, count);
    check(commit(&d, &d.ticket) == number, what);
}

static void test_damaged(void)
{
    desk d;
    const uint8_t move = PZ_MOVE, line = PZ_LINE, curve = PZ_BEZIER, unknown = 4;
    const double no_number = NAN, endless = -INFINITY, minus_zero = -0.0, far = 1e300;
    set_up(&d, 1);
    check(ask(&d, 1, bend) == PZ_DONE, "a look at two laps");
    size_t second = PZ_COMMAND_BYTES, next = PZ_COMMAND_BYTES * d.ticket.count;
    spoilt(&d, 0, &line, 1, PZ_BAD_COMMAND, "a first lap without its Move");
    spoilt(&d, second, &move, 1, PZ_BAD_COMMAND, "a Move elsewhere");
    spoilt(&d, second, &curve, 1, PZ_BAD_COMMAND, "a Bezier");
    spoilt(&d, second, &unknown, 1, PZ_BAD_COMMAND, "an unknown kind");
    spoilt(&d, next, &move, 1, PZ_BAD_COMMAND, "a Move in the next lap's part");
    spoilt(&d, next, &curve, 1, PZ_BAD_COMMAND, "a Bezier there");
    spoilt(&d, 1 + 24, &minus_zero, 8, PZ_BAD_COMMAND, "an unused number that is -0");
    spoilt(&d, second + 1, &no_number, 8, PZ_BAD_NUMBER, "an end that is no number");
    spoilt(&d, second + 1 + 64, &endless, 8, PZ_BAD_NUMBER, "a normal that is not finite");
    spoilt(&d, next + 1 + 16, &no_number, 8, PZ_BAD_NUMBER, "an end of the next lap");
    spoilt(&d, second + 1, &far, 8, PZ_DONE, "a number past the domain need only be finite");
    d.part_bytes = PZ_COMMAND_BYTES * (PZ_MOST_COMMANDS + 1);
    static unsigned char many[PZ_COMMAND_BYTES * (PZ_MOST_COMMANDS + 1)];
    check(commit_in(&d, &d.ticket, many, sizeof many, ROOM) == PZ_TOO_MANY, "801 commands");
    d.part_bytes = pz_part_bytes(&d.ticket);
    d.fitted[0] = 'l';
    check(commit(&d, &d.ticket) == PZ_BAD_FILE, "a fitted file without its mark");
    d.fitted[0] = 'L';
    d.recorded[32] = PZ_BEZIER;
    check(commit(&d, &d.ticket) == PZ_BAD_COMMAND, "a recorded file that starts without a Move");
    d.recorded[32] = PZ_MOVE;
    check(commit(&d, &d.ticket) == PZ_DONE, "both as they were");
}

/* "In the new lap's place, that part": a lap above the first may lack its Move, and other laps' bodies are copied as they stand. */
static void test_bodies(void)
{
    desk d;
    const double far[27] = {900000, 900000, 0, [9] = 900001, 900000, [18] = 900002, 900001};
    set_up(&d, 0);
    check(ask(&d, 3, far) == PZ_DONE, "a look at the last lap");
    pz_ticket t = d.ticket;
    size_t one = PZ_COMMAND_BYTES;
    t.count -= 1;
    memset(d.fitted + 8 + 24 + 1, 0xff, 8);
    unsigned char body[PZ_COMMAND_BYTES];
    memcpy(body, d.fitted + 8 + 24, one);
    check(commit_in(&d, &t, d.part + one, d.part_bytes - one, ROOM) == PZ_DONE, "a part without its Move");
    check(memcmp(d.fitted + 8 + 24, body, one) == 0, "and lap 1 as it stands, which is no number");
    size_t rest = d.part_bytes - one;
    check(memcmp(d.fitted + d.fitted_bytes - rest, d.part + one, rest) == 0, "the part is the lap's body");
}

int main(void)
{
    test_effect(0);
    test_effect(1);
    test_stale();
    test_last_edit();
    test_forged();
    test_damaged();
    test_bodies();
    printf("sessions: %d checks, %d wrong\n", checks, failures);
    return failures != 0;
}
