/* The fit of recorded laps into straights and bends, for C. Each function is proved; see README.md for what that says.

   LENT MEMORY. A list passes as a pointer and its length in elements (bytes for a file, numbers for points and commands,
   not points or commands). The functions keep no pointer after they return, allocate nothing and have no state of their
   own, so two threads may call them at once on different memory; of other libraries they need memset and memcpy
   alone. The archive (firmware/archive builds it, firmware/install puts it where a program looks for it) is for x86-64 and
   no other processor. The caller sees to it that
   - each pointer is valid for its length and aligned for its type (8 bytes for numbers and for size_t, 4 for
     uint32_t), and a lent bool holds 0 or 1. A list of length 0 may have any pointer, NULL too, since nothing is read or written through it. No other
     pointer may be NULL, such as those to one number or to an array of fixed size;
   - what is written (outputs and `count`) overlaps nothing else that is passed to the same call.
   Any contents are allowed: every call ends, reads and writes only what was lent, and unfit input meets a refusal.

   ANSWERS. 0 (PZ_DONE), or the number of the first refusal that applies. A refusal leaves all lent memory as it was, and
   `count` too. An accepted call writes the front of its output, as far as `count` tells, and leaves the rest alone.
   Each function names its refusals, in the order in which they are checked: that of their numbers where nothing else is said.

   NAMES. All that is here begins with pz_ or PZ_, and the archive has no other global name than the functions declared here.

   SIZES. A point is two numbers in the plane, three in space. A command is a kind byte and nine numbers: its end, then
   the centre's offset from the start and the normal (Arc), or both controls (Bezier); unused numbers are +0. An output
   must have room for the MOST of the call, whatever it then writes:
   - thinning points: as many points as it is given; thinning commands: as many commands;
   - a fit of n points: n - 1 commands, and as many worst steps (0 without points);
   - a fit of a course: one command for each Move, Line and Arc, and one for each step of a Bezier; above 800 refused;
   - a fit of a file: 8 + 8 * L + 73 * most bytes, most as for a course; at most 58,920 bytes in all (64 laps, 800 commands);
   - a replacement: the same, with the mosts of the laps that are fitted plus the fitted file's commands in all other laps;
   - the asking for one: 73 * most bytes, the mosts of the laps that are fitted; its commit: as a file of the part's commands plus
     the fitted file's in all other laps;
   - an Arc drawn by Lines: 4,096 commands;
   - a curve as n steps: n times six numbers; as parts halved d times: 1 + 2^d points;
   - the fewest straights of n points: n - 1 points;
   - a course read from path data: 8 + 8 * L + 73 * commands bytes, a lap for each M.

   STACK, in bytes. Measured, not proved: firmware/stack.c fills a thread's stack with a pattern and runs each call at several
   sizes, up to the greatest, on the zigzags that are cut at every point, on bends, a spiral and curves. A row is the line that
   lies above all that was measured, rounded up to 128 bytes, and its value at the greatest n; firmware/run measures it again.
   n counts points; for thinning commands and for a path, commands; for a course, a file, a replacement and an asking it is the
   most of the course, of the longest lap, and of the new lap.
     pz_simplify_polyline             2048 +  96 * n   198656
     pz_simplify_polyline_3d          2048 +  96 * n   198656
     pz_simplify_data                 2176 +  80 * n    66176
     pz_optimize_path_from_array     24576 +  96 * n   101376
     pz_fit_points_with_primitives    4864               4864
     pz_fit_points_recursive          4864               4864
     pz_fit_arcs                     24704 +  96 * n   101504
     pz_fit_file                    142208 +  96 * n   219008
     pz_fit_hills                   142208 +  96 * n   219008
     pz_replace_lap                 219264 +  96 * n   296064
     pz_ask_lap                     161024 +  96 * n   237824
     pz_commit_lap                     512                512
     pz_fewest_straights              1408 + 112 * n    30080
     pz_flatten_arc                   3200               3200
     pz_read_course                    384                384
     pz_live_feed                     1792               1792
     pz_live_retune                   3328               3328
     pz_fit_cubic_bezier             16512              16512
     pz_linearize_bezier_adaptive     2688               2688
     pz_linearize_bezier_segment      3968               3968
     others                           1792               1792
   No input recurses deeper than the zigzags, since each cut takes a point off: thinning, and the cut of the fewest straights,
   recurse as deep as they cut, the fit of points does not. Bytes that a call reserves but never writes do not show: leave a
   margin of some KiB. The rows are those of x86-64: another processor's have to be measured there. */
#ifndef PIZHGAROL_H
#define PIZHGAROL_H

#include <stdbool.h>
#include <stddef.h>
#include <stdint.h>

#ifdef __cplusplus
extern "C" {
#endif

/* The version of this header, and that of the archive in the same form, 0xMMmmpp: where the two differ, the archive is not this
   header's. A change that callers must follow raises the first number, another addition the second, any other change the third. */
#define PZ_VERSION_MAJOR 1u
#define PZ_VERSION_MINOR 0u
#define PZ_VERSION_PATCH 0u
#define PZ_VERSION ((PZ_VERSION_MAJOR * 256u + PZ_VERSION_MINOR) * 256u + PZ_VERSION_PATCH)

uint32_t pz_version(void);

/* Answers. */
#define PZ_DONE 0u
#define PZ_NOT_WHOLE 1u     /* a slice is not whole points or commands; a file under 8 bytes */
#define PZ_TOO_MANY 2u      /* more than 2,048 points, 800 commands, 64 laps, 65,536 bytes of a file or a text, 10 halvings or
                               2,048 steps; 0 steps */
#define PZ_BAD_FILE 3u      /* wrong mark or table, over 800 commands in a table, lap counts that differ */
#define PZ_BAD_COMMAND 4u   /* unknown kind, unused number not +0, a Move misplaced in a lap, or none in front of the first */
#define PZ_BAD_NUMBER 5u    /* an end or control not finite or above 1,000,000; an offset or normal not finite; a centre above 1e12, a
                               radius not from 0 to 1e12, a parameter not from 0 to 1 */
#define PZ_BAD_TOLERANCE 6u /* tolerance not from 0.001 to 1,000 metres; a squared one not from 1e-6 to 1,000,000 */
#define PZ_NO_SUCH 7u       /* lap 0, or above the file's lap count; an index outside the points; no points where one is needed */
#define PZ_TOO_MUCH 8u      /* the most of a course or a replacement, or the steps of a curve by resolution, above 800 */
#define PZ_NO_ROOM 9u       /* the lent output holds less than the most */
#define PZ_CLOSED 10u       /* a call on a live thinner that was closed */
#define PZ_NOT_DRAWABLE 11u /* pz_flatten_arc alone, before 8 and 9: see there */
#define PZ_OLD_TICKET 12u   /* a commit's ticket is not of the session's edit number */
#define PZ_FULL_SESSION 13u /* the session stands at PZ_MOST_EDITS or above */
#define PZ_BAD_TEXT 14u     /* path data that breaks its rules */

/* Kinds of a command. */
#define PZ_MOVE 0u
#define PZ_LINE 1u
#define PZ_ARC 2u
#define PZ_BEZIER 3u

/* Sizes. */
#define PZ_COMMAND_NUMBERS 9u
#define PZ_COMMAND_BYTES 73u
#define PZ_MOST_POINTS 2048
#define PZ_MOST_COMMANDS 800
#define PZ_MOST_LAPS 64
#define PZ_MOST_FILE_BYTES 65536u
#define PZ_MOST_OUTPUT_BYTES 58920u
#define PZ_MOST_EDITS 1000000u

/* How many bytes a file of so many laps and commands has. */
static inline size_t pz_file_bytes(size_t laps, size_t commands)
{
    return 8 + 8 * laps + PZ_COMMAND_BYTES * commands;
}

/* Fits each lap of a recorded file; *count is the fitted file's bytes. A lap after the first may lack its Move: it starts where
   the last recorded command of the lap before it ends, and is fitted to commands without a Move. This call, pz_fit_hills, the
   replacement of a lap and the fit of a course measure from the segment between two points: the far turn of a run out and back
   stays. Every other call measures from the endless line through them. Refusals: 1 to 6, 8, 9. */
uint32_t pz_fit_file(
    const uint8_t *recorded, size_t recorded_bytes,
    double tolerance,
    uint8_t *out, size_t out_bytes, size_t *count);

/* Fits each lap of a recorded file for hills, where climbs count: as pz_fit_file, but thinned, and its Lines tested, by the
   distance in x, y and z to the segment, and without new Arcs; recorded Arcs stay as they are. In a course without Beziers whose
   points share one z, the Lines end at the points that pz_fit_file thins to. A lap of it is replaced by fitting the file anew:
   pz_replace_lap fits by x and y alone. Refusals: 1 to 6, 8, 9, as pz_fit_file, for the same files. */
uint32_t pz_fit_hills(
    const uint8_t *recorded, size_t recorded_bytes,
    double tolerance,
    uint8_t *out, size_t out_bytes, size_t *count);

/* Replaces lap `lap`, from 1: `out` gets the fit of the new commands, and of the fitted file every other lap's body as it
   stands; but for the next lap where that lacks its Move, which is fitted again, since it starts where the new commands end.
   They may lack their Move where `lap` is above 1. The recorded file is the one that was fitted; of the fitted one the mark, the
   table and the lap count alone are checked. Distances are to the segment, as in pz_fit_file. Refusals: 1 to 9. */
uint32_t pz_replace_lap(
    const uint8_t *recorded, size_t recorded_bytes,
    const uint8_t *fitted, size_t fitted_bytes,
    size_t lap,
    const uint8_t *kinds, size_t kinds_length, const double *nums, size_t nums_length,
    double tolerance,
    uint8_t *out, size_t out_bytes, size_t *count);

/* A replacement in two steps: look first, then store. A session is one number, how many commits it accepted, from 0; a ticket is
   what an asking gives. The caller keeps both, and hands each call the last one's session. Any ticket, session and part may be
   handed in: what does not fit meets a refusal. */
typedef struct {
    uint32_t edits;
} pz_session;

typedef struct {
    size_t lap;
    double tolerance;
    uint32_t edit;
    size_t count; /* the commands that the lap was fitted to */
    size_t next;  /* those of the next lap, 0 where it is not fitted again */
} pz_ticket;

/* How many bytes of the buffer an asking wrote: the part that its commit takes. */
static inline size_t pz_part_bytes(const pz_ticket *t)
{
    return PZ_COMMAND_BYTES * (t->count + t->next);
}

/* Asks for the replacement of lap `lap`: the laps that it would fit again, lap `lap` and the next where that lacks its Move, are
   fitted to the front of `buffer`, in the bytes of a file, and the whole ticket is written; no file changes. Refusals: 1 to 9 as
   pz_replace_lap, with PZ_NO_ROOM for a buffer below 73 bytes for each command of these laps' mosts. */
uint32_t pz_ask_lap(
    const uint8_t *recorded, size_t recorded_bytes,
    const uint8_t *fitted, size_t fitted_bytes,
    uint32_t edits, size_t lap,
    const uint8_t *kinds, size_t kinds_length, const double *nums, size_t nums_length,
    double tolerance,
    uint8_t *buffer, size_t buffer_bytes,
    size_t *ticket_lap, double *ticket_tolerance, uint32_t *ticket_edit, size_t *ticket_count, size_t *ticket_next);

/* Commits it: `out` gets the file that the replacement writes, `part`, exactly the bytes that the asking wrote, being the bodies of
   the laps that were fitted again, as they stand; *written is its bytes, and *edits is raised by 1. Refusals, in this order:
   PZ_OLD_TICKET, PZ_FULL_SESSION, then 1 to 9 as pz_replace_lap: 1 a part that is not whole commands; 2 one above 800 commands;
   3 counts that do not add up to the part's commands, are 0 for a lap that is fitted again or not 0 for one that is not; 4 a Move
   missing or misplaced, or in the next lap's part, a Bezier, an unknown kind or an unused number that is not +0; 5 a number that
   is not finite; 8 and 9 by the part's commands and those of the laps that stay. A ticket serves once: its commit raises the edit
   number, and PZ_OLD_TICKET is the answer from then on. */
uint32_t pz_commit_lap(
    size_t lap, double tolerance, uint32_t edit, size_t count, size_t next,
    uint32_t *edits,
    const uint8_t *recorded, size_t recorded_bytes,
    const uint8_t *fitted, size_t fitted_bytes,
    const uint8_t *part, size_t part_bytes,
    uint8_t *out, size_t out_bytes, size_t *written);

static inline uint32_t pz_session_ask(
    const pz_session *s,
    const uint8_t *recorded, size_t recorded_bytes,
    const uint8_t *fitted, size_t fitted_bytes,
    size_t lap,
    const uint8_t *kinds, size_t kinds_length, const double *nums, size_t nums_length,
    double tolerance,
    uint8_t *buffer, size_t buffer_bytes,
    pz_ticket *t)
{
    return pz_ask_lap(recorded, recorded_bytes, fitted, fitted_bytes, s->edits, lap, kinds, kinds_length, nums, nums_length,
        tolerance, buffer, buffer_bytes, &t->lap, &t->tolerance, &t->edit, &t->count, &t->next);
}

static inline uint32_t pz_session_commit(
    pz_session *s, const pz_ticket *t,
    const uint8_t *recorded, size_t recorded_bytes,
    const uint8_t *fitted, size_t fitted_bytes,
    const uint8_t *part, size_t part_bytes,
    uint8_t *out, size_t out_bytes, size_t *written)
{
    return pz_commit_lap(t->lap, t->tolerance, t->edit, t->count, t->next, &s->edits, recorded, recorded_bytes, fitted, fitted_bytes,
        part, part_bytes, out, out_bytes, written);
}

/* Fits points in space; *count is the commands. The first point is where the first command starts. *ranges is how many
   ranges of points the fit looked at, for planning the battery: 0 below two points, else 2 * commands - 1. `worst` gets
   one number a command, for marking a bend on the screen: for an Arc the index, in the points, of the one at which the
   first step starts that is farthest from it, 0 where each step lies on it; for a Line 0. Refusals:
   1, 2, 5, 6, 9. */
uint32_t pz_fit_points_with_primitives(
    const double *points, size_t points_length,
    double tolerance,
    uint8_t *kinds, size_t kinds_length, double *nums, size_t nums_length, uint32_t *worst, size_t worst_length,
    size_t *count, size_t *ranges);

/* Fits a course: a list of commands, which needs no Move; *count is the commands. Arcs stay as they are. Distances are to the
   segment, as in pz_fit_file. Refusals: 1, 2, 4, 5, 6, 8, 9. */
uint32_t pz_fit_arcs(
    const uint8_t *kinds, size_t kinds_length, const double *nums, size_t nums_length,
    double tolerance,
    uint8_t *out_kinds, size_t out_kinds_length, double *out_nums, size_t out_nums_length, size_t *count);

/* Thins points in the plane (x, y); *count is the points. Refusals: 1, 2, 5, 6, 9. */
uint32_t pz_simplify_polyline(
    const double *points, size_t points_length,
    double tolerance,
    double *out, size_t out_length, size_t *count);

/* Thins points in space (x, y, z), by their distance in x and y; *count is the points. Refusals: 1, 2, 5, 6, 9. */
uint32_t pz_simplify_polyline_3d(
    const double *points, size_t points_length,
    double tolerance,
    double *out, size_t out_length, size_t *count);

/* Thins commands by their ends, keeping every Move; *count is the commands. Refusals: 1, 2, 4, 5, 6, 9. */
uint32_t pz_simplify_data(
    const uint8_t *kinds, size_t kinds_length, const double *nums, size_t nums_length,
    double tolerance,
    uint8_t *out_kinds, size_t out_kinds_length, double *out_nums, size_t out_nums_length, size_t *count);

/* THE LIVE THINNER draws a lap while it is run: it is fed one point a time and hands out the ends of Lines as they are settled.
   Its state is the caller's: the slots hold `count` points, the anchor first and then up to 64 points held after it; `closed` is
   0 while it runs, and any other value says that it was closed. A call takes constant memory and measures at most 63 points.
   Any contents are allowed. Refusals, in the order in which they are checked, with the state left as it was:
   PZ_TOO_MANY (count above 65), PZ_BAD_NUMBER (any of the 195 numbers, or the point's), PZ_BAD_TOLERANCE, PZ_CLOSED. */
#define PZ_LIVE_SLOTS 65u
#define PZ_LIVE_NUMBERS 195u
#define PZ_LIVE_MOST_ENDS 63u

typedef struct {
    double tolerance;
    double points[PZ_LIVE_NUMBERS];
    size_t count;
    uint32_t closed;
} pz_thinner;

/* Starts a thinner: writes the whole state, with no point fed. PZ_BAD_TOLERANCE alone. */
uint32_t pz_live_start(double tolerance, double *kept, double *points, size_t *count, uint32_t *closed);

/* Feeds a point, three numbers. Where the line from the anchor to it is at or above the tolerance from a point between, or 64 points
   are held already, the previous point is handed out: *handed is 1 and `end` has its three numbers; else *handed is 0 and `end`
   stays. */
uint32_t pz_live_feed(
    double tolerance, double *points, size_t *count, uint32_t closed,
    const double *point, double *end, size_t *handed);

/* Closes the thinner: the last point fed is handed out, save where it is the only one; *closed is 1 then. */
uint32_t pz_live_close(
    double tolerance, const double *points, size_t count, uint32_t *closed,
    double *end, size_t *handed);

/* Sets a new tolerance, finer or coarser: the held points are fed again from the anchor under it, and the ends that this hands out go
   to `out`, three numbers each, and their count to *handed; ends handed out before stand. Refusals: PZ_NOT_WHOLE (out not whole
   points), PZ_TOO_MANY, PZ_BAD_NUMBER, PZ_BAD_TOLERANCE (either tolerance), PZ_CLOSED, PZ_NO_ROOM (out below 63 points, whatever is
   held). */
uint32_t pz_live_retune(
    double finer, double *tolerance, double *points, size_t *count, uint32_t closed,
    double *out, size_t out_length, size_t *handed);

static inline uint32_t pz_thinner_start(pz_thinner *s, double tolerance)
{
    return pz_live_start(tolerance, &s->tolerance, s->points, &s->count, &s->closed);
}

static inline uint32_t pz_thinner_feed(pz_thinner *s, const double point[3], double end[3], size_t *handed)
{
    return pz_live_feed(s->tolerance, s->points, &s->count, s->closed, point, end, handed);
}

static inline uint32_t pz_thinner_retune(pz_thinner *s, double finer, double *out, size_t out_length, size_t *handed)
{
    return pz_live_retune(finer, &s->tolerance, s->points, &s->count, s->closed, out, out_length, handed);
}

static inline uint32_t pz_thinner_close(pz_thinner *s, double end[3], size_t *handed)
{
    return pz_live_close(s->tolerance, s->points, s->count, &s->closed, end, handed);
}

/* An Arc drawn by at most so many Lines. */
#define PZ_MOST_LINES 4096u

/* Draws one Arc command, given as its kind and its nine numbers, from its start (x, y, z) on by Lines, for screens that draw
   no arcs; *count is the Lines. Each Line leaves the arc by less than a quarter of the tolerance, where ten halvings of a
   quarter turn reach that; the last ends at the Arc's own end, and the heights between rise evenly. Whatever the Arc, the
   output must have room for PZ_MOST_LINES kinds, and nine times as many numbers (294,912 bytes). PZ_NOT_DRAWABLE: the
   command is no Arc, its normal is neither (0, 0, 1) nor (0, 0, -1), its offset is above 1,000,000 in a coordinate, the
   start or the end is less than 1e-9 from the centre, or their distances from it differ by the tolerance or more. Refusals: 1, 4, 5,
   6, 11, 9. */
uint32_t pz_flatten_arc(
    uint8_t kind, const double *command, size_t command_length,
    double x, double y, double z,
    double tolerance,
    uint8_t *kinds, size_t kinds_length, double *nums, size_t nums_length, size_t *count);

/* Reads a course of SVG path data into a lap file; *count is the file's bytes. The text is absolute M, L and C of SVG 1.1, one
   letter before each command and M first; numbers have an optional minus, 1 to 7 digits and optionally a point with one to
   three decimals; single spaces stand between all items, and nothing else is read. A number is its thousandths divided by
   1000, z is 0, each M opens a lap, and no text (0 bytes) is the file of no laps. Refusals, in this order: PZ_TOO_MANY (a text
   above PZ_MOST_TEXT_BYTES), PZ_BAD_TEXT, PZ_TOO_MANY (above 64 laps or 800 commands), PZ_BAD_NUMBER, PZ_NO_ROOM. What is read
   is a recorded file: pz_fit_file refuses it by none of 1 to 5. */
#define PZ_MOST_TEXT_BYTES 65536u

uint32_t pz_read_course(
    const uint8_t *text, size_t text_bytes,
    uint8_t *out, size_t out_bytes, size_t *count);

/* Finds, for printed maps, the fewest Lines from the first point to the last, forward through points of the list, each pair's line
   deviation below the tolerance: a search in layers, in which each pair tested costs one of the budget. Each Line's end goes to
   `out`, three numbers each, in order; *count is the Lines, *tested the pairs, and *bound a lower bound: the true fewest lies from
   *bound to *count, and they are equal if the budget is at least n * (n - 1) / 2 (32,640 is enough for any list). Any budget is
   accepted, 0 too. Refusals: PZ_NOT_WHOLE (points or out not whole points), PZ_TOO_MANY (fewer than 2 points, or more than
   PZ_MOST_STRAIGHT_POINTS), PZ_BAD_NUMBER, PZ_BAD_TOLERANCE, PZ_NO_ROOM (out below n - 1 points). */
#define PZ_MOST_STRAIGHT_POINTS 256u

uint32_t pz_fewest_straights(
    const double *points, size_t points_length, double tolerance, uint64_t budget,
    double *out, size_t out_length, size_t *count, uint64_t *tested, size_t *bound);

/* THE PARTS of a fit, for who builds another one. Points are lent as above; a point that is handed in passes as its numbers; what a
   call finds goes to arrays of fixed size, which a refusal leaves as they were. */

/* Fits the points from index `start` to index `end` alone; nothing where start is not below end. Room for end - start commands,
   and as many worst steps, counted in all the points, as in pz_fit_points_with_primitives. Refusals: 1, 2, 5, 6, 7, 9. */
uint32_t pz_fit_points_recursive(
    const double *points, size_t points_length,
    double tolerance,
    size_t start, size_t end,
    uint8_t *kinds, size_t kinds_length, double *nums, size_t nums_length, uint32_t *worst, size_t worst_length,
    size_t *count);

/* Thins the chains of Lines of a path, or fits them with `use_fit_arcs`; every other command stays. Room for as many commands as
   are given. Refusals: 1, 2, 4, 5, 6, 9. */
uint32_t pz_optimize_path_from_array(
    const uint8_t *kinds, size_t kinds_length, const double *nums, size_t nums_length,
    double tolerance, bool use_fit_arcs,
    uint8_t *out_kinds, size_t out_kinds_length, double *out_nums, size_t out_nums_length, size_t *count);

/* How far a point between the indices `start` and `end` lies from the line through the points there, at most, and the first point
   that does: 0 and start where start is not below end. Refusals: 1, 2, 5, 7. */
uint32_t pz_get_polyline_line_deviation(
    const double *points, size_t points_length, size_t start, size_t end, double *dist, size_t *index);

/* How far points, or the steps between them, leave a circle, at most, and the point at which the first step starts that does so; 0
   and 0 below two points, and where each step lies on the circle. Refusals: 1, 2, 5. */
uint32_t pz_get_polyline_arc_deviation(
    const double *points, size_t points_length, double cx, double cy, double radius, double *dist, size_t *index);

/* Whether points lie on a line; fewer than three do. Refusals: 1, 2, 5, 6. */
uint32_t pz_are_points_collinear_3d(const double *points, size_t points_length, double tolerance, bool *collinear);

/* The circle through three points: *found, and where there is one, its centre and its radius. Refusals: 5. */
uint32_t pz_fit_circle_to_3_points(
    double p1x, double p1y, double p1z, double p2x, double p2y, double p2z, double p3x, double p3y, double p3z,
    bool *found, double answer[3]);

/* The circle of least squares: *found, and where there is one, its centre, its radius and its greatest error. None below three
   points, or of points on a line. Refusals: 1, 2, 5. */
uint32_t pz_fit_circle_to_points_3d(const double *points, size_t points_length, bool *found, double answer[4]);

/* A circle's centre, moved to the bisector of the chord from p1 to p2. Refusals: 5. */
uint32_t pz_project_circle_center_to_bisector(
    double p1x, double p1y, double p1z, double p2x, double p2y, double p2z, double cx, double cy, double answer[2]);

/* Whether points in the plane go clockwise round a centre; one point does not. Refusals: 1, 2, 5, 7 (no points). */
uint32_t pz_is_arc_clockwise(const double *points, size_t points_length, double cx, double cy, bool *clockwise);

/* The point between two. Refusals: 5. */
uint32_t pz_get_midpoint_3d(double ax, double ay, double az, double bx, double by, double bz, double answer[3]);

/* CURVES: cubic Beziers, in the order start (p0), both controls (c1, c2), end (p1). */

/* The point at t of a curve in the plane. Refusals: 5. */
uint32_t pz_get_bezier_point_at(
    double p0x, double p0y, double c1x, double c1y, double c2x, double c2y, double p1x, double p1y,
    double t, double answer[2]);

/* Both parts of a curve in the plane, cut at t: eight numbers each. Refusals: 5. */
uint32_t pz_split_bezier(
    double p0x, double p0y, double c1x, double c1y, double c2x, double c2y, double p1x, double p1y,
    double t, double answer[16]);

/* Whether a curve in the plane is flat: neither control is farther than the tolerance from the chord. Refusals: 5, 6. */
uint32_t pz_is_bezier_flat(
    double p0x, double p0y, double c1x, double c1y, double c2x, double c2y, double p1x, double p1y,
    double tolerance_sq, bool *flat);

/* A curve in space as so many steps of equal parameter; *count is the steps, six numbers each: from where, to where. Room for
   num_steps of them. Refusals: 1, 2 (0 steps, or above 2,048), 5, 9. */
uint32_t pz_linearize_bezier(
    double p0x, double p0y, double p0z, double c1x, double c1y, double c1z,
    double c2x, double c2y, double c2z, double p1x, double p1y, double p1z,
    size_t num_steps, double *out, size_t out_length, size_t *count);

/* The same by a resolution in metres, of a command's numbers: its end first, its start last. The heights of the controls are
   replaced by thirds. At least 2 steps, at most 800. Refusals: 1, 5, 6, 8, 9. */
uint32_t pz_linearize_bezier_from_params(
    double ex, double ey, double ez, double c1x, double c1y, double c1z,
    double c2x, double c2y, double c2z, double sx, double sy, double sz,
    double resolution, double *out, size_t out_length, size_t *count);

/* A curve in the plane halved until each part is flat, at most max_depth times; *count is the points, the start first. Room for
   1 + 2^max_depth points. Refusals: 1, 2 (a depth above 10), 5, 6, 9. */
uint32_t pz_linearize_bezier_adaptive(
    double p0x, double p0y, double c1x, double c1y, double c2x, double c2y, double p1x, double p1y,
    double tolerance_sq, size_t max_depth, double *out, size_t out_length, size_t *count);

/* A curve in space halved until each part is flat, at most ten times; the tolerance counts if it is `given`, else it is 0.01. *count
   is the points, the start first. Room for PZ_MOST_SEGMENT_POINTS points. Refusals: 1, 5, 6, 9. */
#define PZ_MOST_SEGMENT_POINTS 1025u

uint32_t pz_linearize_bezier_segment(
    double p0x, double p0y, double p0z, double c1x, double c1y, double c1z,
    double c2x, double c2y, double c2z, double p1x, double p1y, double p1z,
    bool given, double tolerance, double *out, size_t out_length, size_t *count);

/* The curve fitted to points in the plane: *found, and where there is one, its eight numbers. None below two points.
   Refusals: 1, 2, 5. */
uint32_t pz_fit_cubic_bezier(const double *points, size_t points_length, bool *found, double answer[8]);

/* NUMBERS, each for every double: the square root as IEEE 754 rounds it, the least whole number that is not below x, x without its
   sign, the greater of two (of a number and a NaN the number), x kept within least and most. */
double pz_sqrt(double x);
double pz_ceil(double x);
double pz_abs(double x);
double pz_max(double a, double b);
double pz_clamp(double x, double least, double most);

#ifdef __cplusplus
}
#endif

#endif
