/* Draws lap files, damages them and calls what reads them:
       damaged COUNT SEED
   makes COUNT files, both fits each, which answer alike; each fourth is tried as the recorded and as the fitted file of a replacement too, and for each
   eighth a text of path data is damaged and read. A seed repeats its run. What must hold is in calls.h. */
#include "calls.h"

#define NUMBERS 16

/* Damage makes a file longer by a few commands. */
#define FILE_ROOM (PZ_MOST_FILE_BYTES + 512)

static uint64_t state;
static uint8_t file[FILE_ROOM], whole[FILE_ROOM], earlier[FILE_ROOM], fit[PZ_MOST_OUTPUT_BYTES];
static size_t size, whole_size, earlier_size, fit_size;

/* Sebastiano Vigna's splitmix64. */
static uint64_t draw(void)
{
    uint64_t z = state += 0x9E3779B97F4A7C15u;
    z = (z ^ (z >> 30)) * 0xBF58476D1CE4E5B9u;
    z = (z ^ (z >> 27)) * 0x94D049BB133111EBu;
    return z ^ (z >> 31);
}

static size_t below(size_t n)
{
    return (size_t)(draw() % n);
}

static void put_u32(uint8_t *at, uint32_t n)
{
    for (int i = 0; i < 4; i++) {
        at[i] = (uint8_t)(n >> 8 * i);
    }
}

static void put_number(uint8_t *command, int i, double x)
{
    memcpy(command + 1 + 8 * i, &x, 8);
}

/* A command from where the last one ended: mostly a Line a few metres on. */
static void put_command(uint8_t *at, bool first, bool curves, double *x, double *y)
{
    size_t kind = below(16);
    memset(at, 0, PZ_COMMAND_BYTES);
    at[0] = first ? PZ_MOVE : kind < 13 ? PZ_LINE : kind < 15 || !curves ? PZ_ARC : PZ_BEZIER;
    *x += (double)below(81) / 4 - 8;
    *y += (double)below(81) / 4 - 8;
    put_number(at, 0, *x);
    put_number(at, 1, *y);
    put_number(at, 2, (double)below(9));
    for (int i = 3; i < 9 && at[0] > PZ_LINE; i++) {
        put_number(at, i, at[0] == PZ_BEZIER ? (i % 3 ? *y : *x) + (double)below(5) : (double)below(33) / 4 - 4);
    }
}

/* How many commands the next lap has: of a large file the last lap fills it to its most, or beside that. */
static size_t draw_count(bool large, size_t left, size_t before)
{
    size_t filled = PZ_MOST_COMMANDS - 1 + below(3);
    return !large ? 1 + below(12) : left > 1 ? 1 + below(PZ_MOST_COMMANDS / PZ_MOST_LAPS) : filled - before;
}

/* A file as the papers say: mostly some short laps, of which some carry on; now and then as many as it may have, or one more. */
static void draw_file(void)
{
    bool large = !below(2048), curves = !large || below(2);
    size_t laps = large ? PZ_MOST_LAPS - 1 + below(3) : below(4), total = 0;
    double x = 0, y = 0;
    memcpy(file, "LAPS", 4);
    put_u32(file + 4, (uint32_t)laps);
    size = 8 + 8 * laps;
    for (size_t lap = 0; lap < laps; lap++) {
        size_t commands = draw_count(large, laps - lap, total);
        bool carries_on = !below(3);
        put_u32(file + 8 + 8 * lap, (uint32_t)size);
        put_u32(file + 12 + 8 * lap, (uint32_t)commands);
        total += commands;
        for (size_t i = 0; i < commands; i++, size += PZ_COMMAND_BYTES) {
            put_command(file + size, i == 0 && !(lap && carries_on), curves, &x, &y);
        }
    }
}

/* Where one of the commands starts, or 0 where there is none. */
static size_t command_place(void)
{
    size_t head = size < 8 ? size : 8 + 8 * (size_t)(file[4] & 63), commands = size > head ? (size - head) / PZ_COMMAND_BYTES : 0;
    return commands ? head + PZ_COMMAND_BYTES * below(commands) : 0;
}

static const double odd_numbers[NUMBERS] = {0, -0.0, NAN, INFINITY, -INFINITY, 1e6, -1e6, 1000000.0000000001, -1000000.0000000001, 1e300,
    -1e300, 5e-324, 1e-9, 1, 999999, 0.001};

/* Mostly an end's x or y. */
static void damage_number(void)
{
    size_t at = command_place();
    if (at) {
        memcpy(file + at + 1 + 8 * below(below(4) ? 2 : 9), &odd_numbers[below(NUMBERS)], 8);
    }
}

static void damage_table(void)
{
    const uint32_t numbers[NUMBERS] = {0, 1, 2, 7, 8, 16, 63, 64, 65, 799, 800, 801, 0x7FFFFFFF, 0xFFFFFFFF,
        (uint32_t)size, (uint32_t)below(1000)};
    size_t at = 4 * below(6);
    if (at + 4 <= size) {
        put_u32(file + at, numbers[below(NUMBERS)]);
    }
}

/* Bytes taken out, put in, or copied over others. */
static void move_bytes(void)
{
    size_t length = below(2) ? PZ_COMMAND_BYTES : 1 + below(100), from = below(size + 1), to = below(size + 1);
    length = from + length > size ? size - from : length;
    switch (below(3)) {
    case 0:
        memmove(file + from, file + from + length, size - from - length);
        size -= length;
        break;
    case 1:
        length = size + length > FILE_ROOM ? 0 : length;
        memmove(file + from + length, file + from, size - from);
        size += length;
        break;
    default:
        memmove(file + to, file + from, to + length > size ? size - to : length);
    }
}

/* Cut short; now and then as long as a file may be, or a byte longer. */
static void damage_size(void)
{
    size = below(512) ? below(size + 1) : PZ_MOST_FILE_BYTES + below(2);
}

static void damage(void)
{
    switch (below(8)) {
    case 0:
        damage_size();
        break;
    case 1:
        damage_table();
        break;
    case 2:
    case 3:
        damage_number();
        break;
    case 4:
        move_bytes();
        break;
    case 5:
        file[command_place()] = (uint8_t)below(6);
        break;
    default:
        if (size) {
            file[below(size)] ^= (uint8_t)(1u << below(8));
        }
    }
}

/* From 0.001 to 1,000 evenly in digits, now and then beside it. */
static double draw_tolerance(void)
{
    static const double beside[6] = {0, 0.0009999999999999999, 1000.0000000000001, NAN, -1, INFINITY};
    return below(64) ? 0.001 * pow(10, (double)below(6001) / 1000) : beside[below(6)];
}

/* As much room as the file needs, a byte less, or all that there may be. */
static size_t draw_room(void)
{
    struct view v = look(file, size);
    size_t needed = v.row ? 8 : pz_file_bytes(v.laps, v.commands);
    switch (v.curves ? 2 : below(3)) {
    case 0:
        return needed;
    case 1:
        return needed - 1;
    default:
        return below(64) ? needed + below(1000) : PZ_MOST_OUTPUT_BYTES;
    }
}

/* A lap to put in: mostly a short one, now and then as long as a course may be, or one more; now and then damaged. */
static struct lap draw_lap(void)
{
    static uint8_t bytes[PZ_COMMAND_BYTES * (PZ_MOST_COMMANDS + 1)];
    struct lap l = {bytes, below(64) ? 1 + below(8) : PZ_MOST_COMMANDS - 1 + below(3), 0};
    bool curves = below(2);
    double x = 0, y = 0;
    for (size_t i = 0; i < l.commands; i++) {
        put_command(bytes + PZ_COMMAND_BYTES * i, i == 0, curves, &x, &y);
    }
    size_t wrong = below(32), at = PZ_COMMAND_BYTES * below(l.commands);
    if (wrong == 0) {
        bytes[at] = (uint8_t)below(6);
    } else if (wrong == 1) {
        memcpy(bytes + at + 1 + 8 * below(9), &odd_numbers[below(NUMBERS)], 8);
    } else if (wrong == 2) {
        l.commands = 0;
    }
    l.numbers = PZ_COMMAND_NUMBERS * l.commands - (wrong == 3);
    return l;
}

/* Both fits of the damaged file: the answer is one number. */
static uint32_t try_fits(double tolerance, size_t room)
{
    uint32_t answer = try_fit(pz_fit_file, file, size, tolerance, room);
    hold(try_fit(pz_fit_hills, file, size, tolerance, room) == answer, "the fit for hills has another answer");
    return answer;
}

/* The damaged file beside the whole one and its fit, both ways; and the whole one beside another, which may have other laps. */
static void try_replacements(double tolerance, uint64_t answers[16])
{
    size_t lap = below(5), less = below(2);
    struct lap l = draw_lap();
    if (pz_fit_file(whole, whole_size, 1, fit, sizeof fit, &fit_size) == PZ_DONE) {
        answers[try_replacement(file, size, fit, fit_size, lap, &l, tolerance, less)]++;
    }
    answers[try_replacement(whole, whole_size, file, size, lap, &l, tolerance, less)]++;
    answers[try_replacement(whole, whole_size, earlier, earlier_size, lap, &l, tolerance, less)]++;
    memcpy(earlier, whole, earlier_size = whole_size);
}

/* Path data of some commands, with a few letters or digits exchanged. */
static void try_path(uint64_t answers[16])
{
    static const char others[] = "MLCmlcZ 0123456789.-,\n";
    char text[512];
    size_t length = (size_t)sprintf(text, "M %d %d.%d", (int)below(3000) - 1500, (int)below(99), (int)below(999));
    for (size_t i = below(6); i; i--) {
        length += (size_t)(below(3) ? sprintf(text + length, " L %d.%d -%d", (int)below(1200000), (int)below(99), (int)below(9))
                                    : sprintf(text + length, " C 1 2 %d 4 5 6.%d", (int)below(99), (int)below(9)));
    }
    for (size_t i = below(3); i; i--) {
        text[below(length)] = others[below(sizeof others - 1)];
    }
    answers[try_text((const uint8_t *)text, below(8) ? length : below(length + 1))]++;
}

static void tell(const char *what, const uint64_t answers[16])
{
    printf("%s:", what);
    for (int i = 0; i < 16; i++) {
        if (answers[i]) {
            printf(" %d: %llu", i, (unsigned long long)answers[i]);
        }
    }
    printf("\n");
}

int main(int words, char **word)
{
    uint64_t fits[16] = {0}, replacements[16] = {0}, texts[16] = {0};
    uint64_t count = words == 3 ? strtoull(word[1], NULL, 10) : 0;
    state = words == 3 ? strtoull(word[2], NULL, 10) : 0;
    make_all_pages();
    for (case_number = 0; case_number < count; case_number++) {
        double tolerance = draw_tolerance();
        draw_file();
        memcpy(whole, file, whole_size = size);
        for (size_t i = below(16) ? 1 + below(3) : 0; i; i--) {
            damage();
        }
        fits[try_fits(tolerance, draw_room())]++;
        if (case_number % 4 == 0) {
            try_replacements(tolerance, replacements);
        }
        if (case_number % 8 == 0) {
            try_path(texts);
        }
    }
    tell("fits, by answer", fits);
    tell("replacements", replacements);
    tell("texts", texts);
    printf("%llu damaged files of seed %s, 0 wrong\n", (unsigned long long)count, words == 3 ? word[2] : "none");
    return words != 3;
}
