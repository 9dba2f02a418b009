/* For a guided fuzzer (libFuzzer): an input is eight bytes of tolerance and a lap file, as lapfit reads them; the file's bytes are read
   as path data too. What it watches is this side: rows.h, which knows the file, and what the calls answer, which is counted here
   (`seen`), since the archive carries no marks of its own. */
#include "calls.h"

#define FEW 8u
#define CALLS 5u

/* By answer of each call; and of accepted fits, by how many Lines and Arcs a lap has. */
__attribute__((section("__libfuzzer_extra_counters"))) static uint8_t seen[CALLS * 16 + FEW * FEW];

static uint32_t few(uint32_t n)
{
    return n < FEW ? n : FEW - 1;
}

static void see(uint32_t call, uint32_t answer)
{
    seen[16 * call + answer] = 1;
}

static void see_laps(const uint8_t *fit, size_t size)
{
    struct view v = look(fit, size);
    for (uint32_t lap = 0; lap < v.laps; lap++) {
        uint32_t lines = 0, arcs = 0;
        for (uint32_t i = 0; i < v.count[lap]; i++) {
            lines += fit[v.at[lap] + PZ_COMMAND_BYTES * (size_t)i] == PZ_LINE;
            arcs += fit[v.at[lap] + PZ_COMMAND_BYTES * (size_t)i] == PZ_ARC;
        }
        seen[CALLS * 16 + FEW * few(lines) + few(arcs)] = 1;
    }
}

int LLVMFuzzerTestOneInput(const uint8_t *data, size_t size);

int LLVMFuzzerTestOneInput(const uint8_t *data, size_t size)
{
    static uint8_t fit[PZ_MOST_OUTPUT_BYTES];
    double tolerance;
    size_t fit_size;
    if (!out_end) {
        make_all_pages();
    }
    if (size < 8 || size - 8 > PZ_MOST_FILE_BYTES + 1) {
        return 0;
    }
    memcpy(&tolerance, data, 8);
    data += 8;
    size -= 8;
    case_number++;
    see(0, try_text(data, size));
    size_t room = size % 2 ? PZ_MOST_OUTPUT_BYTES : size % PZ_MOST_OUTPUT_BYTES;
    see(1, try_fit(pz_fit_file, data, size, tolerance, room));
    see(4, try_fit(pz_fit_hills, data, size, tolerance, room));
    struct view v = look(data, size);
    if (v.laps && (!v.row || v.row > PZ_BAD_FILE)) {
        struct lap l = {data + v.at[0], v.count[0], PZ_COMMAND_NUMBERS * v.count[0]};
        see(2, try_replacement(data, size, data, size, v.laps, &l, tolerance, size % 2));
        if (pz_fit_file(data, size, 1, fit, sizeof fit, &fit_size) == PZ_DONE) {
            see_laps(fit, fit_size);
            see(3, try_replacement(data, size, fit, fit_size, 1, &l, tolerance, 0));
        }
    }
    return 0;
}
