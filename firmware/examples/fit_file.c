/* The fit of a lap file with static buffers, and what it holds:
       fit_file TOLERANCE < recorded.laps > fitted.laps
   Both buffers are of the greatest size, so no file meets PZ_NO_ROOM; a byte more for the input shows a file that is too long. */
#include "lap.h"

static uint8_t recorded[PZ_MOST_FILE_BYTES + 1], fitted[PZ_MOST_OUTPUT_BYTES];

/* A fitted file needs no check: its laps stand where its table says, with a Move where one was recorded, Lines and Arcs. */
static void tell(void)
{
    for (uint32_t lap = 0; lap < u32_at(fitted, 4); lap++) {
        uint32_t at = u32_at(fitted, 8 + 8 * lap), commands = u32_at(fitted, 12 + 8 * lap), lines = 0, arcs = 0;
        for (uint32_t i = 0; i < commands; i++) {
            uint8_t kind = fitted[at + PZ_COMMAND_BYTES * i];
            lines += kind == PZ_LINE;
            arcs += kind == PZ_ARC;
        }
        fprintf(stderr, "lap %u: %u Lines, %u Arcs\n", (unsigned)lap + 1, (unsigned)lines, (unsigned)arcs);
    }
}

int main(int words, char **word)
{
    if (words != 2) {
        fprintf(stderr, "usage: fit_file TOLERANCE < recorded.laps > fitted.laps\n");
        return 2;
    }
    if (pz_version() != PZ_VERSION) {
        fprintf(stderr, "the archive is not of this header\n");
        return 2;
    }
    size_t size = fread(recorded, 1, sizeof recorded, stdin), count;
    uint32_t refused = pz_fit_file(recorded, size, strtod(word[1], NULL), fitted, sizeof fitted, &count);
    if (refused) {
        fprintf(stderr, "refused, %u\n", (unsigned)refused);
        return 1;
    }
    tell();
    return fwrite(fitted, 1, count, stdout) != count;
}
