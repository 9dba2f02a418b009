/* The replacement of a lap of a fitted file, with static buffers:
       replace_lap TOLERANCE recorded.laps fitted.laps LAP other.laps OTHER_LAP > replaced.laps
   puts the fit of lap OTHER_LAP of a recorded file in the place of lap LAP. All other laps stay as they were fitted, byte for byte. */
#include "lap.h"

static uint8_t recorded[PZ_MOST_FILE_BYTES + 1], fitted[PZ_MOST_FILE_BYTES + 1], other[PZ_MOST_FILE_BYTES + 1];
static uint8_t replaced[PZ_MOST_OUTPUT_BYTES];

static struct lap lap;

int main(int words, char **word)
{
    if (words != 7) {
        fprintf(stderr, "usage: replace_lap TOLERANCE recorded.laps fitted.laps LAP other.laps OTHER_LAP > replaced.laps\n");
        return 2;
    }
    size_t size = read_file(word[2], recorded), fitted_size = read_file(word[3], fitted), count;
    size_t commands = read_lap(other, read_file(word[5], other), strtoul(word[6], NULL, 10), &lap);
    uint32_t refused = pz_replace_lap(recorded, size, fitted, fitted_size, strtoul(word[4], NULL, 10),
        lap.kinds, commands, lap.nums, PZ_COMMAND_NUMBERS * commands, strtod(word[1], NULL), replaced, sizeof replaced, &count);
    if (refused) {
        fprintf(stderr, "refused, %u\n", (unsigned)refused);
        return 1;
    }
    return fwrite(replaced, 1, count, stdout) != count;
}
