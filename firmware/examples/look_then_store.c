/* The replacement of a lap in two steps, a look and a store, with static buffers:
       look_then_store TOLERANCE recorded.laps fitted.laps LAP other.laps OTHER_LAP > stored.laps
   fits lap OTHER_LAP of a recorded file into a buffer, says on standard error what it came to, and stores it in the place of lap LAP. A
   ticket serves once: the second store of it is refused, as it is after any other store, and the file stays as it is. */
#include "lap.h"

static uint8_t recorded[PZ_MOST_FILE_BYTES + 1], fitted[PZ_MOST_FILE_BYTES + 1], other[PZ_MOST_FILE_BYTES + 1];
static uint8_t stored[PZ_MOST_OUTPUT_BYTES];

/* What a look fits: the lap, and behind it the next one where that lacks its Move. */
static uint8_t part[PZ_COMMAND_BYTES * PZ_MOST_COMMANDS];

static struct lap lap;

int main(int words, char **word)
{
    if (words != 7) {
        fprintf(stderr, "usage: look_then_store TOLERANCE recorded.laps fitted.laps LAP other.laps OTHER_LAP > stored.laps\n");
        return 2;
    }
    size_t size = read_file(word[2], recorded), fitted_size = read_file(word[3], fitted), count;
    size_t commands = read_lap(other, read_file(word[5], other), strtoul(word[6], NULL, 10), &lap);
    pz_session session = {0};
    pz_ticket ticket;
    uint32_t refused = pz_session_ask(&session, recorded, size, fitted, fitted_size, strtoul(word[4], NULL, 10),
        lap.kinds, commands, lap.nums, PZ_COMMAND_NUMBERS * commands, strtod(word[1], NULL), part, sizeof part, &ticket);
    if (refused) {
        fprintf(stderr, "refused, %u\n", (unsigned)refused);
        return 1;
    }
    fprintf(stderr, "look_then_store: %zu commands, and %zu of the next lap; stored as edit 1\n", ticket.count, ticket.next);
    refused = pz_session_commit(&session, &ticket, recorded, size, fitted, fitted_size, part, pz_part_bytes(&ticket),
        stored, sizeof stored, &count);
    if (refused || fwrite(stored, 1, count, stdout) != count) {
        return 1;
    }
    return pz_session_commit(&session, &ticket, recorded, size, stored, count, part, pz_part_bytes(&ticket),
        fitted, sizeof fitted, &fitted_size) != PZ_OLD_TICKET;
}
