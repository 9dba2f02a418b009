/* What the examples share: reading a file, and a lap of it as the calls take it. The buffers are static, of the greatest size; a byte
   more for a file shows one that is too long. */
#ifndef LAP_H
#define LAP_H
#include <stdio.h>
#include <stdlib.h>
#include <string.h>
#include <pizhgarol.h>

/* The commands of a lap. Their numbers are lent aligned, which they are not in a file. */
struct lap {
    uint8_t kinds[PZ_MOST_COMMANDS];
    double nums[PZ_COMMAND_NUMBERS * PZ_MOST_COMMANDS];
};

static inline size_t read_file(const char *name, uint8_t file[PZ_MOST_FILE_BYTES + 1])
{
    FILE *from = fopen(name, "rb");
    if (!from) {
        perror(name);
        exit(2);
    }
    size_t size = fread(file, 1, PZ_MOST_FILE_BYTES + 1, from);
    fclose(from);
    return size;
}

static inline uint32_t u32_at(const uint8_t *file, size_t at)
{
    return file[at] | (uint32_t)file[at + 1] << 8 | (uint32_t)file[at + 2] << 16 | (uint32_t)file[at + 3] << 24;
}

/* The commands of a lap, from 1, of a file of so many bytes; how many, or 0 where it has no such lap. That they are a lap's is what
   the call itself checks. The file's numbers are little-endian, as those of x86-64. */
static inline size_t read_lap(const uint8_t *file, size_t size, size_t number, struct lap *lap)
{
    if (number < 1 || number > PZ_MOST_LAPS || size < 8 + 8 * number || number > u32_at(file, 4)) {
        return 0;
    }
    size_t at = u32_at(file, 8 * number), commands = u32_at(file, 8 * number + 4);
    if (commands > PZ_MOST_COMMANDS || at > size || PZ_COMMAND_BYTES * commands > size - at) {
        return 0;
    }
    for (size_t i = 0; i < commands; i++, at += PZ_COMMAND_BYTES) {
        lap->kinds[i] = file[at];
        memcpy(lap->nums + PZ_COMMAND_NUMBERS * i, file + at + 1, PZ_COMMAND_BYTES - 1);
    }
    return commands;
}

#endif
