/* Memory that the tests lend. What is lent ends where a page ends that nothing may touch, so a read or a write past it ends
   the test at once; inputs stand in pages that may only be read; and outputs have guard bytes in front of them, and hold a
   mark in each byte. */
#include <stdlib.h>
#include <string.h>
#include <sys/mman.h>
#include <unistd.h>
#include "checks.h"

#define GUARD 64
#define MARK 0xA5

/* How many bytes the pages of a buffer have, its guard bytes included. */
static size_t pages_of(size_t size)
{
    size_t page = (size_t)sysconf(_SC_PAGESIZE);
    return (size + GUARD + page - 1) / page * page;
}

/* A buffer of `size` bytes that holds marks, between guard bytes and a page that may not be touched. */
static void *lend(size_t size)
{
    size_t page = (size_t)sysconf(_SC_PAGESIZE), inner = pages_of(size);
    unsigned char *whole = mmap(NULL, inner + 2 * page, PROT_NONE, MAP_PRIVATE | MAP_ANONYMOUS, -1, 0);
    if (whole == MAP_FAILED || mprotect(whole + page, inner, PROT_READ | PROT_WRITE)) {
        perror("mmap");
        exit(2);
    }
    memset(whole + page, MARK, inner);
    return whole + page + inner - size;
}

static unsigned char *pages_at(const void *lent, size_t size)
{
    return (unsigned char *)lent + size - pages_of(size);
}

static void give_back(void *lent, size_t size)
{
    size_t page = (size_t)sysconf(_SC_PAGESIZE);
    munmap(pages_at(lent, size) - page, pages_of(size) + 2 * page);
}

/* A copy of an input, which may only be read. */
static void *lend_input(const void *bytes, size_t size)
{
    void *lent = lend(size);
    memcpy(lent, bytes, size);
    if (mprotect(pages_at(lent, size), pages_of(size), PROT_READ)) {
        perror("mprotect");
        exit(2);
    }
    return lent;
}

static int marked(const unsigned char *at, size_t size)
{
    for (size_t i = 0; i < size; i++) {
        if (at[i] != MARK) {
            return 0;
        }
    }
    return 1;
}

/* Whether the guards are whole and nothing changed from byte `used` on. */
static int kept(const void *lent, size_t size, size_t used)
{
    const unsigned char *at = lent, *front = pages_at(lent, size);
    return marked(front, (size_t)(at - front)) && marked(at + used, size - used);
}
