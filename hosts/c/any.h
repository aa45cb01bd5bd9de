/* For the test programs: random numbers, and memory between two forbidden pages, where one byte too many, read or
 * written, ends the program. (To be included first.) */
#ifndef ANY_H
#define ANY_H

#define _DEFAULT_SOURCE
#include "expect.h"
#include <stdbool.h>
#include <stddef.h>
#include <stdint.h>
#include <sys/mman.h>
#include <unistd.h>

static uint64_t seed = 1;

static uint32_t any(void)
{
    seed += 0x9e3779b97f4a7c15;
    uint64_t mixed = (seed ^ (seed >> 32)) * 0xd6e8feb86659fd93;
    return (uint32_t)((mixed ^ (mixed >> 32)) >> 8);
}

static bool once_in(uint32_t times)
{
    return any() % times == 0;
}

static void any_bytes(void *memory, size_t size)
{
    uint32_t four = 0;
    for (size_t i = 0; i < size; i++) {
        four = i % 4 == 0 ? any() : four >> 8;
        ((uint8_t *)memory)[i] = (uint8_t)four;
    }
}

/* Memory that lies at the end of its page or at its start. */
struct fenced {
    uint8_t *page;
    size_t page_size;
    bool at_end;
};

static inline struct fenced fence(bool at_end)
{
    size_t size = (size_t)sysconf(_SC_PAGESIZE);
    uint8_t *pages = mmap(NULL, 3 * size, PROT_NONE, MAP_PRIVATE | MAP_ANONYMOUS, -1, 0);
    EXPECT(pages != MAP_FAILED && mprotect(pages + size, size, PROT_READ | PROT_WRITE) == 0);
    return (struct fenced){ pages + size, size, at_end };
}

/* The `size` bytes of it that lie against the fence. */
static inline void *lent(struct fenced memory, size_t size)
{
    return memory.at_end ? memory.page + memory.page_size - size : memory.page;
}

#endif
