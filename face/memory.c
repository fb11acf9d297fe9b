/* Memory for the proved calls, in the place of malloc, realloc and free: the link gives it these names.
 *
 * A block of less than TABLE_MIN bytes comes from malloc, and is overwritten before it goes back. A larger one, the table of scrypt,
 * yescrypt or Argon2, is a mapping of its own on huge pages, where the system has them: its first touch is then some 500 times fewer
 * faults. It goes back to the system at once, and its content with it. A header before each block says what it is. */
#include <errno.h>
#include <stdint.h>
#include <stdlib.h>
#include <string.h>
#include <sys/mman.h>

#include "face.h"

/* The last piece of a table is a huge page of its own where it would be 64 pages or more. From there on one fault that clears 2 MiB is
 * quicker than theirs. */
enum { PAGE = 4096, HUGE_PAGE = 2 << 20, TABLE_MIN = 2 << 20, TAIL_MIN = 64 * PAGE };

/* What stands before a block. Its size keeps the block aligned as malloc aligns. */
struct header {
    size_t size;    /* the bytes of the block */
    size_t mapped;  /* the bytes of its mapping; 0 for a block of malloc */
    void *mapping;
    void *unused;
};

void *face_malloc(size_t size);
void *face_realloc(void *block, size_t size);
void face_free(void *block);

static struct header *header_of(void *block)
{
    return (struct header *)block - 1;
}

/* A mapping whose block begins at a huge page, after a page with the header; null where there is none. */
static void *map_table(size_t size)
{
    size_t unit = size % HUGE_PAGE < TAIL_MIN ? PAGE : HUGE_PAGE;
    size_t table = (size + unit - 1) / unit * unit, whole = table + HUGE_PAGE + PAGE;
    char *mapping = mmap(NULL, whole, PROT_READ | PROT_WRITE, MAP_PRIVATE | MAP_ANONYMOUS, -1, 0);
    if (mapping == MAP_FAILED)
        return NULL;
    char *block = (char *)(((uintptr_t)mapping + PAGE + HUGE_PAGE - 1) / HUGE_PAGE * HUGE_PAGE), *first = block - PAGE;
    char *end = block + table, *mapped_end = mapping + whole;
    if (first > mapping)
        munmap(mapping, (size_t)(first - mapping));
    if (mapped_end > end)
        munmap(end, (size_t)(mapped_end - end));
    madvise(block, table, MADV_HUGEPAGE);
    *header_of(block) = (struct header){size, PAGE + table, first, NULL};
    return block;
}

void *face_malloc(size_t size)
{
    int before = errno;
    if (size > PTRDIFF_MAX - 2 * HUGE_PAGE - PAGE) {
        errno = ENOMEM;
        return NULL;
    }
    void *table = size >= TABLE_MIN ? map_table(size) : NULL;
    errno = before;
    if (table)
        return table;
    struct header *header = malloc(sizeof *header + size);
    if (!header)
        return NULL;
    *header = (struct header){size, 0, NULL, NULL};
    return header + 1;
}

void face_free(void *block)
{
    if (!block)
        return;
    struct header header = *header_of(block);
    if (header.mapped) {
        int before = errno;
        munmap(header.mapping, header.mapped);
        errno = before;
        return;
    }
    explicit_bzero(header_of(block), sizeof header + header.size);
    free(header_of(block));
}

void *face_realloc(void *block, size_t size)
{
    void *other = face_malloc(size);
    if (other && block) {
        size_t old = header_of(block)->size;
        memcpy(other, block, old < size ? old : size);
        face_free(block);
    }
    return other;
}
