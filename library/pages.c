/* Large blocks of memory in large pages, where the system has them.
 *
 * Each request of the library for new memory comes here. One below 4 MB goes on to malloc as it is. A block of 4 MB or
 * more begins at a large page, and Linux is asked for pages of 2 MB of it: an output whose length the plan says is one
 * block, written once from its front, and pages of 4 KB cost a third of a run. It is advice: where it is not followed
 * only the time differs. realloc and free take such a block as any other. */
#define _DEFAULT_SOURCE
#include <stdint.h>
#include <stdlib.h>
#include <sys/mman.h>

#define PAGE ((size_t)2 << 20)

void *advised_malloc(size_t size);

void *advised_malloc(size_t size)
{
#ifdef MADV_HUGEPAGE
    if (size >= 2 * PAGE) {
        void *block;
        if (posix_memalign(&block, PAGE, size))
            return NULL;
        madvise(block, size & -PAGE, MADV_HUGEPAGE);
        return block;
    }
#endif
    return malloc(size);
}
