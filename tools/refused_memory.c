/* Is loaded before a program, and refuses memory that it asks for: of its allocations, counted from 1, the one whose number
   REFUSED_NUMBER is, and with REFUSED_ALWAYS each one after it. The file REFUSED_COUNTS, of 24 bytes, gets how many there were, how many
   of these were refused, and the bytes that the first refused one was to have. A program that goes on asking ends with status 99 at its
   tenth refusal. tools/try-memory builds this. */
#include <errno.h>
#include <fcntl.h>
#include <stddef.h>
#include <stdlib.h>
#include <sys/mman.h>
#include <unistd.h>

void *__libc_malloc(size_t size);
void *__libc_calloc(size_t count, size_t size);
void *__libc_realloc(void *old, size_t size);
void *__libc_memalign(size_t alignment, size_t size);

static unsigned long number, *counts;
static int always;

__attribute__((constructor)) static void begin(void) {
    int file = open(getenv("REFUSED_COUNTS"), O_RDWR);
    void *mapped = mmap(NULL, 24, PROT_READ | PROT_WRITE, MAP_SHARED, file, 0);
    if (mapped == MAP_FAILED)
        abort();
    close(file);
    number = strtoul(getenv("REFUSED_NUMBER"), NULL, 10);
    always = getenv("REFUSED_ALWAYS") != NULL;
    counts = mapped;
}

static int is_refused(size_t size) {
    if (!counts)
        return 0;
    counts[0] += 1;
    if (!number || counts[0] < number || (counts[0] > number && !always))
        return 0;
    if (counts[1]++ == 0)
        counts[2] = size;
    if (counts[1] == 10)
        _exit(99);
    errno = ENOMEM;
    return 1;
}

void *malloc(size_t size) { return is_refused(size) ? NULL : __libc_malloc(size); }

void *calloc(size_t count, size_t size) { return is_refused(count * size) ? NULL : __libc_calloc(count, size); }

void *realloc(void *old, size_t size) { return is_refused(size) ? NULL : __libc_realloc(old, size); }

void *memalign(size_t alignment, size_t size) { return is_refused(size) ? NULL : __libc_memalign(alignment, size); }

void *aligned_alloc(size_t alignment, size_t size) { return memalign(alignment, size); }

int posix_memalign(void **made, size_t alignment, size_t size) {
    void *memory = memalign(alignment, size);
    if (!memory)
        return ENOMEM;
    *made = memory;
    return 0;
}
