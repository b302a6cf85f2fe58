/* Is loaded before a program: counts with which status it ends, in the file FUZZED_COUNTS of 256 numbers of 8 bytes. A status that
   docs/FORMATS.md doesn't have for `replay` becomes a signal, which a fuzzer sees. tools/fuzz-replay builds this. */
#include <fcntl.h>
#include <stdlib.h>
#include <sys/mman.h>
#include <unistd.h>

static const int known[] = {0, 64, 65, 66, 69, 71, 73, 74};
static unsigned long *counts;

static void look(int status, void *unused) {
    (void)unused;
    counts[status & 255] += 1;
    for (size_t index = 0; index < sizeof known / sizeof *known; index++)
        if (status == known[index])
            return;
    abort();
}

__attribute__((constructor)) static void begin(void) {
    int file = open(getenv("FUZZED_COUNTS"), O_RDWR);
    void *mapped = mmap(NULL, 256 * sizeof *counts, PROT_READ | PROT_WRITE, MAP_SHARED, file, 0);
    if (mapped == MAP_FAILED || on_exit(look, NULL))
        abort();
    close(file);
    counts = mapped;
}
