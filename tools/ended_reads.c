/* Is loaded before a program, and ends its reads of the file READ_PATH early: of these reads, counted from 1, the one whose number READ_NUMBER
   is brings READ_BYTES bytes at most, and with READ_ALWAYS each one after it none. With the number 0 each brings READ_BYTES bytes at most.
   The file READ_COUNTS, of 16 bytes, gets how many reads there were, and how many of these brought fewer bytes than the file has there.
   tools/try-reads builds this. */
#define _GNU_SOURCE
#include <fcntl.h>
#include <stdio.h>
#include <stdlib.h>
#include <string.h>
#include <sys/mman.h>
#include <sys/syscall.h>
#include <unistd.h>

static unsigned long number, most, *counts;
static int always;
static const char *path;

__attribute__((constructor)) static void begin(void) {
    int file = open(getenv("READ_COUNTS"), O_RDWR);
    void *mapped = mmap(NULL, 16, PROT_READ | PROT_WRITE, MAP_SHARED, file, 0);
    if (mapped == MAP_FAILED)
        abort();
    close(file);
    path = getenv("READ_PATH");
    number = strtoul(getenv("READ_NUMBER"), NULL, 10);
    most = strtoul(getenv("READ_BYTES"), NULL, 10);
    always = getenv("READ_ALWAYS") != NULL;
    counts = mapped;
}

static int is_of_path(int file) {
    char link[64], found[4096];
    snprintf(link, sizeof link, "/proc/self/fd/%d", file);
    ssize_t size = readlink(link, found, sizeof found - 1);
    if (size < 0)
        return 0;
    found[size] = 0;
    return strcmp(found, path) == 0;
}

/* How many bytes the read of this number brings at most. */
static unsigned long most_of(unsigned long read) {
    if (!number || read == number)
        return most;
    return read > number && always ? 0 : (unsigned long)-1;
}

ssize_t pread(int file, void *buf, size_t size, off_t offset) {
    ssize_t count = syscall(SYS_pread64, file, buf, size, offset);
    if (count < 0 || !is_of_path(file))
        return count;
    counts[0] += 1;
    if ((unsigned long)count <= most_of(counts[0]))
        return count;
    counts[1] += 1;
    return most_of(counts[0]);
}

ssize_t pread64(int file, void *buf, size_t size, off_t offset) { return pread(file, buf, size, offset); }
