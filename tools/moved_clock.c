/* Is loaded before a program, and moves its clock: the file CLOCK_MOVED, of 8 bytes, has by how many seconds, and may be written while the program
   runs. Its monotonic clock isn't moved. tools/try-clock builds this. */
#include <fcntl.h>
#include <stdlib.h>
#include <sys/mman.h>
#include <sys/syscall.h>
#include <time.h>
#include <unistd.h>

static volatile long *moved;

__attribute__((constructor)) static void begin(void) {
    int file = open(getenv("CLOCK_MOVED"), O_RDONLY);
    void *mapped = mmap(NULL, 8, PROT_READ, MAP_SHARED, file, 0);
    if (mapped == MAP_FAILED)
        abort();
    close(file);
    moved = mapped;
}

int clock_gettime(clockid_t clock, struct timespec *now) {
    int status = syscall(SYS_clock_gettime, clock, now);
    if (status == 0 && clock == CLOCK_REALTIME && moved)
        now->tv_sec += *moved;
    return status;
}
