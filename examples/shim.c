// Stands before the program (LD_PRELOAD): its monotonic clock and its wall clock are moved by so many milliseconds. The file
// that LBFS_CLOCKS names has these as two numbers of eight bytes, which may change while the program runs. And a write takes
// at most as many bytes as LBFS_PART says.
#define _GNU_SOURCE
#include <fcntl.h>
#include <stdint.h>
#include <stdlib.h>
#include <sys/mman.h>
#include <sys/syscall.h>
#include <time.h>
#include <unistd.h>

enum { SECOND = 1000000000, MILLI = 1000000 };

static volatile int64_t *moved;
static size_t part = SIZE_MAX;

__attribute__((constructor)) static void find(void) {
    const char *name = getenv("LBFS_CLOCKS");
    int file = name ? open(name, O_RDONLY) : -1;
    void *at = file < 0 ? MAP_FAILED : mmap(0, 2 * sizeof *moved, PROT_READ, MAP_SHARED, file, 0);
    moved = at == MAP_FAILED ? 0 : at;
    if (file >= 0)
        close(file);
    if (getenv("LBFS_PART"))
        part = strtoul(getenv("LBFS_PART"), 0, 10);
}

int clock_gettime(clockid_t clock, struct timespec *time) {
    long status = syscall(SYS_clock_gettime, clock, time);
    if (status == 0 && moved && (clock == CLOCK_MONOTONIC || clock == CLOCK_REALTIME)) {
        int64_t nanos = (int64_t)time->tv_sec * SECOND + time->tv_nsec + moved[clock == CLOCK_REALTIME] * MILLI;
        time->tv_sec = nanos / SECOND;
        time->tv_nsec = nanos % SECOND;
    }
    return (int)status;
}

ssize_t write(int file, const void *bytes, size_t count) {
    return syscall(SYS_write, file, bytes, count < part ? count : part);
}

ssize_t __write(int file, const void *bytes, size_t count) {
    return write(file, bytes, count);
}
