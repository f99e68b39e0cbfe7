/* Refuses memory to a program, and sets its clock. Laid before the C library by LD_PRELOAD, for scripts/refuse_memory.
 *
 *   REFUSE_AT=N     the N-th growth is refused, counted from 1
 *   REFUSE_FROM=N   the N-th growth and each later one
 *   COUNT_TO=PATH   the number of growths is written there once the program ends
 *   MOMENT=N        the clock tells so many seconds since 1970-01-01T00:00:00Z
 */
#include <errno.h>
#include <stdio.h>
#include <stdlib.h>
#include <sys/syscall.h>
#include <time.h>
#include <unistd.h>

extern void *__libc_malloc(size_t);
extern void *__libc_calloc(size_t, size_t);
extern void *__libc_realloc(void *, size_t);
extern void *__libc_memalign(size_t, size_t);

static unsigned long at, from, grown;
static long moment = -1;

__attribute__((constructor)) static void begin(void) {
    const char *text;
    if ((text = getenv("MOMENT"))) moment = atol(text);
    if ((text = getenv("REFUSE_AT"))) at = strtoul(text, 0, 10);
    if ((text = getenv("REFUSE_FROM"))) from = strtoul(text, 0, 10);
    grown = 0;
}

__attribute__((destructor)) static void end(void) {
    const char *path = getenv("COUNT_TO");
    unsigned long count = grown;
    at = from = 0;
    FILE *file = path ? fopen(path, "w") : 0;
    if (file) {
        fprintf(file, "%lu\n", count);
        fclose(file);
    }
}

static int refused(void) {
    grown++;
    if (grown == at || (from && grown >= from)) {
        errno = ENOMEM;
        return 1;
    }
    return 0;
}

void *malloc(size_t size) {
    return refused() ? 0 : __libc_malloc(size);
}

void *calloc(size_t count, size_t size) {
    return refused() ? 0 : __libc_calloc(count, size);
}

void *realloc(void *old, size_t size) {
    return refused() ? 0 : __libc_realloc(old, size);
}

void *aligned_alloc(size_t alignment, size_t size) {
    return refused() ? 0 : __libc_memalign(alignment, size);
}

int posix_memalign(void **out, size_t alignment, size_t size) {
    if (refused()) return ENOMEM;
    *out = __libc_memalign(alignment, size);
    return *out ? 0 : ENOMEM;
}

int clock_gettime(clockid_t clock, struct timespec *now) {
    if (clock == CLOCK_REALTIME && moment >= 0) {
        now->tv_sec = moment;
        now->tv_nsec = 0;
        return 0;
    }
    return (int)syscall(SYS_clock_gettime, clock, now);
}
