// Loaded before the C library, it counts all allocations in the file ALLOCATIONS, and makes the one of the number FAIL fail. Without FAIL,
// or with 0, none fails. allocations.py compiles it.
#include <errno.h>
#include <fcntl.h>
#include <stddef.h>
#include <stdlib.h>
#include <sys/mman.h>
#include <unistd.h>

extern void *__libc_malloc(size_t);
extern void *__libc_realloc(void *, size_t);

static long failing, own;
static long *count = &own; // of this process alone, or in the file

__attribute__((constructor)) static void start(void) {
    const char *number = getenv("FAIL"), *path = getenv("ALLOCATIONS");
    int file = path ? open(path, O_RDWR) : -1;
    void *place = file < 0 ? MAP_FAILED : mmap(NULL, sizeof own, PROT_READ | PROT_WRITE, MAP_SHARED, file, 0);
    failing = number ? atol(number) : 0;
    if (place != MAP_FAILED) count = place;
    if (file >= 0) close(file);
    *count = 0;
}

static int fails(void) {
    if (__atomic_add_fetch(count, 1, __ATOMIC_RELAXED) != failing) return 0;
    errno = ENOMEM;
    return 1;
}

void *malloc(size_t size) {
    return fails() ? NULL : __libc_malloc(size);
}

void *realloc(void *place, size_t size) {
    return fails() ? NULL : __libc_realloc(place, size);
}
