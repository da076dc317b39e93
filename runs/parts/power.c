// Loaded before the C library, it notes in the file POWER_LOG what a process does to files of the folder POWER_FOLDER. It ends the process
// before the change whose number stands in POWER_PAGE. power.py compiles it, and makes of the log what a disk may have after a cut.
//
// A sync is noted and isn't made: what is on the disk is up to the script, and a run doesn't wait for a device. Only calls that the
// programs make are here. What they changed by another, such as rename or mmap, would show as a difference between the files and the log.
//
// A change is counted where the file has one before it that isn't synced: elsewhere a cut loses nothing. With POWER_SINCE they are counted
// from the first write to a file whose name ends so: to a database file that was there one writes only where its log is copied.
#define _GNU_SOURCE
#include <fcntl.h>
#include <pthread.h>
#include <signal.h>
#include <stdarg.h>
#include <stdlib.h>
#include <string.h>
#include <sys/mman.h>
#include <sys/syscall.h>
#include <sys/uio.h>
#include <unistd.h>

enum { OPENED, MADE, WRITTEN, RESIZED, SYNCED, FOLDER_SYNCED };
enum { FILES = 1024, THE_FOLDER = -1 };

struct page {
    long counted, cut; // how many changes were counted; the one at which the process ends, 0 for none
    long busy;         // a change is being made: until it's 0 a kill from outside may tear one
};

static struct page own, *page = &own;
static pthread_mutex_t turn = PTHREAD_MUTEX_INITIALIZER;
static const char *folder, *since = "";
static int note_file = -1, last, is_counting = 1;
static int numbers[FILES]; // of each descriptor the number of its file, THE_FOLDER, or 0
static char is_changed[FILES], begins[FILES];

__attribute__((constructor)) static void start(void) {
    const char *path = getenv("POWER_PAGE"), *log = getenv("POWER_LOG");
    int file = path ? open(path, O_RDWR | O_CLOEXEC) : -1;
    void *place = file < 0 ? MAP_FAILED : mmap(NULL, sizeof own, PROT_READ | PROT_WRITE, MAP_SHARED, file, 0);
    if (place == MAP_FAILED || !log || !getenv("POWER_FOLDER")) abort();
    page = place;
    close(file);
    note_file = open(log, O_WRONLY | O_APPEND | O_CLOEXEC);
    if (getenv("POWER_SINCE")) since = getenv("POWER_SINCE"), is_counting = !*since;
    folder = getenv("POWER_FOLDER"); // last, since from here on files of the folder are noted
}

// One change at a time, so that the log has their order. `busy` is raised before `cut` is read: whoever sets `cut` and then finds `busy` 0
// knows that no later change is made.
static void enter(int counts) {
    pthread_mutex_lock(&turn);
    __atomic_add_fetch(&page->busy, 1, __ATOMIC_SEQ_CST);
    if (counts && is_counting) ++page->counted;
    long cut = __atomic_load_n(&page->cut, __ATOMIC_SEQ_CST);
    if (!cut || page->counted < cut) return;
    __atomic_sub_fetch(&page->busy, 1, __ATOMIC_SEQ_CST);
    for (;;) kill(getpid(), SIGKILL);
}

static void leave(void) {
    __atomic_sub_fetch(&page->busy, 1, __ATOMIC_SEQ_CST);
    pthread_mutex_unlock(&turn);
}

static void note(long what, long number, long at, const void *octets, long length) {
    long head[] = {what, number, at, length};
    struct iovec parts[] = {{head, sizeof head}, {(void *)octets, length}};
    if (syscall(SYS_writev, note_file, parts, 2) != (long)sizeof head + length) abort();
}

// The name in the folder of a path, "" for the folder itself, NULL for what is elsewhere.
static const char *name_in(const char *path) {
    size_t length = folder ? strlen(folder) : 0;
    if (!length || strncmp(path, folder, length) || (path[length] && path[length] != '/')) return NULL;
    return path[length] ? path + length + 1 : "";
}

static int ends_so(const char *name) {
    size_t length = strlen(name), end = strlen(since);
    return length >= end && !strcmp(name + length - end, since);
}

static int opened(int at, const char *path, int flags, mode_t mode) {
    const char *name = name_in(path);
    if (!name) return syscall(SYS_openat, at, path, flags, mode);
    int was_there = !access(path, F_OK);
    enter(flags & O_CREAT && !was_there);
    int file = syscall(SYS_openat, at, path, flags, mode);
    if (file >= FILES) abort();
    if (file >= 0) {
        numbers[file] = *name ? ++last : THE_FOLDER;
        is_changed[file] = 1; // as a process before it may have left it, or its name
        begins[file] = ends_so(name);
        if (*name) note(was_there ? OPENED : MADE, last, 0, name, strlen(name));
        if (*name && was_there && flags & O_TRUNC) note(RESIZED, last, 0, "", 0);
    }
    leave();
    return file;
}

static int number_of(int file) {
    return file >= 0 && file < FILES ? numbers[file] : 0;
}

static ssize_t written(int file, const void *octets, size_t length, off_t at) {
    is_counting |= begins[file];
    enter(is_changed[file]);
    ssize_t done = syscall(SYS_pwrite64, file, octets, length, at);
    if (done > 0) note(WRITTEN, numbers[file], at, octets, done);
    is_changed[file] = 1;
    leave();
    return done;
}

static int synced(int file) {
    enter(is_changed[file]);
    note(numbers[file] == THE_FOLDER ? FOLDER_SYNCED : SYNCED, numbers[file], 0, "", 0);
    is_changed[file] = 0;
    leave();
    return 0;
}

static mode_t mode_of(int flags, va_list more) {
    return flags & (O_CREAT | __O_TMPFILE) ? va_arg(more, mode_t) : 0;
}

int openat(int at, const char *path, int flags, ...) {
    va_list more;
    va_start(more, flags);
    mode_t mode = mode_of(flags, more);
    va_end(more);
    return opened(at, path, flags, mode);
}

int open(const char *path, int flags, ...) {
    va_list more;
    va_start(more, flags);
    mode_t mode = mode_of(flags, more);
    va_end(more);
    return opened(AT_FDCWD, path, flags, mode);
}

int creat(const char *path, mode_t mode) {
    return opened(AT_FDCWD, path, O_CREAT | O_WRONLY | O_TRUNC, mode);
}

ssize_t pwrite(int file, const void *octets, size_t length, off_t at) {
    return number_of(file) > 0 ? written(file, octets, length, at) : syscall(SYS_pwrite64, file, octets, length, at);
}

int ftruncate(int file, off_t length) {
    if (number_of(file) <= 0) return syscall(SYS_ftruncate, file, length);
    enter(is_changed[file]);
    int done = syscall(SYS_ftruncate, file, length);
    if (!done) note(RESIZED, numbers[file], length, "", 0);
    is_changed[file] = 1;
    leave();
    return done;
}

int fsync(int file) {
    return number_of(file) ? synced(file) : syscall(SYS_fsync, file);
}

int fdatasync(int file) {
    return number_of(file) ? synced(file) : syscall(SYS_fdatasync, file);
}

int close(int file) {
    if (number_of(file)) numbers[file] = 0;
    return syscall(SYS_close, file);
}

// The same calls under the names that 64-bit systems have besides.
int openat64(int, const char *, int, ...) __attribute__((alias("openat")));
int open64(const char *, int, ...) __attribute__((alias("open")));
ssize_t pwrite64(int, const void *, size_t, off_t) __attribute__((alias("pwrite")));
int ftruncate64(int, off_t) __attribute__((alias("ftruncate")));
