// Loaded before the C library: refuses one request for memory, one read, one write or one opening of the program.
//
// REFUSED_KIND is `memory`, `read`, `write` or `open`, and REFUSED_NUMBER says which of that kind, counted from 1; 0
// refuses none. A refused write answers an error, or that it took nothing where TAKES_NOTHING is set. Where
// READS_FAIL_BEHIND is set, each read behind a refused request for memory fails. TAKEN_MOST bounds the bytes that a
// read gives or a write takes; 0 leaves them. At the end the numbers of requests, reads and writes, and the file of the
// refused read or write, go to the file descriptor REQUESTS_TO, and behind them, a line each, what was to be opened.
#define _GNU_SOURCE
#include <dlfcn.h>
#include <errno.h>
#include <fcntl.h>
#include <stdarg.h>
#include <stdio.h>
#include <stdlib.h>
#include <string.h>
#include <unistd.h>

enum { MEMORY, READ, WRITE, OPEN, KINDS };
static const char *const kinds[KINDS] = {"memory", "read", "write", "open"};
static long counts[KINDS], number = -1, most;
static int kind, takes_nothing, reads_fail_behind, was_denied;
static char path[4096], opened[65536];
static void *(*next_malloc)(size_t), *(*next_realloc)(void *, size_t);
static void *(*next_aligned_alloc)(size_t, size_t);
static int (*next_posix_memalign)(void **, size_t, size_t);
static ssize_t (*next_read)(int, void *, size_t), (*next_write)(int, const void *, size_t);
static int (*next_open)(const char *, int, ...);

static long number_in(const char *name) {
    const char *found = getenv(name);
    return found ? atol(found) : 0;
}

static void learn(void) {
    const char *found = getenv("REFUSED_KIND");
    for (int at = 0; found && at < KINDS; at++)
        if (!strcmp(found, kinds[at])) kind = at;
    most = number_in("TAKEN_MOST");
    takes_nothing = getenv("TAKES_NOTHING") != NULL;
    reads_fail_behind = getenv("READS_FAIL_BEHIND") != NULL;
    number = number_in("REFUSED_NUMBER");
}

static int is_refused(int asked) {
    if (number < 0) learn();
    return ++counts[asked] == number && asked == kind;
}

static int is_denied(void) {
    int denied = is_refused(MEMORY);
    was_denied |= denied;
    return denied;
}

static void tell_path(int file) {
    char link[64];
    snprintf(link, sizeof link, "/proc/self/fd/%d", file);
    ssize_t length = file > 2 ? readlink(link, path, sizeof path - 1) : snprintf(path, sizeof path, "%d", file);
    path[length < 0 ? 0 : length] = 0;
}

static size_t at_most(size_t size) { return most && size > (size_t)most ? (size_t)most : size; }

void *malloc(size_t size) {
    if (!next_malloc) next_malloc = dlsym(RTLD_NEXT, "malloc");
    return is_denied() ? NULL : next_malloc(size);
}

void *realloc(void *old, size_t size) {
    if (!next_realloc) next_realloc = dlsym(RTLD_NEXT, "realloc");
    return is_denied() ? NULL : next_realloc(old, size);
}

void *aligned_alloc(size_t align, size_t size) {
    if (!next_aligned_alloc) next_aligned_alloc = dlsym(RTLD_NEXT, "aligned_alloc");
    return is_denied() ? NULL : next_aligned_alloc(align, size);
}

int posix_memalign(void **made, size_t align, size_t size) {
    if (!next_posix_memalign) next_posix_memalign = dlsym(RTLD_NEXT, "posix_memalign");
    return is_denied() ? ENOMEM : next_posix_memalign(made, align, size);
}

ssize_t read(int file, void *to, size_t size) {
    if (!next_read) next_read = dlsym(RTLD_NEXT, "read");
    if (!is_refused(READ) && !(was_denied && reads_fail_behind)) return next_read(file, to, at_most(size));
    tell_path(file);
    errno = EIO;
    return -1;
}

ssize_t write(int file, const void *from, size_t size) {
    if (!next_write) next_write = dlsym(RTLD_NEXT, "write");
    if (!is_refused(WRITE)) return next_write(file, from, at_most(size));
    tell_path(file);
    errno = EIO;
    return takes_nothing ? 0 : -1;
}

int open(const char *name, int flags, ...) {
    if (!next_open) next_open = dlsym(RTLD_NEXT, "open");
    size_t length = strlen(opened);
    snprintf(opened + length, sizeof opened - length, "\n%s", name);
    if (is_refused(OPEN)) {
        errno = EACCES;
        return -1;
    }
    // the mode stands there only where the file may be made
    mode_t mode = 0;
    if (flags & O_CREAT) {
        va_list rest;
        va_start(rest, flags);
        mode = va_arg(rest, mode_t);
        va_end(rest);
    }
    return next_open(name, flags, mode);
}

__attribute__((destructor)) static void tell_requests(void) {
    const char *to = getenv("REQUESTS_TO");
    if (to) dprintf(atoi(to), "%ld %ld %ld %s%s", counts[MEMORY], counts[READ], counts[WRITE], path, opened);
}
