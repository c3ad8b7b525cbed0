/* Fails one call of the system on what lies in a folder, for trials: loaded before the C library.
 *
 * FAIL_ROOM is the folder, FAIL_CALL the number of the call that fails, the first being 1 (0: none), FAIL_ERROR its error
 * (5, EIO, where it is not set), and FAIL_COUNT a file in which the number of calls is left. Counted are the calls that
 * open, make, read, write, cut, sync and lock what lies in the folder. */
#define _GNU_SOURCE
#include <dlfcn.h>
#include <errno.h>
#include <fcntl.h>
#include <stdarg.h>
#include <stdio.h>
#include <stdlib.h>
#include <string.h>
#include <sys/stat.h>
#include <sys/types.h>
#include <unistd.h>

static long calls;

static int is_in_room(const char *path) {
    const char *room = getenv("FAIL_ROOM");
    return room && path && strstr(path, room) != NULL;
}

static int is_room_of(int fd) {
    char link[64], path[4096];
    snprintf(link, sizeof link, "/proc/self/fd/%d", fd);
    ssize_t length = readlink(link, path, sizeof path - 1);
    if (length < 0)
        return 0;
    path[length] = 0;
    return is_in_room(path);
}

static int fails(int counted) {
    if (!counted)
        return 0;
    const char *at = getenv("FAIL_CALL"), *error = getenv("FAIL_ERROR");
    calls++;
    if (!at || atol(at) != calls)
        return 0;
    errno = error ? atoi(error) : EIO;
    return 1;
}

__attribute__((destructor)) static void leave_count(void) {
    const char *path = getenv("FAIL_COUNT");
    FILE *file = path ? fopen(path, "w") : NULL;
    if (file) {
        fprintf(file, "%ld\n", calls);
        fclose(file);
    }
}

#define NEXT(name) ((__typeof__(&name))dlsym(RTLD_NEXT, #name))

#define OPENS(name)                                                                                                        \
    int name(const char *path, int flags, ...) {                                                                           \
        va_list more;                                                                                                      \
        va_start(more, flags);                                                                                             \
        mode_t mode = va_arg(more, mode_t);                                                                                \
        va_end(more);                                                                                                      \
        return fails(is_in_room(path)) ? -1 : NEXT(name)(path, flags, mode);                                               \
    }
OPENS(open)
OPENS(open64)

#define OPENS_AT(name)                                                                                                     \
    int name(int at, const char *path, int flags, ...) {                                                                   \
        va_list more;                                                                                                      \
        va_start(more, flags);                                                                                             \
        mode_t mode = va_arg(more, mode_t);                                                                                \
        va_end(more);                                                                                                      \
        return fails(is_in_room(path)) ? -1 : NEXT(name)(at, path, flags, mode);                                           \
    }
OPENS_AT(openat)
OPENS_AT(openat64)

int mkdir(const char *path, mode_t mode) { return fails(is_in_room(path)) ? -1 : NEXT(mkdir)(path, mode); }

int mkdirat(int at, const char *path, mode_t mode) {
    return fails(is_in_room(path)) ? -1 : NEXT(mkdirat)(at, path, mode);
}

ssize_t read(int fd, void *to, size_t count) { return fails(is_room_of(fd)) ? -1 : NEXT(read)(fd, to, count); }

ssize_t write(int fd, const void *from, size_t count) { return fails(is_room_of(fd)) ? -1 : NEXT(write)(fd, from, count); }

ssize_t pread(int fd, void *to, size_t count, off_t at) {
    return fails(is_room_of(fd)) ? -1 : NEXT(pread)(fd, to, count, at);
}

ssize_t pread64(int fd, void *to, size_t count, off64_t at) {
    return fails(is_room_of(fd)) ? -1 : NEXT(pread64)(fd, to, count, at);
}

ssize_t pwrite(int fd, const void *from, size_t count, off_t at) {
    return fails(is_room_of(fd)) ? -1 : NEXT(pwrite)(fd, from, count, at);
}

ssize_t pwrite64(int fd, const void *from, size_t count, off64_t at) {
    return fails(is_room_of(fd)) ? -1 : NEXT(pwrite64)(fd, from, count, at);
}

int ftruncate(int fd, off_t to) { return fails(is_room_of(fd)) ? -1 : NEXT(ftruncate)(fd, to); }

int ftruncate64(int fd, off64_t to) { return fails(is_room_of(fd)) ? -1 : NEXT(ftruncate64)(fd, to); }

int fsync(int fd) { return fails(is_room_of(fd)) ? -1 : NEXT(fsync)(fd); }

int flock(int fd, int how) {
    static int (*next)(int, int);
    if (!next)
        next = (int (*)(int, int))dlsym(RTLD_NEXT, "flock");
    return fails(is_room_of(fd)) ? -1 : next(fd, how);
}
