// Loaded before the C library by bench/damage --refuse: the N-th call of a kind fails, or moves a
// single byte. REFUSE is `memory N` (malloc, realloc), `io N` (open, read, write, fsync, rename) or
// `short N` (read, write of several bytes); how many such calls there were is written to the file
// that COUNT names.
#define _GNU_SOURCE
#include <dlfcn.h>
#include <errno.h>
#include <fcntl.h>
#include <stdarg.h>
#include <stdatomic.h>
#include <stdio.h>
#include <stdlib.h>
#include <string.h>
#include <sys/syscall.h>
#include <unistd.h>

extern void *__libc_malloc(size_t);
extern void *__libc_realloc(void *, size_t);

static char kind;
static unsigned long at;
static atomic_ulong calls;

__attribute__((constructor)) static void begin(void) {
    const char *told = getenv("REFUSE");
    if (told && strchr(told, ' ')) {
        at = strtoul(strchr(told, ' ') + 1, 0, 10);
        kind = told[0];
    }
}

__attribute__((destructor)) static void end(void) {
    const char *name = getenv("COUNT");
    unsigned long count = atomic_load(&calls);
    kind = 0;
    FILE *file = name ? fopen(name, "w") : 0;
    if (file) {
        fprintf(file, "%lu\n", count);
        fclose(file);
    }
}

// The program ends by _exit, which runs no destructor.
void _exit(int status) {
    end();
    syscall(SYS_exit_group, status);
    __builtin_unreachable();
}

static int now(char which) {
    return kind == which && atomic_fetch_add(&calls, 1) + 1 == at;
}

void *malloc(size_t size) {
    return now('m') ? (errno = ENOMEM, (void *)0) : __libc_malloc(size);
}

void *realloc(void *old, size_t size) {
    return now('m') ? (errno = ENOMEM, (void *)0) : __libc_realloc(old, size);
}

#define NEXT(type, name) ((type)dlsym(RTLD_NEXT, name))

int open(const char *path, int flags, ...) {
    va_list more;
    va_start(more, flags);
    mode_t mode = flags & O_CREAT ? va_arg(more, mode_t) : 0;
    va_end(more);
    if (now('i')) { errno = EIO; return -1; }
    return NEXT(int (*)(const char *, int, ...), "open")(path, flags, mode);
}

ssize_t read(int fd, void *to, size_t size) {
    if (now('i')) { errno = EIO; return -1; }
    return NEXT(ssize_t (*)(int, void *, size_t), "read")(fd, to, size > 1 && now('s') ? 1 : size);
}

ssize_t write(int fd, const void *from, size_t size) {
    if (now('i')) { errno = EIO; return -1; }
    size_t moved = size > 1 && now('s') ? 1 : size;
    return NEXT(ssize_t (*)(int, const void *, size_t), "write")(fd, from, moved);
}

int fsync(int fd) {
    if (now('i')) { errno = EIO; return -1; }
    return NEXT(int (*)(int), "fsync")(fd);
}

int rename(const char *from, const char *to) {
    if (now('i')) { errno = EIO; return -1; }
    return NEXT(int (*)(const char *, const char *), "rename")(from, to);
}
