/* Loaded into a program by LD_PRELOAD, this makes a read of standard input, a write to standard output or an
 * allocation fail, as tools/failing_devices.py asks by these variables of the environment:
 *
 *   DEVICES_COUNTS            the file into which the counts are written, which has room for them
 *   DEVICES_READ              the number of the read that fails with EIO, from 1
 *   DEVICES_WRITE             the number of the write that fails with EIO, from 1
 *   DEVICES_ROOM              how many bytes can be written, after which each write fails with ENOSPC
 *   DEVICES_SHORT             where it is there, each read and write moves one byte
 *   DEVICES_ALLOCATION        the number of the allocation that fails with ENOMEM, from 1
 *
 * It counts from the program's main on: what the C library takes before is not its own. */
#define _GNU_SOURCE
#include <dlfcn.h>
#include <errno.h>
#include <fcntl.h>
#include <stdint.h>
#include <stdlib.h>
#include <sys/mman.h>
#include <sys/syscall.h>
#include <sys/uio.h>
#include <unistd.h>

typedef int Main(int, char **, char **);
typedef int Start(Main *, int, char **, void (*)(void), void (*)(void), void (*)(void), void *);

extern void *__libc_malloc(size_t);
extern void *__libc_calloc(size_t, size_t);
extern void *__libc_realloc(void *, size_t);

struct Counts {
    uint64_t reads, writes, written, allocations;
};

static struct Counts held, *counts = &held;
static uint64_t failing_read, failing_write, failing_allocation, room = UINT64_MAX;
static int is_short, is_begun;
static Main *program;

static uint64_t setting(const char *name, uint64_t otherwise) {
    const char *text = getenv(name);
    return text == NULL ? otherwise : strtoull(text, NULL, 10);
}

static void set_up(void) {
    const char *path = getenv("DEVICES_COUNTS");
    int file = path == NULL ? -1 : open(path, O_RDWR);
    void *shared = file < 0 ? MAP_FAILED : mmap(NULL, sizeof held, PROT_READ | PROT_WRITE, MAP_SHARED, file, 0);
    if (shared == MAP_FAILED)
        _exit(125);
    close(file);
    counts = shared;
    *counts = held;
    failing_read = setting("DEVICES_READ", 0);
    failing_write = setting("DEVICES_WRITE", 0);
    failing_allocation = setting("DEVICES_ALLOCATION", 0);
    room = setting("DEVICES_ROOM", UINT64_MAX);
    is_short = getenv("DEVICES_SHORT") != NULL;
    is_begun = 1;
}

static int begin(int argc, char **argv, char **environment) {
    set_up();
    return program(argc, argv, environment);
}

int __libc_start_main(Main *given, int argc, char **argv, void (*init)(void), void (*fini)(void),
                      void (*rtld_fini)(void), void *stack_end) {
    Start *start = (Start *)dlsym(RTLD_NEXT, "__libc_start_main");
    program = given;
    return start(begin, argc, argv, init, fini, rtld_fini, stack_end);
}

static ssize_t fail(int why) {
    errno = why;
    return -1;
}

ssize_t read(int file, void *bytes, size_t size) {
    if (is_begun && file == 0) {
        if (++counts->reads == failing_read)
            return fail(EIO);
        if (is_short && size > 1)
            size = 1;
    }
    return syscall(SYS_read, file, bytes, size);
}

ssize_t write(int file, const void *bytes, size_t size) {
    if (!is_begun || file != 1)
        return syscall(SYS_write, file, bytes, size);
    if (++counts->writes == failing_write)
        return fail(EIO);
    if (size > 0 && room == 0)
        return fail(ENOSPC);
    if (is_short && size > 1)
        size = 1;
    if (size > room)
        size = room;
    ssize_t moved = syscall(SYS_write, file, bytes, size);
    if (moved > 0) {
        counts->written += moved;
        room -= moved;
    }
    return moved;
}

/* Other names of the two. */
ssize_t __read(int, void *, size_t) __attribute__((alias("read")));
ssize_t __write(int, const void *, size_t) __attribute__((alias("write")));

/* The first part that is not empty, which a device may do. */
static struct iovec first_of(const struct iovec *parts, int count) {
    struct iovec first = {NULL, 0};
    for (int i = 0; i < count && first.iov_len == 0; i++)
        first = parts[i];
    return first;
}

ssize_t readv(int file, const struct iovec *parts, int count) {
    struct iovec first = first_of(parts, count);
    return read(file, first.iov_base, first.iov_len);
}

ssize_t writev(int file, const struct iovec *parts, int count) {
    struct iovec first = first_of(parts, count);
    return write(file, first.iov_base, first.iov_len);
}

static int is_refused(void) {
    if (!is_begun || ++counts->allocations != failing_allocation)
        return 0;
    errno = ENOMEM;
    return 1;
}

void *malloc(size_t size) {
    return is_refused() ? NULL : __libc_malloc(size);
}

void *calloc(size_t count, size_t size) {
    return is_refused() ? NULL : __libc_calloc(count, size);
}

void *realloc(void *block, size_t size) {
    return is_refused() ? NULL : __libc_realloc(block, size);
}
