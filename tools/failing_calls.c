/* Preloaded into a program whose calls are to fail. The allocation fails whose number FAIL_ALLOCATION gives, over malloc,
   calloc, realloc, aligned_alloc and posix_memalign; the write to the standard output whose number FAIL_WRITE gives; and
   the read whose number FAIL_READ gives: all counted from 1. A call that fails makes the file that FAILED_MARK names. With
   SHORT each read and write moves one byte at most, with INTERRUPT each is interrupted once before it moves anything. */
#define _GNU_SOURCE
#include <errno.h>
#include <fcntl.h>
#include <stdatomic.h>
#include <stdlib.h>
#include <sys/syscall.h>
#include <sys/types.h>
#include <unistd.h>

struct call {
    const char *name;
    atomic_long count, fails_at;
};

static struct call allocations = {"FAIL_ALLOCATION", 0, -1};
static struct call reads = {"FAIL_READ", 0, -1};
static struct call writes = {"FAIL_WRITE", 0, -1};
static atomic_int interrupts;

static int fails(struct call *call, int error)
{
    if (call->fails_at < 0) {
        const char *number = getenv(call->name);
        call->fails_at = number ? atol(number) : 0;
    }
    if (++call->count != call->fails_at)
        return 0;
    const char *mark = getenv("FAILED_MARK");
    long file = mark ? syscall(SYS_openat, AT_FDCWD, mark, O_WRONLY | O_CREAT, 0600) : -1;
    if (file >= 0)
        syscall(SYS_close, file);
    errno = error;
    return 1;
}

static int is_interrupted(void)
{
    if (!getenv("INTERRUPT") || interrupts++ % 2)
        return 0;
    errno = EINTR;
    return 1;
}

extern void *__libc_malloc(size_t);
extern void *__libc_calloc(size_t, size_t);
extern void *__libc_realloc(void *, size_t);
extern void *__libc_memalign(size_t, size_t);

void *malloc(size_t size) { return fails(&allocations, ENOMEM) ? NULL : __libc_malloc(size); }
void *calloc(size_t n, size_t size) { return fails(&allocations, ENOMEM) ? NULL : __libc_calloc(n, size); }
void *realloc(void *at, size_t size) { return fails(&allocations, ENOMEM) ? NULL : __libc_realloc(at, size); }
void *aligned_alloc(size_t align, size_t size) { return fails(&allocations, ENOMEM) ? NULL : __libc_memalign(align, size); }

int posix_memalign(void **at, size_t align, size_t size)
{
    if (fails(&allocations, ENOMEM))
        return ENOMEM;
    *at = __libc_memalign(align, size);
    return *at ? 0 : ENOMEM;
}

ssize_t write(int file, const void *bytes, size_t count)
{
    if ((file == 1 && fails(&writes, EIO)) || is_interrupted())
        return -1;
    return syscall(SYS_write, file, bytes, count && getenv("SHORT") ? 1 : count);
}

ssize_t read(int file, void *bytes, size_t count)
{
    if (fails(&reads, EIO) || is_interrupted())
        return -1;
    return syscall(SYS_read, file, bytes, count && getenv("SHORT") ? 1 : count);
}
