/* Loaded before the C library (LD_PRELOAD), this counts the allocations of a program, and makes those fail that the
   environment names: from number FAIL_FROM on, counted from 1, to number FAIL_TO, or all from there on where FAIL_TO
   is not set. The count is written to the file FAIL_COUNT when the program ends, through `exit` or through `_exit`.
   It is part of no crate and covered by no proof: `tools/fail-allocations` compiles it and runs the program under it. */
#include <errno.h>
#include <fcntl.h>
#include <stddef.h>
#include <stdlib.h>
#include <sys/syscall.h>
#include <unistd.h>

extern void *__libc_malloc(size_t size);
extern void *__libc_calloc(size_t count, size_t size);
extern void *__libc_realloc(void *old, size_t size);
extern void *__libc_memalign(size_t align, size_t size);

static unsigned long seen, from = -1ul, to = -1ul;

static unsigned long number_of(const char *name, unsigned long otherwise)
{
    const char *text = getenv(name);
    return text ? strtoul(text, NULL, 10) : otherwise;
}

__attribute__((constructor)) static void start(void)
{
    from = number_of("FAIL_FROM", -1ul);
    to = number_of("FAIL_TO", -1ul);
    seen = 0;
}

__attribute__((destructor)) static void write_count(void)
{
    const char *name = getenv("FAIL_COUNT");
    int file = name ? open(name, O_WRONLY | O_CREAT | O_TRUNC, 0600) : -1;
    char digits[24];
    size_t at = sizeof digits;
    unsigned long left = seen;
    if (file < 0)
        return;
    do
        digits[--at] = '0' + left % 10;
    while (left /= 10);
    if (write(file, digits + at, sizeof digits - at) < 0)
        syscall(SYS_exit_group, 99);
    close(file);
}

void _exit(int status)
{
    write_count();
    for (;;)
        syscall(SYS_exit_group, status);
}

static int fails(void)
{
    unsigned long now = __atomic_add_fetch(&seen, 1, __ATOMIC_RELAXED);
    if (now < from || to < now)
        return 0;
    errno = ENOMEM;
    return 1;
}

void *malloc(size_t size)
{
    return fails() ? NULL : __libc_malloc(size);
}

void *calloc(size_t count, size_t size)
{
    return fails() ? NULL : __libc_calloc(count, size);
}

void *realloc(void *old, size_t size)
{
    return fails() ? NULL : __libc_realloc(old, size);
}

void *memalign(size_t align, size_t size)
{
    return fails() ? NULL : __libc_memalign(align, size);
}

void *aligned_alloc(size_t align, size_t size)
{
    return memalign(align, size);
}

int posix_memalign(void **made, size_t align, size_t size)
{
    void *it = memalign(align, size);
    if (it == NULL)
        return ENOMEM;
    *made = it;
    return 0;
}
