/* Refuses memory: preloaded into a program (LD_PRELOAD), it stands before the C library's malloc, calloc, realloc and
 * their aligned kin, and answers NULL with ENOMEM if the control file says so. The file is mapped by the program and
 * by the script that tries it, so that the script says when to refuse, and sees what was asked, without a word passing
 * between them. Calls of the dynamic linker before the program's own start aren't counted: the file is mapped after them. */
#define _GNU_SOURCE
#include <errno.h>
#include <fcntl.h>
#include <stddef.h>
#include <stdint.h>
#include <stdlib.h>
#include <sys/mman.h>
#include <unistd.h>

struct control {
    uint64_t from;    /* the call that is the first to be refused, counted from 1; 0: none is, and none is counted */
    uint64_t most;    /* how many are refused */
    uint64_t calls;   /* how many came */
    uint64_t refused; /* how many of them were refused */
};

static struct control *control;

extern void *__libc_malloc(size_t size);
extern void *__libc_calloc(size_t count, size_t size);
extern void *__libc_realloc(void *block, size_t size);
extern void *__libc_memalign(size_t alignment, size_t size);

__attribute__((constructor)) static void map_control(void)
{
    const char *path = getenv("REFUSE_CONTROL");
    int file = path ? open(path, O_RDWR | O_CLOEXEC) : -1;
    if (file < 0)
        abort();
    void *at = mmap(NULL, sizeof *control, PROT_READ | PROT_WRITE, MAP_SHARED, file, 0);
    if (at == MAP_FAILED)
        abort();
    close(file);
    control = at;
}

/* Counts a call, and tells whether it is refused. */
static int is_refused(void)
{
    if (!control)
        return 0;
    uint64_t from = __atomic_load_n(&control->from, __ATOMIC_ACQUIRE);
    if (!from)
        return 0;
    uint64_t call = __atomic_add_fetch(&control->calls, 1, __ATOMIC_RELAXED);
    if (call < from || call - from >= control->most)
        return 0;
    __atomic_add_fetch(&control->refused, 1, __ATOMIC_RELEASE);
    errno = ENOMEM;
    return 1;
}

void *malloc(size_t size)
{
    return is_refused() ? NULL : __libc_malloc(size);
}

void *calloc(size_t count, size_t size)
{
    return is_refused() ? NULL : __libc_calloc(count, size);
}

void *realloc(void *block, size_t size)
{
    return is_refused() ? NULL : __libc_realloc(block, size);
}

void *memalign(size_t alignment, size_t size)
{
    return is_refused() ? NULL : __libc_memalign(alignment, size);
}

void *aligned_alloc(size_t alignment, size_t size)
{
    return is_refused() ? NULL : __libc_memalign(alignment, size);
}

int posix_memalign(void **block, size_t alignment, size_t size)
{
    if (is_refused())
        return ENOMEM;
    *block = __libc_memalign(alignment, size);
    return *block ? 0 : ENOMEM;
}
