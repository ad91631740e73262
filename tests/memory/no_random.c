/* Gives no random bytes: preloaded into a program (LD_PRELOAD), it stands before the C library's getentropy and getrandom, and
 * answers that the system has none. */
#define _GNU_SOURCE
#include <errno.h>
#include <stddef.h>
#include <sys/types.h>

int getentropy(void *bytes, size_t length)
{
    (void)bytes, (void)length;
    errno = ENOSYS;
    return -1;
}

ssize_t getrandom(void *bytes, size_t length, unsigned int flags)
{
    (void)flags;
    return getentropy(bytes, length);
}
