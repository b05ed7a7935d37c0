// Stands before the C library's getentropy (LD_PRELOAD), which fails and leaves the buffer as it was.
#define _GNU_SOURCE
#include <errno.h>
#include <stddef.h>

int getentropy(void *into, size_t length)
{
    (void)into;
    (void)length;
    errno = ENOSYS;
    return -1;
}
