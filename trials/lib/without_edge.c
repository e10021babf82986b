/* Undoes what the edge of a serving server does, so that a trial shows that it fails without it. Loaded
   before other libraries (LD_PRELOAD) it writes no line of a fault, leaves the backlog of a listener
   to the system, shows a connection with nothing but its end as one with bytes, and each name as
   that of a regular file. Needs the Debian packages gcc and libc6-dev. */
#define _GNU_SOURCE
#include <errno.h>
#include <fcntl.h>
#include <string.h>
#include <sys/socket.h>
#include <sys/stat.h>
#include <sys/syscall.h>
#include <unistd.h>

static int is_of_fault(const void *bytes, size_t count)
{
    return memmem(bytes, count, "Z: ", 3) != NULL && memmem(bytes, count, ": ready at ", 11) == NULL;
}

ssize_t write(int file, const void *bytes, size_t count)
{
    if (file == STDERR_FILENO && is_of_fault(bytes, count))
        return (ssize_t)count;
    return syscall(SYS_write, file, bytes, count);
}

ssize_t __write(int file, const void *bytes, size_t count)
{
    return write(file, bytes, count);
}

int listen(int file, int backlog)
{
    (void)backlog;
    return (int)syscall(SYS_listen, file, SOMAXCONN);
}

ssize_t recv(int file, void *bytes, size_t count, int flags)
{
    if (flags & MSG_PEEK) {
        errno = EAGAIN;
        return -1;
    }
    return syscall(SYS_recvfrom, file, bytes, count, flags, NULL, NULL);
}

int statx(int folder, const char *path, int flags, unsigned int mask, struct statx *found)
{
    int status = (int)syscall(SYS_statx, folder, path, flags, mask, found);
    if (status == 0)
        found->stx_mode = (found->stx_mode & ~S_IFMT) | S_IFREG;
    return status;
}
