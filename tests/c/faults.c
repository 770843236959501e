/* Faults for the bench, loaded before the C library (LD_PRELOAD). READS says what becomes of its reads of standard
   input and WRITES of its writes to standard output, a character a call, the last one for every call from there on:
     .  as it is     1  of one byte at most     n  as it is, but the descriptor is made one that does not wait
     e  fails with EIO     i  fails with EINTR     a  fails with EAGAIN     0  moves nothing
   Other descriptors, and other programs, are left alone. */
#define _GNU_SOURCE
#include <errno.h>
#include <fcntl.h>
#include <stdlib.h>
#include <string.h>
#include <sys/syscall.h>
#include <unistd.h>

static ssize_t call(long number, int fd, void *bytes, size_t count, const char *faults, size_t *at)
{
    if (faults != NULL && *faults != 0 && strcmp(program_invocation_short_name, "frames") == 0) {
        char fault = faults[*at];
        if (faults[*at + 1] != 0)
            ++*at;
        switch (fault) {
        case 'e': errno = EIO; return -1;
        case 'i': errno = EINTR; return -1;
        case 'a': errno = EAGAIN; return -1;
        case '0': return 0;
        case '1': count = count != 0; break;
        case 'n': fcntl(fd, F_SETFL, fcntl(fd, F_GETFL) | O_NONBLOCK); break;
        }
    }
    return syscall(number, fd, bytes, count);
}

ssize_t read(int fd, void *bytes, size_t count)
{
    static size_t at;
    return call(SYS_read, fd, bytes, count, fd == STDIN_FILENO ? getenv("READS") : NULL, &at);
}

ssize_t write(int fd, const void *bytes, size_t count)
{
    static size_t at;
    return call(SYS_write, fd, (void *)bytes, count, fd == STDOUT_FILENO ? getenv("WRITES") : NULL, &at);
}
