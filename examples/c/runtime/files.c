/* Descriptors: the console, and files of the disk. They are not cloaked: the kernel sees the bytes that are read and
   written. */

#include <fcntl.h>
#include <string.h>
#include <unistd.h>
#include "runtime.h"

int open(const char *name, int flags)
{
    return flags == O_RDONLY ? ask_kernel(CALL_OPEN, 0, name, strlen(name)) : -1;
}

int close(int descriptor)
{
    return ask_kernel(CALL_CLOSE, descriptor, 0, 0);
}

/* A call takes a page of bytes at most. */
ssize_t read(int descriptor, void *buffer, size_t length)
{
    size_t most = length < PAGE ? length : PAGE;
    int count = ask_kernel(CALL_READ, descriptor, buffer, most);
    /* The kernel may answer what it likes. The monitor copies nothing if the answer is more than was asked for. */
    return count > (int)most ? -1 : count;
}

ssize_t write(int descriptor, const void *bytes, size_t length)
{
    size_t written = 0;
    while (written < length) {
        size_t left = length - written, most = left < PAGE ? left : PAGE;
        int count = ask_kernel(CALL_WRITE, descriptor, (const char *)bytes + written, most);
        if (count <= 0 || count > (int)most)
            return -1;
        written += count;
    }
    return written;
}
