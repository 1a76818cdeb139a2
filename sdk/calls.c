/* The dozen calls that picolibc stands on, over the kernel of examples/c. The bytes of a call go through the area, a page
   that is not cloaked: what a program says to its kernel is not secret. */

#include <errno.h>
#include <fcntl.h>
#include <stdio.h>
#include <stdlib.h>
#include <string.h>
#include <sys/stat.h>
#include <sys/time.h>
#include <unistd.h>
#include "../examples/c/agreed.h"

/* What the machine keeps for the one context of a program: x4 leads here. */
void *first_area = (void *)AREAS;

static int ask(unsigned a7, unsigned a6, unsigned a0, unsigned a1, unsigned a2, unsigned a3)
{
    register unsigned r0 __asm__("a0") = a0;
    register unsigned r1 __asm__("a1") = a1;
    register unsigned r2 __asm__("a2") = a2;
    register unsigned r3 __asm__("a3") = a3;
    register unsigned r6 __asm__("a6") = a6;
    register unsigned r7 __asm__("a7") = a7;
    __asm__ volatile("ecall" : "+r"(r0) : "r"(r1), "r"(r2), "r"(r3), "r"(r6), "r"(r7) : "memory");
    return (int)r0;
}

static int ask_kernel(unsigned number, unsigned first, const void *buffer, unsigned length)
{
    return ask(MONITOR_CALL, number, first, (unsigned)buffer, length, AREAS);
}

/* Files: a call takes a page at most, and the kernel may answer what it likes. */

int open(const char *name, int flags, ...)
{
    int made = (flags & O_ACCMODE) == O_RDONLY ? ask_kernel(CALL_OPEN, 0, name, strlen(name)) : -1;
    if (made < 0)
        errno = (flags & O_ACCMODE) == O_RDONLY ? ENOENT : EROFS;
    return made;
}

int close(int descriptor)
{
    return ask_kernel(CALL_CLOSE, descriptor, 0, 0);
}

ssize_t read(int descriptor, void *buffer, size_t length)
{
    size_t most = length < PAGE ? length : PAGE;
    int count = ask_kernel(CALL_READ, descriptor, buffer, most);
    if (count < 0 || count > (int)most) {
        errno = EIO;
        return -1;
    }
    return count;
}

ssize_t write(int descriptor, const void *bytes, size_t length)
{
    size_t written = 0;
    while (written < length) {
        size_t left = length - written, most = left < PAGE ? left : PAGE;
        int count = ask_kernel(CALL_WRITE, descriptor, (const char *)bytes + written, most);
        if (count <= 0 || count > (int)most) {
            errno = EIO;
            return -1;
        }
        written += count;
    }
    return written;
}

/* The kernel has no call for it. */
off_t lseek(int descriptor, off_t offset, int whence)
{
    (void)descriptor, (void)offset, (void)whence;
    errno = ESPIPE;
    return -1;
}

/* Memory: a program has at most 16 resources, so the heap grows by no less than these pages. */
#define LEAST_PAGES 64

extern char heap_begin[];

void *sbrk(ptrdiff_t more)
{
    static char *top = heap_begin, *mapped = heap_begin;
    if (more < 0 || more > (char *)AREAS - top) {
        errno = ENOMEM;
        return (void *)-1;
    }
    while (top + more > mapped) {
        unsigned pages = (top + more - mapped + PAGE - 1) / PAGE;
        unsigned room = ((char *)AREAS - mapped) / PAGE;
        if (pages < LEAST_PAGES)
            pages = LEAST_PAGES < room ? LEAST_PAGES : room;
        int resource = ask(MONITOR_NEW, 0, pages, 0, 0, 0);
        if (resource < 0 || ask(MONITOR_MAP, 0, resource, (unsigned)mapped, 0, pages) < 0) {
            errno = ENOMEM;
            return (void *)-1;
        }
        mapped += pages * PAGE;
    }
    top += more;
    return top - more;
}

/* The console, a line at a time. */

static char line[256];
static size_t held;

static int flush_line(FILE *stream)
{
    (void)stream;
    size_t length = held;
    held = 0;
    return length && write(1, line, length) < 0 ? -1 : 0;
}

static int put_char(char c, FILE *stream)
{
    line[held++] = c;
    return (c == '\n' || held == sizeof line) && flush_line(stream) < 0 ? -1 : (unsigned char)c;
}

static int no_char(FILE *stream)
{
    (void)stream;
    return EOF;
}

static FILE console = FDEV_SETUP_STREAM(put_char, no_char, flush_line, _FDEV_SETUP_RW);
FILE *const stdin = &console;
FILE *const stdout = &console;
FILE *const stderr = &console;

/* The rest. The kernel tells no time: a clock stands still. */

int gettimeofday(struct timeval *now, void *zone)
{
    (void)zone;
    *now = (struct timeval){0};
    return 0;
}

clock_t clock(void)
{
    return 0;
}

pid_t getpid(void)
{
    return 1;
}

int kill(pid_t process, int signal)
{
    (void)process;
    _exit(128 + signal);
}

_Noreturn void exit_context(void);

/* Nobody is told the status, so a program that fails says so. */
_Noreturn void _exit(int status)
{
    flush_line(0);
    if (status) {
        static const char told[] = "program: it ended with a status other than 0\n";
        write(1, told, sizeof told - 1);
    }
    exit_context();
}

int main(int count, char **words);

_Noreturn void begin(void)
{
    extern void (*__init_array_start[])(void), (*__init_array_end[])(void);
    for (void (**it)(void) = __init_array_start; it < __init_array_end; it++)
        (*it)();
    static char *words[] = {"program", 0};
    exit(main(1, words));
}
