#ifndef STDIO_H
#define STDIO_H

/* Knows %c, %s, %d, %u, %x and %%, with a width and a leading 0. */
__attribute__((format(printf, 1, 2))) int printf(const char *form, ...);

#endif
