/* Bytes and texts. */

#include <stdint.h>
#include <string.h>

/* By words as long as it can: each one is a step. */
void *memcpy(void *restrict to, const void *restrict from, size_t length)
{
    char *target = to;
    const char *source = from;
    if (((uintptr_t)target | (uintptr_t)source) % 4 == 0)
        for (; length >= 4; length -= 4, target += 4, source += 4)
            *(uint32_t *)target = *(const uint32_t *)source;
    while (length--)
        *target++ = *source++;
    return to;
}

void *memmove(void *to, const void *from, size_t length)
{
    if ((uintptr_t)to <= (uintptr_t)from)
        return memcpy(to, from, length);
    while (length--)
        ((char *)to)[length] = ((const char *)from)[length];
    return to;
}

void *memset(void *to, int byte, size_t length)
{
    char *target = to;
    for (; length && (uintptr_t)target % 4; length--)
        *target++ = byte;
    for (; length >= 4; length -= 4, target += 4)
        *(uint32_t *)target = (unsigned char)byte * 0x01010101u;
    while (length--)
        *target++ = byte;
    return to;
}

int memcmp(const void *left, const void *right, size_t length)
{
    const unsigned char *l = left, *r = right;
    for (; length; l++, r++, length--)
        if (*l != *r)
            return *l - *r;
    return 0;
}

size_t strlen(const char *text)
{
    size_t length = 0;
    while (text[length])
        length++;
    return length;
}

int strcmp(const char *left, const char *right)
{
    for (; *left && *left == *right; left++, right++)
        ;
    return (unsigned char)*left - (unsigned char)*right;
}
