/* printf, for %c, %s, %d, %u, %x and %%, with a width and a leading 0. */

#include <stdarg.h>
#include <stdio.h>
#include <string.h>
#include <unistd.h>

/* What one printf says goes to the kernel as a whole, so that lines of several threads do not mix. */
struct line {
    char bytes[256];
    unsigned length;
    int total;
};

static void flush(struct line *it)
{
    write(1, it->bytes, it->length);
    it->total += it->length;
    it->length = 0;
}

static void put(struct line *it, char byte)
{
    if (it->length == sizeof it->bytes)
        flush(it);
    it->bytes[it->length++] = byte;
}

static void put_text(struct line *it, const char *text, int width)
{
    for (int i = strlen(text); i < width; i++)
        put(it, ' ');
    while (*text)
        put(it, *text++);
}

static void put_number(struct line *it, unsigned number, unsigned base, int is_negative, int width, char filling)
{
    char digits[16];
    int count = 0;
    do
        digits[count++] = "0123456789abcdef"[number % base];
    while (number /= base);
    if (is_negative && filling == '0')
        put(it, '-');
    for (int i = count + is_negative; i < width; i++)
        put(it, filling);
    if (is_negative && filling == ' ')
        put(it, '-');
    while (count)
        put(it, digits[--count]);
}

int printf(const char *form, ...)
{
    struct line line;
    line.length = line.total = 0;
    va_list words;
    va_start(words, form);
    for (; *form; form++) {
        if (*form != '%') {
            put(&line, *form);
            continue;
        }
        char filling = ' ';
        int width = 0;
        if (*++form == '0')
            filling = *form++;
        while (*form >= '0' && *form <= '9')
            width = 10 * width + (*form++ - '0');
        switch (*form) {
        case 'c':
            put(&line, va_arg(words, int));
            break;
        case 's':
            put_text(&line, va_arg(words, const char *), width);
            break;
        case 'd': {
            int number = va_arg(words, int);
            put_number(&line, number < 0 ? -(unsigned)number : (unsigned)number, 10, number < 0, width, filling);
            break;
        }
        case 'u':
            put_number(&line, va_arg(words, unsigned), 10, 0, width, filling);
            break;
        case 'x':
            put_number(&line, va_arg(words, unsigned), 16, 0, width, filling);
            break;
        default:
            put(&line, *form);
        }
    }
    va_end(words);
    flush(&line);
    return line.total;
}
