/* Text: what the kernel says on the console, and the words of the two tables that it reads. */

#include "kernel.h"

void say(const char *text)
{
    while (*text)
        put_byte(*text++);
}

void say_number(unsigned number)
{
    if (number >= 10)
        say_number(number / 10);
    put_byte('0' + number % 10);
}

void say_word(unsigned word)
{
    for (int shift = 28; shift >= 0; shift -= 4)
        put_byte("0123456789abcdef"[word >> shift & 15]);
}

/* For what a kernel cannot go on from. */
void panic(const char *why)
{
    say("kernel: ");
    say(why);
    say("\n");
    halt(1);
}

static const char *past_blanks(const char *text)
{
    while (*text == ' ' || *text == '\n')
        text++;
    return text;
}

/* Returns whether the next word of the text is this one, and goes past it then. The text ends with a byte 0. */
bool take_word(const char **text, const char *word, unsigned length)
{
    const char *at = past_blanks(*text);
    for (unsigned i = 0; i < length; i++)
        if (at[i] == 0 || at[i] != word[i])
            return false;
    if (at[length] != ' ' && at[length] != '\n')
        return false;
    *text = at + length;
    return true;
}

/* Takes a decimal number. */
unsigned take_number(const char **text)
{
    const char *at = past_blanks(*text);
    unsigned number = 0;
    while (*at >= '0' && *at <= '9')
        number = 10 * number + (*at++ - '0');
    *text = at;
    return number;
}

/* By words as long as it can: each one is a step. */
void copy(void *to, const void *from, unsigned length)
{
    char *target = to;
    const char *source = from;
    if (((unsigned)target | (unsigned)source) % 4 == 0)
        for (; length >= 4; length -= 4, target += 4, source += 4)
            *(unsigned *)target = *(const unsigned *)source;
    while (length--)
        *target++ = *source++;
}
