/* zlib, as a cloaked program: packs the file text of its disk, unpacks it again, and says its CRC. */

#include <stdio.h>
#include <stdlib.h>
#include <string.h>
#include "zlib.h"

#define MOST 65536

int main(void)
{
    unsigned char *text = malloc(MOST), *packed = malloc(2 * MOST), *again = malloc(MOST);
    FILE *file = fopen("text", "r");
    if (!text || !packed || !again || !file) {
        printf("zlib: no memory, or no file text\n");
        return 1;
    }
    uLong length = fread(text, 1, MOST, file), size = 2 * MOST, back = MOST;
    int made = compress2(packed, &size, text, length, 9);
    int unmade = uncompress(again, &back, packed, size);
    printf("zlib: %lu bytes, packed %lu, crc %08lx, %s\n", length, size, crc32(0, text, length),
           made == Z_OK && unmade == Z_OK && back == length && memcmp(text, again, length) == 0 ? "the same again" : "something else");
    return 0;
}
