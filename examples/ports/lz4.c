/* LZ4, as a cloaked program: packs the file text of its disk, unpacks it again, and says whether it is the same. */

#include <stdio.h>
#include <stdlib.h>
#include <string.h>
#include "lz4.h"

#define MOST 65536

int main(void)
{
    char *text = malloc(MOST), *packed = malloc(LZ4_compressBound(MOST)), *again = malloc(MOST);
    FILE *file = fopen("text", "r");
    if (!text || !packed || !again || !file) {
        printf("lz4: no memory, or no file text\n");
        return 1;
    }
    int length = fread(text, 1, MOST, file);
    int size = LZ4_compress_default(text, packed, length, LZ4_compressBound(MOST));
    int back = LZ4_decompress_safe(packed, again, size, MOST);
    printf("lz4: %d bytes, packed %d, %s\n", length, size,
           back == length && memcmp(text, again, length) == 0 ? "the same again" : "something else");
    return 0;
}
