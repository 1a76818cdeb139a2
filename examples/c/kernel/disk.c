/* The disk: files by their names, and blocks for pages that go out.

   Block 0 is the directory: a text with a line for each file, which has its name, its first block and its bytes. The
   file `swap` has the blocks for pages. What goes there is ciphertext, as all that the kernel sees of a cloaked page.
   Other files are not cloaked. */

#include "kernel.h"

/* Where a block is looked at. A transfer takes a whole frame, so it has one of its own. */
static char block_bytes[PAGE] __attribute__((aligned(PAGE), section(".bss.block")));

static struct file swap;
static bool is_taken[MOST_BLOCKS];                  /* of each block of `swap` */
static unsigned last_taken;

static unsigned swap_blocks(void)
{
    return swap.length / PAGE < MOST_BLOCKS ? swap.length / PAGE : MOST_BLOCKS;
}

void begin_disk(void)
{
    if (!find_file("swap", 4, &swap))
        panic("the disk has no file for pages");
}

bool find_file(const char *name, unsigned length, struct file *found)
{
    if (length == 0 || !read_block(0, block_bytes))
        return false;
    block_bytes[PAGE - 1] = 0;
    const char *text = block_bytes;
    while (*text) {
        if (take_word(&text, name, length)) {
            found->first = take_number(&text);
            found->length = take_number(&text);
            return true;
        }
        while (*text && *text++ != '\n')            /* to the next line */
            ;
    }
    return false;
}

/* Reads at most to the end of a block, and returns how many bytes there were. */
unsigned read_file(struct file file, unsigned offset, char *to, unsigned most)
{
    if (offset >= file.length)
        return 0;
    unsigned length = PAGE - offset % PAGE;
    if (length > file.length - offset)
        length = file.length - offset;
    if (length > most)
        length = most;
    if (!read_block(file.first + offset / PAGE, block_bytes))
        return 0;
    copy(to, block_bytes + offset % PAGE, length);
    return length;
}

/* Returns the number of a block of `swap` that is free. */
unsigned take_block(void)
{
    for (unsigned tries = 0; tries < swap_blocks(); tries++) {
        last_taken = last_taken + 1 < swap_blocks() ? last_taken + 1 : 0;
        if (!is_taken[last_taken]) {
            is_taken[last_taken] = true;
            return swap.first + last_taken;
        }
    }
    panic("the disk has no block for a page");
}

void free_block(unsigned block)
{
    is_taken[block - swap.first] = false;
}

/* Returns another block with the same bytes. */
unsigned copy_block(unsigned block)
{
    unsigned other = take_block();
    read_block(block, block_bytes);
    write_block(other, block_bytes);
    return other;
}
