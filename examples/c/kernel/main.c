/* How the kernel begins. The machine tells a kernel nothing, so the image has a text for it in frame 0:

       frames 40            the kernel uses the frames below 40
       program 8 4          a program whose first page is in frame 8, and which has 4 pages

   There is a line for each program, in the order of the image. */

#include "kernel.h"

extern char kernel_end[];       /* the linker puts it after all that the kernel has */

static struct {
    unsigned place, pages;
} images[MOST_PROGRAMS];

static unsigned image_count;
static volatile bool has_begun;

static void read_table(void)
{
    const char *text = (const char *)RAM;
    if (!take_word(&text, "frames", 6))
        panic("frame 0 does not tell the number of frames");
    begin_frames(((unsigned)kernel_end - RAM + PAGE - 1) / PAGE, take_number(&text));
    while (image_count < MOST_PROGRAMS && take_word(&text, "program", 7)) {
        images[image_count].place = take_number(&text);
        images[image_count].pages = take_number(&text);
        /* Before the first frame is taken, all that are in use are known. */
        for (unsigned page = 0; page < images[image_count].pages; page++)
            keep_frame(images[image_count].place + page);
        image_count++;
    }
}

static void begin_program(unsigned number)
{
    struct space *space = new_space(&programs[number]);
    for (unsigned page = 0; page < images[number].pages; page++)
        place_page(entry_of(space, OWN + page * PAGE), images[number].place + page);
    begin_context(&contexts[number * SLOTS], space);
}

/* Each hart comes here once. */
_Noreturn void main(unsigned hart)
{
    if (hart == 0) {
        begin_disk();
        read_table();
        for (unsigned number = 0; number < image_count; number++)
            begin_program(number);
        has_begun = true;
    }
    while (!has_begun)
        ;
    lock();
    run_next();
}
