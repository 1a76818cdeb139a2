/* A kernel that attacks its programs, for a lesson: `make HOSTILE=flip`, `replay`, `swap` or `peek`. An honest kernel has
   nothing of this file. The attack is made on the pages that come back from the disk, from the third one on. */

#include "kernel.h"

#ifdef HOSTILE

#define FLIP    1               /* one bit of the page is another one */
#define REPLAY  2               /* the page is as it was when it went out the first time */
#define SWAP    3               /* the page is another page of the disk */
#define PEEK    4               /* nothing is changed: the first words of the page are shown */

static char first_page[PAGE] __attribute__((aligned(4)));
static unsigned first_block;

/* A page goes out to a block. */
void watch_page(const void *frame, unsigned block)
{
    if (first_block)
        return;
    first_block = block;
    copy(first_page, frame, PAGE);
}

/* A page has come back into a frame. */
void attack_page(void *frame)
{
    if (pages_in < 3)
        return;
    if (HOSTILE == FLIP && pages_in == 3)
        *(char *)frame ^= 1;
    if (HOSTILE == REPLAY && pages_in == 3)
        copy(frame, first_page, PAGE);
    if (HOSTILE == SWAP && pages_in == 3)
        read_block(first_block, frame);
    if (HOSTILE == PEEK && pages_in < 6) {
        say("kernel: a page begins with ");
        for (unsigned i = 0; i < 4; i++) {
            say_word(((const unsigned *)frame)[i]);
            say(i < 3 ? " " : "\n");
        }
    }
}

#endif
