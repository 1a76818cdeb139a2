/* Frames, and the pages in them. There may be more pages than frames: then pages go out to the disk, and come back.

   An entry of a page table says where its page is. A leaf leads to a frame. An entry that is not valid and has bit 8
   has the number of a block: the machine looks at no other bit if V is 0. And 0 is a page that was never there. */

#include "kernel.h"

#define LEAF    0xDF            /* V, R, W, X, U, A and D: the monitor sees to it who may read what is cloaked */
#define OUT     0x100

/* Of each frame: 0 if it is free; KEPT if it stays as it is (of the kernel, a table, an area); otherwise the entry
   that leads to it. There is one such entry, as spaces that share a page share the whole table. */
static unsigned *held_by[MOST_FRAMES];
static unsigned kept;
#define KEPT (&kept)

static unsigned first_frame, end_frame, free_frames;
static unsigned hand;           /* the frame that was taken last */

unsigned pages_out, pages_in;   /* how many pages went out and came back */

static void *frame_at(unsigned frame)
{
    return (void *)(RAM + frame * PAGE);
}

static unsigned number_of(const void *frame)
{
    return ((unsigned)frame - RAM) / PAGE;
}

bool is_leaf(unsigned entry)
{
    return entry & 1;
}

bool is_out(unsigned entry)
{
    return !is_leaf(entry) && entry & OUT;
}

void *frame_of(unsigned entry)
{
    return (void *)(entry >> 10 << 12);
}

unsigned block_of(unsigned entry)
{
    return entry >> 10;
}

unsigned out_in(unsigned block)
{
    return block << 10 | OUT;
}

static unsigned leaf_to(const void *frame)
{
    return (unsigned)frame >> 12 << 10 | LEAF;
}

/* The kernel uses the frames from the first to the end, this one not among them. */
void begin_frames(unsigned first, unsigned end)
{
    first_frame = hand = first;
    end_frame = end < MOST_FRAMES ? end : MOST_FRAMES;
    free_frames = end_frame - first_frame;
}

/* Marks a frame that is in use as the kernel begins. */
void keep_frame(unsigned frame)
{
    if (frame < first_frame || frame >= end_frame)
        panic("a program does not lie in the frames that the kernel uses");
    held_by[frame] = KEPT;
    free_frames--;
}

/* Leads a page to the frame that has it as the run begins. */
void place_page(unsigned *entry, unsigned frame)
{
    held_by[frame] = entry;
    *entry = leaf_to(frame_at(frame));
}

/* Sends the page in a frame out. First the entry, and then the disk: between the two a program on another hart could
   store in the page, and the disk would not have what it stored. */
static void send_out(unsigned frame)
{
    unsigned block = take_block();
    *held_by[frame] = out_in(block);
    if (!write_block(block, frame_at(frame)))
        panic("a page could not be written");
    watch_page(frame_at(frame), block);
    pages_out++;
}

/* Returns a frame, with any bytes in it. If none is free, a page goes out: the hand goes round, and so it is the one
   that has been in its frame for the longest time. */
void *take_frame(void)
{
    for (unsigned tries = first_frame; tries < end_frame; tries++) {
        hand = hand + 1 < end_frame ? hand + 1 : first_frame;
        if (held_by[hand] == KEPT || (held_by[hand] && free_frames))
            continue;
        if (held_by[hand])
            send_out(hand);
        else
            free_frames--;
        held_by[hand] = KEPT;
        return frame_at(hand);
    }
    panic("there is no frame for a page");
}

void free_frame(void *frame)
{
    held_by[number_of(frame)] = 0;
    free_frames++;
}

/* Leads an entry to a frame with its page, if it does not yet. First the bytes, and then the entry: a program on
   another hart uses the page as soon as the entry leads to it. A page that was never there needs no bytes: whatever
   is in the frame, the program finds zeros. */
void bring_page(unsigned *entry)
{
    if (is_leaf(*entry))
        return;
    void *frame = take_frame();
    if (is_out(*entry)) {
        if (!read_block(block_of(*entry), frame))
            panic("a page could not be read");
        free_block(block_of(*entry));
        pages_in++;
        attack_page(frame);
    }
    held_by[number_of(frame)] = entry;
    *entry = leaf_to(frame);
}

/* The same for a page that the kernel looks at, too: it stays in its frame. */
void keep_page(unsigned *entry)
{
    bring_page(entry);
    held_by[number_of(frame_of(*entry))] = KEPT;
}

/* Nobody needs the page any more. */
void free_page(unsigned *entry)
{
    if (is_leaf(*entry))
        free_frame(frame_of(*entry));
    else if (is_out(*entry))
        free_block(block_of(*entry));
    *entry = 0;
}
