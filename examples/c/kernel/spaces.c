/* Spaces: the page tables under which the contexts of programs run.

   A space has a root table and a page table of its own, and the page table that its program shares. The monitor
   records satp at the first resume of a space, and ends the program if it is resumed with another one later. So a
   space keeps its root table until its last context has ended. */

#include "kernel.h"

#define ENTRIES     1024
#define POINTER     1           /* V alone: it leads to a table */
#define KERNEL_LEAF 0xCF        /* without U: for the kernel alone */

static struct space spaces[MOST_SPACES];

static unsigned *new_table(void)
{
    unsigned *table = take_frame();
    for (unsigned i = 0; i < ENTRIES; i++)
        table[i] = 0;
    return table;
}

static void free_table(unsigned *table)
{
    for (unsigned i = 0; i < ENTRIES; i++)
        if (table[i])
            free_page(&table[i]);
    free_frame(table);
}

static unsigned pointer_to(const unsigned *table)
{
    return (unsigned)table >> 12 << 10 | POINTER;
}

/* Returns a space without pages, or 0 if there are too many. */
struct space *new_space(struct program *program)
{
    for (struct space *it = spaces; it < spaces + MOST_SPACES; it++) {
        if (it->program)
            continue;
        if (program->spaces++ == 0)
            program->shared = new_table();
        it->program = program;
        it->contexts = 0;
        it->root = new_table();
        it->own = new_table();
        it->root[OWN >> 22] = pointer_to(it->own);
        it->root[SHARED >> 22] = pointer_to(program->shared);
        /* The hart is still under this root as it enters the kernel, so RAM is there, at its own addresses. */
        it->root[RAM >> 22] = RAM >> 12 << 10 | KERNEL_LEAF;
        return it;
    }
    return 0;
}

/* Returns a space for what FORK made: each page of the parent's own, as the kernel sees it at this moment. The copies
   go to blocks of the disk, and come in when the child wants them. The areas are not cloaked, and not copied. */
struct space *copy_space(struct space *parent)
{
    struct space *child = new_space(parent->program);
    if (!child)
        return 0;
    for (unsigned i = 0; i < ENTRIES; i++) {
        unsigned entry = parent->own[i];
        if (entry == 0 || is_area(OWN + i * PAGE))
            continue;
        if (is_leaf(entry)) {
            unsigned block = take_block();
            write_block(block, frame_of(entry));
            child->own[i] = out_in(block);
        } else if (is_out(entry)) {
            child->own[i] = out_in(copy_block(block_of(entry)));
        }
    }
    return child;
}

void free_space(struct space *it)
{
    struct program *program = it->program;
    free_table(it->own);
    free_frame(it->root);
    it->program = 0;
    if (--program->spaces == 0) {
        free_table(program->shared);
        for (unsigned i = 0; i < MOST_OPEN; i++)
            program->open[i].is_open = false;
    }
}

unsigned satp_of(const struct space *it)
{
    return 1u << 31 | (unsigned)it->root >> 12;
}

/* Returns the entry of an address, or 0 if no program has anything there. */
unsigned *entry_of(struct space *it, unsigned address)
{
    if (address < OWN || address >= TOP)
        return 0;
    unsigned *table = address < SHARED ? it->own : it->program->shared;
    return &table[address / PAGE % ENTRIES];
}

bool is_area(unsigned address)
{
    return address >= AREAS && address < AREAS + AREA_COUNT * PAGE;
}
