/* What each file of the kernel offers to the others. */

#ifndef KERNEL_H
#define KERNEL_H

#include <stddef.h>
#include "../agreed.h"
#include "machine.h"

#define MOST_PROGRAMS   4
#define SLOTS           8                           /* the contexts that a program may have */
#define MOST_CONTEXTS   (MOST_PROGRAMS * SLOTS)
#define MOST_SPACES     8
#define MOST_FRAMES     256
#define MOST_BLOCKS     256                         /* for pages that go out */
#define MOST_OPEN       4                           /* files that a program has open */
#define FIRST_OPEN      3                           /* their first descriptor; 1 is the console */

/* A file of the disk: its first block, its bytes. Its blocks follow one another. */
struct file {
    unsigned first, length;
};

struct open_file {
    bool is_open;
    struct file file;
    unsigned offset;                                /* where the next read begins */
};

struct program {
    unsigned spaces;                                /* how many it has */
    unsigned *shared;                               /* the page table that they share */
    struct open_file open[MOST_OPEN];               /* in all its spaces: parent and child share them */
};

struct space {
    struct program *program;                        /* 0 if there is no such space */
    unsigned contexts;                              /* how many it has */
    unsigned *root, *own;                           /* its root table, and the page table of its own pages */
};

enum state {
    FREE,                                           /* there is no such context */
    READY,                                          /* it may be resumed */
    RUNNING,                                        /* a hart resumed it, or serves it */
    WAITING                                         /* for another context to end */
};

struct context {
    enum state state;
    struct space *space;
    struct space *next;                             /* the space of the next context with its number: begin_context */
    struct context *awaited;                        /* the one whose end it waits for */
    unsigned answer;                                /* what it is resumed with */
};

/* What a context leaves with. start.S stores it so. */
struct leave {
    unsigned argument[6], number, context, cause, page;
};

/* start.S */
_Noreturn void resume(unsigned context, unsigned answer, unsigned satp);

/* lock.c */
void lock(void);
void unlock(void);

/* text.c */
void say(const char *text);
void say_number(unsigned number);
void say_word(unsigned word);
_Noreturn void panic(const char *why);
bool take_word(const char **text, const char *word, unsigned length);
unsigned take_number(const char **text);
void copy(void *to, const void *from, unsigned length);

/* disk.c */
void begin_disk(void);
bool find_file(const char *name, unsigned length, struct file *found);
unsigned read_file(struct file file, unsigned offset, char *to, unsigned most);
unsigned take_block(void);
void free_block(unsigned block);
unsigned copy_block(unsigned block);

/* frames.c */
extern unsigned pages_out, pages_in;
void begin_frames(unsigned first, unsigned end);
void keep_frame(unsigned frame);
void place_page(unsigned *entry, unsigned frame);
void *take_frame(void);
void free_frame(void *frame);
void bring_page(unsigned *entry);
void keep_page(unsigned *entry);
void free_page(unsigned *entry);
void *frame_of(unsigned entry);
bool is_leaf(unsigned entry);
bool is_out(unsigned entry);
unsigned out_in(unsigned block);
unsigned block_of(unsigned entry);

/* hostile.c: of an honest kernel nothing */
#ifdef HOSTILE
void watch_page(const void *frame, unsigned block);
void attack_page(void *frame);
#else
#define watch_page(frame, block) ((void)0)
#define attack_page(frame) ((void)0)
#endif

/* spaces.c */
struct space *new_space(struct program *program);
struct space *copy_space(struct space *parent);
void free_space(struct space *space);
unsigned satp_of(const struct space *space);
unsigned *entry_of(struct space *space, unsigned address);
bool is_area(unsigned address);

/* contexts.c */
extern struct program programs[MOST_PROGRAMS];
extern struct context contexts[MOST_CONTEXTS];
void begin_context(struct context *it, struct space *space);
void end_context(struct context *it);
void lose_program(unsigned number);
void make_ready(struct context *it);
void wait_for(struct context *it, struct context *other);
_Noreturn void run(struct context *it);
_Noreturn void run_next(void);

/* calls.c */
void serve(struct context *caller, const struct leave *it);

#endif
