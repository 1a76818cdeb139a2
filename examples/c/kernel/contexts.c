/* Contexts: which there are, and which runs next. Context N is the one in slot N % 8 of program N / 8. */

#include "kernel.h"

#define SLICE 4000              /* the steps of a turn, those of the kernel meanwhile among them */

struct program programs[MOST_PROGRAMS];
struct context contexts[MOST_CONTEXTS];

static volatile unsigned ready; /* how many are READY: harts without one watch it */
static struct context *last = contexts;     /* the one that had the last turn */

void make_ready(struct context *it)
{
    it->state = READY;
    ready++;
}

/* There is a new context in the monitor. It may have the number of one that is not FREE here yet: that one has ended,
   but its hart still waits for the lock to tell so. Then the new one begins after that. */
void begin_context(struct context *it, struct space *space)
{
    space->contexts++;
    if (it->state != FREE) {
        it->next = space;
        return;
    }
    it->space = space;
    it->answer = 0;
    make_ready(it);
}

void end_context(struct context *it)
{
    struct space *space = it->space, *next = it->next;
    if (it->state == READY)
        ready--;
    *it = (struct context){0};
    for (struct context *other = contexts; other < contexts + MOST_CONTEXTS; other++)
        if (other->state == WAITING && other->awaited == it)
            make_ready(other);
    if (--space->contexts == 0)
        free_space(space);
    if (next) {
        next->contexts--;
        begin_context(it, next);
    }
}

/* The monitor has ended a program. Those of its contexts that run come back with CAUSE_GONE, each on its own hart,
   and end then. Until then their tables must stay: the hart is under them as it enters the kernel. */
void lose_program(unsigned number)
{
    for (struct context *it = contexts + number * SLOTS; it < contexts + (number + 1) * SLOTS; it++)
        while (it->state == READY || it->state == WAITING)
            end_context(it);
}

void wait_for(struct context *it, struct context *other)
{
    it->answer = 0;
    if (other->state == FREE)
        return;
    it->awaited = other;
    it->state = WAITING;
}

/* Resumes a context. The hart has the lock, and nothing that it needs later. */
void run(struct context *it)
{
    unsigned satp = satp_of(it->space), answer = it->answer;
    it->state = RUNNING;
    unlock();
    resume(it - contexts, answer, satp);
}

static _Noreturn void end_run(void)
{
    say("kernel: ");
    say_number(pages_out);
    say(" pages went out, ");
    say_number(pages_in);
    say(" came back\n");
    halt(0);
}

/* Resumes the next context in a circle, as soon as there is one. */
void run_next(void)
{
    for (;;) {
        unsigned there = 0, running = 0;
        for (unsigned tries = 0; tries < MOST_CONTEXTS; tries++) {
            last = last + 1 < contexts + MOST_CONTEXTS ? last + 1 : contexts;
            if (last->state == READY) {
                ready--;
                set_timer(SLICE);
                run(last);
            }
            there += last->state != FREE;
            running += last->state == RUNNING;
        }
        if (there == 0)
            end_run();
        if (running == 0)
            panic("each context waits for another one");
        unlock();
        while (ready == 0)
            ;
        lock();
    }
}
