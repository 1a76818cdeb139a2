/* Threads: contexts of the monitor in one space. Each has a stack of a page, and an area. */

#include <stdatomic.h>
#include <stdlib.h>
#include <threads.h>
#include "runtime.h"

#define STACK PAGE

struct thread first_thread = {.area = (void *)AREAS};

/* Of each area whether a thread has it. */
static atomic_int areas[AREA_COUNT] = {1};

static void *take_area(void)
{
    for (int i = 0; i < AREA_COUNT; i++)
        if (!atomic_exchange(&areas[i], 1))
            return (void *)(AREAS + i * PAGE);
    return 0;
}

static void give_area(void *area)
{
    atomic_store(&areas[((unsigned)area - AREAS) / PAGE], 0);
}

static void discard(struct thread *it)
{
    if (it->area)
        give_area(it->area);
    free(it->stack);
    free(it);
}

int thrd_create(thrd_t *thread, thrd_start_t function, void *argument)
{
    struct thread *it = calloc(1, sizeof *it);
    if (!it)
        return thrd_nomem;
    it->stack = malloc(STACK);
    it->area = take_area();
    it->function = function;
    it->argument = argument;
    if (it->stack && it->area) {
        unsigned stack_end = (unsigned)it->stack + STACK;
        it->number = ask_monitor(MONITOR_THREAD, (unsigned)begin_thread, stack_end, (unsigned)it, 0);
        /* The kernel does not see that there is a new context, and is told. */
        if (it->number >= 0 && ask_kernel(CALL_START, it->number, 0, 0) == 0) {
            *thread = it;
            return thrd_success;
        }
    }
    discard(it);
    return thrd_error;
}

int thrd_join(thrd_t it, int *result)
{
    while (!it->is_done)
        if (ask_kernel(CALL_WAIT, it->number, 0, 0) < 0)
            return thrd_error;
    if (result)
        *result = it->result;
    discard(it);
    return thrd_success;
}

void thrd_yield(void)
{
    ask_kernel(CALL_YIELD, 0, 0, 0);
}

/* While the mutex is held, others get their turn: the thread that holds it may be waiting for a hart. */
int mtx_lock(mtx_t *it)
{
    while (atomic_exchange(&it->is_held, 1))
        thrd_yield();
    return thrd_success;
}

int mtx_unlock(mtx_t *it)
{
    atomic_store(&it->is_held, 0);
    return thrd_success;
}
