/* Why a hart comes to the kernel. */

#include "kernel.h"

static void say_leave(const struct leave *it)
{
    say("kernel: context ");
    say_number(it->context);
    say(" left with cause ");
    say_number(it->cause);
    say(" at ");
    say_word(it->page);
    say("\n");
}

/* Gives the context the page that it misses, and returns whether there is one. */
static bool give_page(struct context *it, unsigned address)
{
    unsigned *entry = entry_of(it->space, address);
    if (!entry)
        return false;
    if (is_area(address))
        keep_page(entry);
    else
        bring_page(entry);
    return true;
}

/* The hart comes here with an empty stack, and goes from here into a context. */
_Noreturn void left(const struct leave *it)
{
    if (read_register(sstatus) & STATUS_FROM_KERNEL) {
        say_word(read_register(sepc));
        panic(": here the kernel itself has raised a trap");
    }
    lock();
    struct context *context = &contexts[it->context];
    switch (it->cause) {
    case CAUSE_CALL:
        serve(context, it);
        break;
    case CAUSE_FETCH_PAGE:
    case CAUSE_LOAD_PAGE:
    case CAUSE_STORE_PAGE:
        if (!give_page(context, it->page)) {
            say_leave(it);
            end_context(context);
        }
        break;
    case CAUSE_TIMER:
        make_ready(context);
        break;
    case CAUSE_GONE:
        /* The monitor has ended the program: the kernel presented something that it should not have. */
        say_leave(it);
        end_context(context);
        lose_program(it->context / SLOTS);
        break;
    default:
        /* It did something that it may not do. It is not resumed any more, which is all that a kernel can do. */
        say_leave(it);
        end_context(context);
    }
    if (context->state == RUNNING)
        run(context);
    run_next();
}
