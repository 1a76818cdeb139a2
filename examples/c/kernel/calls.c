/* The calls of programs. By now the monitor has copied the bytes of a WRITE or an OPEN to the area; those of a READ
   it takes from there when the caller is resumed. The kernel is shown the area's address instead of the buffer's. */

#include "kernel.h"

/* Returns where the kernel finds the area of a call, or 0 if it is none. It stays in its frame from now on. */
static char *area_of(struct context *caller, const struct leave *it)
{
    unsigned address = it->argument[1];
    if (!is_area(address) || address % PAGE != 0)
        return 0;
    unsigned *entry = entry_of(caller->space, address);
    keep_page(entry);
    return frame_of(*entry);
}

static unsigned write_text(const char *text, unsigned descriptor, unsigned length)
{
    if (descriptor != 1 && descriptor != 2)
        return REFUSED;
    for (unsigned i = 0; i < length; i++)
        put_byte(text[i]);
    return length;
}

static unsigned open_named(struct program *program, const char *name, unsigned length)
{
    for (unsigned i = 0; i < MOST_OPEN; i++) {
        struct open_file *it = &program->open[i];
        if (it->is_open)
            continue;
        if (!find_file(name, length, &it->file))
            return REFUSED;
        it->is_open = true;
        it->offset = 0;
        return FIRST_OPEN + i;
    }
    return REFUSED;
}

static struct open_file *open_file(struct program *program, unsigned descriptor)
{
    unsigned i = descriptor - FIRST_OPEN;
    return i < MOST_OPEN && program->open[i].is_open ? &program->open[i] : 0;
}

static unsigned read_next(struct open_file *it, char *to, unsigned most)
{
    if (!it)
        return REFUSED;
    unsigned length = read_file(it->file, it->offset, to, most);
    it->offset += length;
    return length;
}

static unsigned close_file(struct open_file *it)
{
    if (!it)
        return REFUSED;
    it->is_open = false;
    return 0;
}

/* Returns the context of this number, if it is of the caller's program. What a program says of its own contexts is
   not tested: if there is none of that number, the resume ends this program, and no other one. */
static struct context *fellow(struct context *caller, unsigned number)
{
    return number / SLOTS == (unsigned)(caller - contexts) / SLOTS ? &contexts[number] : 0;
}

static unsigned start_thread(struct context *caller, struct context *it)
{
    if (!it || it->next)
        return REFUSED;
    begin_context(it, caller->space);
    return 0;
}

static unsigned start_child(struct context *caller, struct context *it)
{
    struct space *space = it && !it->next ? copy_space(caller->space) : 0;
    if (!space)
        return REFUSED;
    begin_context(it, space);
    return 0;
}

void serve(struct context *caller, const struct leave *it)
{
    struct program *program = caller->space->program;
    unsigned first = it->argument[0], length = it->argument[2];
    struct context *other = fellow(caller, first);
    bool has_buffer = it->number == CALL_WRITE || it->number == CALL_OPEN || it->number == CALL_READ;
    char *area = has_buffer ? area_of(caller, it) : 0;
    caller->answer = REFUSED;
    if (has_buffer && !area)
        return;
    switch (it->number) {
    case MONITOR_EXIT:
        end_context(caller);
        break;
    case CALL_WRITE:
        caller->answer = write_text(area, first, length);
        break;
    case CALL_OPEN:
        caller->answer = open_named(program, area, length);
        break;
    case CALL_READ:
        caller->answer = read_next(open_file(program, first), area, length);
        break;
    case CALL_CLOSE:
        caller->answer = close_file(open_file(program, first));
        break;
    case CALL_START:
        caller->answer = start_thread(caller, other);
        break;
    case CALL_FORKED:
        caller->answer = start_child(caller, other);
        break;
    case CALL_WAIT:
        if (other)
            wait_for(caller, other);
        break;
    case CALL_YIELD:
        caller->answer = 0;
        make_ready(caller);
        break;
    }
}
