/* The end of a program, the wait for a child, and pages that parent and child share. `fork` is in start.S. */

#include <cloak.h>
#include <stdlib.h>
#include <sys/wait.h>
#include "runtime.h"

/* Other threads of the program go on. Nobody is told the status. */
void exit(int status)
{
    (void)status;
    exit_context();
}

pid_t waitpid(pid_t child, int *status, int options)
{
    if (options || ask_kernel(CALL_WAIT, child, 0, 0) < 0)
        return -1;
    if (status)
        *status = 0;
    return child;
}

void *share(unsigned number, unsigned pages)
{
    if (number >= FILE_COUNT || pages > FILE_PAGES)
        return 0;
    unsigned start = SHARED + number * FILE_PAGES * PAGE;
    int resource = ask_monitor(MONITOR_FILE, number, pages, 0, 0);
    if (resource < 0 || ask_monitor(MONITOR_MAP, resource, start, 0, pages) < 0)
        return 0;
    return (void *)start;
}
