#ifndef SYS_WAIT_H
#define SYS_WAIT_H

#include <unistd.h>

/* The status is always 0: nobody is told with which one a program ended. */
pid_t waitpid(pid_t child, int *status, int options);

#endif
