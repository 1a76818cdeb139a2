#ifndef UNISTD_H
#define UNISTD_H

#include <stddef.h>

typedef int ssize_t;
typedef int pid_t;

ssize_t read(int descriptor, void *buffer, size_t length);
ssize_t write(int descriptor, const void *bytes, size_t length);
int close(int descriptor);

/* Only for a thread that is alone in its space: what another one stores meanwhile would be lost for the child. */
pid_t fork(void);

#endif
