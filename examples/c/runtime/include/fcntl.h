#ifndef FCNTL_H
#define FCNTL_H

#define O_RDONLY 0

int open(const char *name, int flags);

#endif
