#ifndef CLOAK_H
#define CLOAK_H

/* Returns the first address of a cloaked file, or 0. Its number is 0 to 15, and it has 1 to 64 pages, which are zeros
   at first. Parent and child have the same pages there, if the parent asks for them before it forks. */
void *share(unsigned number, unsigned pages);

#endif
