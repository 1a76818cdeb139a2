/* What the kernel and its programs have agreed on: where things lie in a space, and the numbers of the calls.
   The monitor knows nothing of it, but that calls 1 to 3 have a buffer (docs/PROGRAMS.md, "Calls to the kernel"). */

#ifndef AGREED_H
#define AGREED_H

#define PAGE    4096

/* A space of a program, by addresses. A page table of level 0 has 4 MiB: one is of the space alone, and the other one
   is the same in all spaces of the program. */
#define OWN     0x00400000      /* the pages of the image: text, data and the first stack */
#define HEAP    0x00500000      /* pages that the program makes as it goes */
#define AREAS   0x007F8000      /* eight areas of a page, not cloaked: the bytes of calls go through them */
#define SHARED  0x00800000      /* files that all spaces of the program share */
#define TOP     0x00C00000      /* the first address after them */

#define AREA_COUNT  8           /* one for each context that a program may have */
#define FILE_PAGES  64          /* file N begins at SHARED + N * FILE_PAGES * PAGE: at one address in all spaces */
#define FILE_COUNT  16

/* The calls: the number is in a6, the arguments are in a0 to a3, and the answer comes in a0. */
#define CALL_WRITE  1           /* descriptor, bytes, length, area: how many were written */
#define CALL_OPEN   2           /* 0, name, length, area: a descriptor of the file */
#define CALL_READ   3           /* descriptor, buffer, length, area: how many were read; 0 at the end of the file */
#define CALL_CLOSE  4           /* descriptor: 0 */
#define CALL_START  5           /* a context that THREAD made: 0, and it runs from now on */
#define CALL_FORKED 6           /* a context that FORK made: 0, and it has its pages and runs from now on */
#define CALL_WAIT   7           /* a context: 0 once it has ended */
#define CALL_YIELD  8           /* 0, after others had their turn */
#define REFUSED     0xFFFFFFFF  /* the answer to a call that the kernel does not serve: -1 */

/* The monitor's own numbers, which are in a7. */
#define MONITOR_NEW     0x4F560001
#define MONITOR_MAP     0x4F560002
#define MONITOR_FILE    0x4F560004
#define MONITOR_THREAD  0x4F560005
#define MONITOR_FORK    0x4F560006
#define MONITOR_EXIT    0x4F560007
#define MONITOR_CALL    0x4F560008

#endif
