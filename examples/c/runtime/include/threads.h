#ifndef THREADS_H
#define THREADS_H

#include <stdatomic.h>

enum { thrd_success, thrd_nomem, thrd_error };

typedef struct thread *thrd_t;
typedef int (*thrd_start_t)(void *);
typedef struct {
    atomic_int is_held;
} mtx_t;

int thrd_create(thrd_t *thread, thrd_start_t function, void *argument);
int thrd_join(thrd_t thread, int *result);
void thrd_yield(void);

/* A mutex that is all zeros is free. */
int mtx_lock(mtx_t *mutex);
int mtx_unlock(mtx_t *mutex);

#endif
