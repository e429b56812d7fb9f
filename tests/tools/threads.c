/* A library to preload into an executable: it counts the threads that the executable begins, and writes their number into the file that
 * COUNT_THREADS names as the process ends.
 *
 *   cc -O2 -Wall -Wextra -shared -fPIC -o threads.so threads.c -ldl
 *   COUNT_THREADS=count LD_PRELOAD=./threads.so ./program
 */
#define _GNU_SOURCE
#include <dlfcn.h>
#include <pthread.h>
#include <stdatomic.h>
#include <stdio.h>
#include <stdlib.h>

static atomic_long begun;

int pthread_create(pthread_t *thread, const pthread_attr_t *how, void *(*work)(void *), void *with)
{
    static int (*next)(pthread_t *, const pthread_attr_t *, void *(*)(void *), void *);

    if (!next)
        next = (int (*)(pthread_t *, const pthread_attr_t *, void *(*)(void *), void *))dlsym(RTLD_NEXT, "pthread_create");
    begun++;
    return next(thread, how, work, with);
}

static void told(void)
{
    const char *name = getenv("COUNT_THREADS");
    FILE *file = name ? fopen(name, "w") : NULL;

    if (file) {
        fprintf(file, "%ld\n", (long)begun);
        fclose(file);
    }
}

/* The executable ends so, without what the C library does at its own exit. */
void _exit(int status)
{
    static void (*next)(int);

    if (!next)
        next = (void (*)(int))dlsym(RTLD_NEXT, "_exit");
    told();
    next(status);
    for (;;)
        ;
}
