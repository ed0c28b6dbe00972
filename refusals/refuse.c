/* Refuses one growth of the program that it is loaded before: the one whose number is in REFUSE, from 1 on. At the end it
   writes to the file descriptor whose number is in GROWTHS how many growths there were. */
#include <stddef.h>
#include <stdio.h>
#include <stdlib.h>
#include <unistd.h>

void *__libc_malloc(size_t size);
void *__libc_realloc(void *old, size_t size);

static long growths;
static long refused;

static int refuses(void)
{
    if (refused == 0) {
        const char *number = getenv("REFUSE");
        refused = number ? atol(number) : -1;
        if (refused == 0)
            refused = -1;
    }
    return ++growths == refused;
}

void *malloc(size_t size)
{
    return refuses() ? NULL : __libc_malloc(size);
}

void *realloc(void *old, size_t size)
{
    return refuses() ? NULL : __libc_realloc(old, size);
}

__attribute__((destructor)) static void report(void)
{
    long reported = growths;
    const char *to = getenv("GROWTHS");
    if (to)
        dprintf(atoi(to), "%ld\n", reported);
}
