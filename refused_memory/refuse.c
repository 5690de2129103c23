/* Refuses one request for memory of the program that it is loaded into: the one with the number in REFUSED_REQUEST,
   counted from 1. It then writes the line "refused" to standard error. */
#include <stddef.h>
#include <stdlib.h>
#include <unistd.h>

extern void *__libc_malloc(size_t size);
extern void *__libc_realloc(void *old, size_t size);

/* Whether this request is the one to be refused. */
static int is_refused(void)
{
    static unsigned long requests;
    static unsigned long refused;

    if (requests == 0) {
        const char *number = getenv("REFUSED_REQUEST");
        refused = number == NULL ? 0 : strtoul(number, NULL, 10);
    }
    requests += 1;
    if (requests != refused) {
        return 0;
    }
    if (write(2, "refused\n", 8) != 8) {
        abort();
    }
    return 1;
}

void *malloc(size_t size)
{
    return is_refused() ? NULL : __libc_malloc(size);
}

void *realloc(void *old, size_t size)
{
    return is_refused() ? NULL : __libc_realloc(old, size);
}
