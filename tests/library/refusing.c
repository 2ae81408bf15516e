/* The memory of the library as in bindings/c/memory.c, but the growth is refused whose number, from 1 on, the environment variable
   REFUSED has. */
#include <stdbool.h>
#include <stdlib.h>

static bool is_refused(void)
{
    static unsigned long growths;
    const char *number = getenv("REFUSED");
    growths++;
    return number != NULL && strtoul(number, NULL, 10) == growths;
}

static void *try_malloc(size_t size)
{
    return is_refused() ? NULL : malloc(size);
}

static void *try_realloc(void *at, size_t size)
{
    return is_refused() ? NULL : realloc(at, size);
}

#define malloc try_malloc
#define realloc try_realloc
#include "../../bindings/c/memory.c"
