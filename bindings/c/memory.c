/* The memory of the library, over malloc, realloc and free: the three functions that its archive asks for. */
#include <stdbool.h>
#include <stddef.h>
#include <stdlib.h>

/* Whether there is memory, and where. */
struct tried {
    bool ok;
    unsigned char *at;
};

/* Where an answer points that has no memory. Nobody reads or writes it. */
static unsigned char nowhere;

static struct tried answer(unsigned char *at)
{
    struct tried tried = {at != NULL, at != NULL ? at : &nowhere};
    return tried;
}

/* A block of `size` bytes, aligned to `alignment`, which divides 16: malloc aligns a block to each power of two
   up to 16 that divides its size, and one without bytes takes as many as its alignment. */
struct tried rattle_alloc(size_t size, size_t alignment)
{
    return answer(malloc(size != 0 ? size : alignment));
}

/* The block at `at`, with `size` bytes, of which the first `kept` stay as they are. */
struct tried rattle_realloc(unsigned char *at, size_t kept, size_t size, size_t alignment)
{
    (void)kept;
    return answer(realloc(at, size != 0 ? size : alignment));
}

void rattle_dealloc(unsigned char *at)
{
    free(at);
}
