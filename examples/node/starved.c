/* Refuses each request for more bytes than the environment's ECMA_MOST_BYTES says: link it with `-Wl,--wrap=malloc,--wrap=realloc`. */
#include <stdlib.h>

void *__real_malloc(size_t size);
void *__real_realloc(void *block, size_t size);

static int refuses(size_t size)
{
    const char *most = getenv("ECMA_MOST_BYTES");
    return most && size > strtoul(most, NULL, 10);
}

void *__wrap_malloc(size_t size)
{
    return refuses(size) ? NULL : __real_malloc(size);
}

void *__wrap_realloc(void *block, size_t size)
{
    return refuses(size) ? NULL : __real_realloc(block, size);
}
