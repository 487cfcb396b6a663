/* The heap of the proved calls, over that of the C library. A block has an octet or more, and where there is none, the
 * pointer is still not null. */
#include <stdbool.h>
#include <stddef.h>
#include <stdlib.h>

/* What was tried: whether there is a block, and where. */
typedef struct tried {
    bool ok;
    void *at;
} tried;

static char nothing[1];

static tried tell(void *at)
{
    tried it = {at != NULL, at == NULL ? nothing : at};
    return it;
}

tried rattle_alloc(size_t size, size_t align)
{
    return tell(malloc(size == 0 ? align : size));
}

tried rattle_realloc(void *at, size_t kept, size_t size, size_t align)
{
    (void)kept;
    return tell(realloc(at, size == 0 ? align : size));
}

void rattle_dealloc(void *at)
{
    free(at);
}
