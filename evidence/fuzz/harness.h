/* What the harnesses share. A difference stops the run; libFuzzer then saves the input. */
#include <stdio.h>
#include <stdlib.h>
#include <sys/mman.h>
#include <unistd.h>
#include "dnsnames.h"
#include "reader.h"
#ifdef WITH_LIBKNOT
#include <libknot/libknot.h>
#endif

#define MUST(condition)                                                             \
    do {                                                                            \
        if (!(condition)) {                                                         \
            fprintf(stderr, "%s:%d: not so: %s\n", __FILE__, __LINE__, #condition); \
            abort();                                                                \
        }                                                                           \
    } while (0)

int LLVMFuzzerTestOneInput(const uint8_t *data, size_t size);

/* Copies octets to the end of memory behind which nothing can be read, since the library isn't built with a
 * sanitizer. */
static inline const uint8_t *before_the_wall(const uint8_t *octets, size_t len)
{
    enum { ROOM = 1 << 20 };
    static uint8_t *wall;
    if (wall == NULL) {
        uint8_t *memory = mmap(NULL, ROOM + 65536, PROT_READ | PROT_WRITE, MAP_PRIVATE | MAP_ANONYMOUS, -1, 0);
        MUST(memory != MAP_FAILED && mprotect(memory + ROOM, 65536, PROT_NONE) == 0);
        wall = memory + ROOM;
    }
    MUST(len <= ROOM);
    if (len > 0)
        memcpy(wall - len, octets, len);
    return wall - len;
}

/* A name's octets written with case ignored are the same octets. */
static inline bool same_name(const struct name *left, const struct name *right)
{
    return left->len == right->len && reader_order(left, right) == 0;
}
