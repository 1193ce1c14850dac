/* The heap of liblinetab.a over that of the C library, for a host that has no other. */
#include "linetab.h"
#include <stdlib.h>

/* What a block that isn't there points to. */
static char nothing;

static struct rattle_block block_at(void *at) {
    struct rattle_block block = {at != NULL, at != NULL ? at : &nothing};
    return block;
}

/* malloc aligns to 16 bytes, which every alignment that is asked for divides. */
struct rattle_block rattle_alloc(size_t size, size_t align) {
    return block_at(malloc(size != 0 ? size : align));
}

struct rattle_block rattle_realloc(void *at, size_t kept, size_t size, size_t align) {
    (void)kept;
    return block_at(realloc(at, size != 0 ? size : align));
}

void rattle_dealloc(void *at) {
    free(at);
}
