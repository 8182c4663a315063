/* An allocator that refuses one allocation, and a call that is made again if its own was refused. */
#ifndef REFUSING_H
#define REFUSING_H

#include "sctp_endpoint.h"
#include <stdio.h>
#include <stdlib.h>

struct sctp_endpoint_block rattle_alloc(size_t size, size_t alignment);
struct sctp_endpoint_block rattle_realloc(void *at, size_t old_size, size_t size, size_t alignment);
void rattle_dealloc(void *at);

static long asked, refused_at, blocks, refusals;
static char nothing;

static struct sctp_endpoint_block made(void *at) {
    struct sctp_endpoint_block b = { at != NULL, at ? at : &nothing };
    return b;
}

struct sctp_endpoint_block rattle_alloc(size_t size, size_t alignment) {
    if (asked++ == refused_at) return made(NULL);
    blocks++;
    return made(malloc(size ? size : alignment));
}

struct sctp_endpoint_block rattle_realloc(void *at, size_t old_size, size_t size, size_t alignment) {
    (void)old_size;
    if (asked++ == refused_at) return made(NULL);
    return made(realloc(at, size ? size : alignment));
}

void rattle_dealloc(void *at) {
    blocks--;
    free(at);
}

/* A call, which is made again if its allocation failed. */
#define TRY(call) do { \
    uint32_t r_ = (call); \
    if (r_ == SCTP_EP_NO_MEMORY) refusals++, r_ = (call); \
    if (r_ != SCTP_EP_OK) { fprintf(stderr, "allocation %ld refused: %s: %u\n", refused_at, #call, r_); exit(1); } \
} while (0)

#endif
