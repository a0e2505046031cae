/* Room that ends where memory cannot be read: a call that reads past the end of what it is lent does not come back. */
#pragma once
#include "libc.h"

typedef struct {
    uint8_t *end;
    size_t size;
} fenced;

/* no page is larger than this */
#define FENCE ((size_t)65536)

static fenced fenced_room(size_t least) {
    size_t size = (least + FENCE - 1) / FENCE * FENCE;
    uint8_t *start = mmap(NULL, size + FENCE, PROT_READ | PROT_WRITE, MAP_PRIVATE | MAP_ANONYMOUS, -1, 0);
    if (start == MAP_FAILED || mprotect(start + size, FENCE, PROT_NONE) != 0) {
        dprintf(2, "no memory\n");
        exit(2);
    }
    return (fenced){start + size, size};
}

/* where `size` bytes begin that end at the fence */
static uint8_t *last(fenced room, size_t size) {
    if (size > room.size) {
        dprintf(2, "no room for %zu bytes\n", size);
        exit(2);
    }
    return room.end - size;
}
