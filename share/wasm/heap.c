// Blocks come in few sizes, four to each doubling, and a block that was given back serves the next request for its size. So no request searches, and a block is at most a
// quarter larger than what was asked for. The last block grows and shrinks where it is, as a text does that grows alone.
#include "heap.h"

// What stands before a block, and the least that is made for one.
typedef struct header {
    number kind;
    struct header *next;
} header;
_Static_assert(sizeof(header) == 16, "a block begins at a multiple of 16");
enum { SMALLEST = 64, KINDS = 112 };
// No block is as large as half of what a pointer of 32 bits reaches: so offsets within it have no sign.
static const number MOST = (number)1 << 31;

// The blocks of each kind that were given back; the last block of all, and where the memory behind it begins.
static header *free_blocks[KINDS];
static header *last;
static number top;

// Blocks of kind 0 have 64 bytes, the others 80, 96, 112, 128, 160, 192, 224, 256 and so on.
static number size_of(number kind) {
    return (4 + kind % 4) << (kind / 4) << 4;
}

// The kind of the smallest blocks that have this size, which is at most MOST.
static number kind_of(number size) {
    if (size <= SMALLEST)
        return 0;
    // (of the last byte's place its three highest bits, which are 4 to 7, and how many are below them)
    number place = size - 1;
    number below = 61 - __builtin_clzll(place);
    return (below - 4) * 4 + (place >> below) - 4 + 1;
}

static header *header_of(void *block) {
    return (header *)block - 1;
}

static number address_of(void *block) {
    return (number)(__UINTPTR_TYPE__)block;
}

// Makes the block the last one, with room for this kind, and answers whether there is that room.
static int ends_with(header *block, number kind) {
    number end = address_of(block + 1) + size_of(kind);
    if (!heap_reach(end))
        return 0;
    block->kind = kind;
    last = block;
    top = end;
    return 1;
}

static header *new_block(number kind) {
    if (!top)
        top = heap_begin();
    header *block = (header *)(__UINTPTR_TYPE__)top;
    return ends_with(block, kind) ? block : 0;
}

void *heap_take(number size) {
    if (size > MOST)
        return 0;
    number kind = kind_of(size);
    header *block = free_blocks[kind];
    if (block)
        free_blocks[kind] = block->next;
    else
        block = new_block(kind);
    return block ? block + 1 : 0;
}

void heap_give(void *block) {
    header *given = header_of(block);
    given->next = free_blocks[given->kind];
    free_blocks[given->kind] = given;
}

// A block of another kind with what fits of this one's bytes, which is given back.
static void *moved(void *block, number size) {
    void *taken = heap_take(size);
    if (!taken)
        return 0;
    number held = size_of(header_of(block)->kind);
    __builtin_memcpy(taken, block, held < size ? held : size);
    heap_give(block);
    return taken;
}

void *heap_resize(void *block, number size) {
    if (size > MOST)
        return 0;
    header *held = header_of(block);
    number kind = kind_of(size);
    if (kind == held->kind || (held == last && ends_with(held, kind)))
        return block;
    return moved(block, size);
}
