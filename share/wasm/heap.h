// The heap of bpfdb as WebAssembly: one stretch of memory that grows at its end.
#ifndef HEAP_H
#define HEAP_H

typedef __UINT64_TYPE__ number;

// A new block of this size, which begins at a multiple of 16; null where there is no room.
void *heap_take(number size);
// The block with another size. What fits of its bytes stays as it was. Null where there is no room; the block is then as before.
void *heap_resize(void *block, number size);
// Takes the block back.
void heap_give(void *block);

// What the heap stands on. Where its memory begins, at a multiple of 16, and whether the memory below this end can be used now.
number heap_begin(void);
int heap_reach(number end);

#endif
