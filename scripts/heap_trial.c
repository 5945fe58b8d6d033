// Tries the page's allocator (explorer/own/heap.c) by random steps, natively: STEPS calls of malloc, realloc and free over a
// memory that is 64 MiB at most and often full. After each call that gives bytes, those of before are looked at, and after each
// 4,096 steps the whole row of blocks. The last line is `N steps passed` or says what is wrong, with status 1.
//
//   cc -O2 -o heap_trial scripts/heap_trial.c && ./heap_trial STEPS SEED
#include <stdio.h>
#include <stdlib.h>
#include <string.h>

enum { MOST_PAGES = 1024, START = 40, SLOTS = 3000, STEPS_BETWEEN_WALKS = 4096 };
static char memory[MOST_PAGES * 65536] __attribute__((aligned(65536)));
static unsigned long pages = 1;
static unsigned long refusal = -1ul; // what a growth gives that fails: -1, in 32 bits where the module has such a memory

static unsigned long grow(unsigned long more) {
    unsigned long before = pages;
    if (more > MOST_PAGES - pages) return refusal;
    pages += more;
    return before;
}

// The allocator takes the place of `memory` for the module's, which begins at 0: addresses are real ones here, and pages are
// counted from 0, so both are moved by where the memory lies.
#define HEAP_TRIAL
#define HEAP_START ((u64)memory + START)
#define MEMORY_PAGES() ((u64)memory / 65536 + pages)
#define MEMORY_GROW(more) moved(grow(more))
static unsigned long moved(unsigned long grown) { return grown == refusal ? grown : (unsigned long)memory / 65536 + grown; }
#define malloc heap_malloc
#define realloc heap_realloc
#define free heap_free
#include "../explorer/own/heap.c"
#undef malloc
#undef realloc
#undef free

static unsigned long state;

static unsigned long below(unsigned long bound) {
    state = state * 6364136223846793005ul + 1442695040888963407ul;
    return (state >> 33) % bound;
}

// What was asked for, and with what it was filled.
static struct Slot {
    unsigned char *bytes;
    unsigned long size;
    unsigned char filling;
} slots[SLOTS];

static unsigned long step, refused;

static void fail(const char *why) {
    printf("step %lu: %s\n", step, why);
    exit(1);
}

static void fill(struct Slot *slot, void *bytes, unsigned long size) {
    if ((unsigned long)bytes % 16) fail("an address isn't a multiple of 16");
    if ((char *)bytes < memory + START || (char *)bytes + size > memory + pages * 65536) fail("bytes lie outside the memory");
    slot->bytes = bytes;
    slot->size = size;
    slot->filling = below(256);
    memset(bytes, slot->filling, size);
}

static void see_filling(struct Slot *slot, unsigned long size) {
    for (unsigned long at = 0; at < size; at++)
        if (slot->bytes[at] != slot->filling) fail("a byte was changed that is in use");
}

static void see_bin(Block *block) {
    for (Block *at = bins[bin_of(block->size)]; at; at = at->next)
        if (at == block) return;
    fail("an unused block stands in no bin");
}

// Walks along all blocks: the sizes before them are right, no two unused ones are neighbours, none is unused at the end, and as
// many stand in bins as are unused.
static void walk(void) {
    unsigned long before = 0, unused_ones = 0, binned = 0;
    int was_used = 1;
    for (u64 at = ((u64)memory + START + 15) / 16 * 16; at < top; at += before) {
        Block *block = (Block *)at;
        if (block->before != before) fail("a block has another size before it than there is");
        if (!is_used(block) && !was_used) fail("two unused blocks are neighbours");
        if (!is_used(block)) {
            unused_ones++;
            see_bin(block);
        }
        was_used = is_used(block);
        before = size_of(block);
        if (before < LEAST || before % 16 || at + before > top) fail("a block has a size that none has");
    }
    if (!was_used) fail("the last block is unused");
    if (before != last) fail("the last block has another size");
    for (unsigned bin = 0; bin < BINS; bin++) {
        if ((bins[bin] != 0) != (filled[bin / 64] >> bin % 64 & 1)) fail("a bin's bit is wrong");
        for (Block *block = bins[bin]; block; block = block->next) binned++;
    }
    if (binned != unused_ones) fail("a bin has a block that isn't there");
}

static unsigned long some_size(void) {
    unsigned long kind = below(1000);
    return kind < 900 ? below(300) : kind < 990 ? below(20000) : kind < 999 ? below(2000000) : below(40) << 20;
}

static void take_step(void) {
    struct Slot *slot = &slots[below(SLOTS)];
    unsigned long size = some_size();
    if (!slot->bytes) {
        void *bytes = heap_malloc(size);
        if (bytes) fill(slot, bytes, size);
        else refused++;
        return;
    }
    see_filling(slot, slot->size < 512 || !below(16) ? slot->size : 512);
    if (below(3)) {
        heap_free(slot->bytes);
        slot->bytes = 0;
        return;
    }
    void *bytes = heap_realloc(slot->bytes, size);
    if (!bytes) {
        refused++;
        return;
    }
    slot->bytes = bytes;
    see_filling(slot, size < slot->size ? size : slot->size);
    fill(slot, bytes, size);
}

int main(int count, char **words) {
    if (count != 3) return 2;
    unsigned long steps = strtoul(words[1], 0, 10);
    state = strtoul(words[2], 0, 10);
    for (step = 1; step <= steps; step++) {
        refusal = below(2) ? -1ul : 0xffffffff;
        take_step();
        if (step % STEPS_BETWEEN_WALKS == 0) walk();
    }
    if (heap_malloc(-1ul) || heap_malloc((1ul << 40) + 1)) fail("there is memory for more than there is");
    for (unsigned at = 0; at < SLOTS; at++) {
        if (slots[at].bytes) see_filling(&slots[at], slots[at].size);
        heap_free(slots[at].bytes);
    }
    walk();
    if (last || top != ((u64)memory + START + 15) / 16 * 16) fail("not all was given back");
    if (!refused) fail("the memory was never full");
    printf("%lu steps passed, %lu of them refused\n", steps, refused);
    return 0;
}
