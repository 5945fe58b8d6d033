// The page's allocator: malloc, realloc and free over the memory of a WebAssembly module, without a C library, and what the
// proved code and the page call of it. scripts/heap_trial.c tries it natively, by random steps.
//
// The memory behind the module's own data is a row of blocks. Each knows its size and that of the block before it (boundary
// tags), so a block that is given back joins its unused neighbours at once. Unused blocks stand in 256 bins by their size, four
// bins for each power of two. The last block, where it is unused, isn't kept as one: `top` goes back before it.
typedef unsigned long u64;
_Static_assert(sizeof(u64) == 8, "addresses and sizes have 64 bits");

#ifndef HEAP_TRIAL
extern char __heap_base;
#define HEAP_START ((u64)&__heap_base)
#define MEMORY_PAGES() __builtin_wasm_memory_size(0)
#define MEMORY_GROW(pages) __builtin_wasm_memory_grow(0, pages)
#endif

enum { PAGE = 65536, HEAD = 16, LEAST = 32, BINS = 256, MOST_TRIES = 8, PAGES_AT_ONCE = 64 };
static const u64 MOST = 1ul << 40; // the largest size that is asked of the memory, in bytes

// A block: its head, then the bytes of whoever asked for them, which hold the links of its bin while it is unused. Sizes are
// those of the whole block, in bytes, and multiples of 16; bit 0 of `size` is set while the block is used. The first block has
// 0 before it.
typedef struct Block {
    u64 before, size;
    struct Block *next, *previous;
} Block;

static Block *bins[BINS];
static u64 filled[BINS / 64]; // a bit for each bin, set where it has a block
static u64 top, end, last;    // the first byte behind the blocks; that behind the memory; the size of the last block

static u64 size_of(Block *block) { return block->size & ~1ul; }
static int is_used(Block *block) { return block->size & 1; }
static void *bytes_of(Block *block) { return (char *)block + HEAD; }
static Block *block_of(void *bytes) { return (Block *)((char *)bytes - HEAD); }
static Block *after(Block *block) { return (Block *)((char *)block + size_of(block)); }
static int is_last(Block *block) { return (u64)after(block) == top; }

// The bin of a size: the power of two below it, and which quarter of the way to the next one it has come.
static unsigned bin_of(u64 size) {
    unsigned power = 63 - __builtin_clzl(size);
    return power << 2 | (unsigned)(size >> (power - 2) & 3);
}

static void put_in_bin(Block *block) {
    unsigned bin = bin_of(block->size);
    block->previous = 0;
    block->next = bins[bin];
    if (block->next) block->next->previous = block;
    bins[bin] = block;
    filled[bin / 64] |= 1ul << bin % 64;
}

static void take_from_bin(Block *block) {
    if (block->next) block->next->previous = block->previous;
    if (block->previous) {
        block->previous->next = block->next;
        return;
    }
    unsigned bin = bin_of(size_of(block));
    bins[bin] = block->next;
    if (!block->next) filled[bin / 64] &= ~(1ul << bin % 64);
}

// Gives a block a size, and tells it to what comes after it.
static void set_size(Block *block, u64 size, u64 used) {
    block->size = size | used;
    if (is_last(block)) last = size;
    else after(block)->before = size;
}

// Asks the memory for so many bytes past `top`, and says whether they are there. A growth that succeeds gives the pages of
// before; what it gives else is -1 in 64 bits or in 32, by the module.
static int has_room(u64 bytes) {
    if (!top) {
        top = (HEAP_START + 15) / 16 * 16;
        end = MEMORY_PAGES() * PAGE;
    }
    if (bytes <= end - top) return 1;
    u64 least = (bytes - (end - top) + PAGE - 1) / PAGE, pages = least < PAGES_AT_ONCE ? PAGES_AT_ONCE : least;
    if (MEMORY_GROW(pages) != end / PAGE) {
        pages = least;
        if (MEMORY_GROW(pages) != end / PAGE) return 0;
    }
    end += pages * PAGE;
    return 1;
}

// The size of a block that has so many bytes for whoever asks.
static u64 block_size(u64 bytes) {
    u64 size = (bytes + 15) / 16 * 16 + HEAD;
    return size < LEAST ? LEAST : size;
}

// Has a used block keep `size` bytes of its own, and gives back the rest where that is a block.
static void cut(Block *block, u64 size) {
    u64 rest_size = size_of(block) - size;
    if (rest_size < LEAST) return;
    int was_last = is_last(block);
    block->size = size | 1;
    Block *rest = after(block);
    if (was_last) {
        top = (u64)rest;
        last = size;
        return;
    }
    Block *next = (Block *)((char *)rest + rest_size);
    if (!is_used(next)) {
        take_from_bin(next);
        rest_size += size_of(next);
    }
    rest->before = size;
    set_size(rest, rest_size, 0);
    put_in_bin(rest);
}

// An unused block of this size or more, out of its bin, or null. A bin's own blocks may be smaller than the size: a few of them
// are looked at, and then any of a higher bin will do.
static Block *unused(u64 size) {
    unsigned bin = bin_of(size), tries = 0;
    for (Block *block = bins[bin]; block && tries < MOST_TRIES; block = block->next, tries++) {
        if (block->size >= size) {
            take_from_bin(block);
            return block;
        }
    }
    for (unsigned at = bin + 1; at < BINS; at = (at / 64 + 1) * 64) {
        u64 higher = filled[at / 64] & ~0ul << at % 64;
        if (higher) {
            Block *block = bins[at / 64 * 64 + (unsigned)__builtin_ctzl(higher)];
            take_from_bin(block);
            return block;
        }
    }
    return 0;
}

void *malloc(u64 bytes) {
    if (bytes > MOST) return 0;
    u64 size = block_size(bytes);
    Block *block = unused(size);
    if (block) {
        set_size(block, size_of(block), 1);
        cut(block, size);
        return bytes_of(block);
    }
    if (!has_room(size)) return 0;
    block = (Block *)top;
    block->before = last;
    block->size = size | 1;
    top += size;
    last = size;
    return bytes_of(block);
}

void free(void *bytes) {
    if (!bytes) return;
    Block *block = block_of(bytes);
    u64 size = size_of(block);
    if (!is_last(block) && !is_used(after(block))) {
        Block *next = after(block);
        take_from_bin(next);
        size += size_of(next);
    }
    if (block->before) {
        Block *previous = (Block *)((char *)block - block->before);
        if (!is_used(previous)) {
            take_from_bin(previous);
            size += size_of(previous);
            block = previous;
        }
    }
    if ((u64)block + size == top) {
        top = (u64)block;
        last = block->before;
        return;
    }
    set_size(block, size, 0);
    put_in_bin(block);
}

void *realloc(void *bytes, u64 wanted) {
    if (!bytes) return malloc(wanted);
    if (wanted > MOST) return 0;
    Block *block = block_of(bytes);
    u64 have = size_of(block), size = block_size(wanted);
    if (size <= have) {
        cut(block, size);
        return bytes;
    }
    if (is_last(block)) {
        if (!has_room(size - have)) return 0;
        top += size - have;
        block->size = size | 1;
        last = size;
        return bytes;
    }
    Block *next = after(block);
    if (!is_used(next) && have + next->size >= size) {
        take_from_bin(next);
        set_size(block, have + next->size, 1);
        cut(block, size);
        return bytes;
    }
    void *moved = malloc(wanted);
    if (!moved) return 0;
    __builtin_memcpy(moved, bytes, have - HEAD);
    free(bytes);
    return moved;
}

// What the proved code calls: whether there was memory, and where. No address is null, so a refusal has one too, which nobody
// uses. Each address is a multiple of 16, which is as much as any type asks for.
typedef struct {
    u64 is_there;
    void *bytes;
} Memory;

static Memory memory_at(void *bytes) { return (Memory){bytes != 0, bytes ? bytes : (void *)16}; }

Memory rattle_alloc(u64 bytes, u64 alignment) { return memory_at(malloc(bytes ? bytes : alignment)); }
Memory rattle_realloc(void *old, u64 kept, u64 bytes, u64 alignment) {
    (void)kept; // the block knows how many bytes it has
    return memory_at(realloc(old, bytes ? bytes : alignment));
}
void rattle_dealloc(void *bytes) { free(bytes); }

// What the page calls, for the bytes that it hands in and takes back: an address, or 0.
#ifndef HEAP_TRIAL
__attribute__((export_name("page_alloc"))) void *page_alloc(u64 bytes) { return malloc(bytes ? bytes : 1); }
__attribute__((export_name("page_free"))) void page_free(void *bytes) { free(bytes); }
#endif
