// The three functions of C that the library calls for its memory, for a WebAssembly module with 32-bit addresses: a heap of blocks
// whose sizes are powers of two, with a list of free blocks for each size. It begins at __heap_base, and grows the memory as it has to.
//
// What the library wants of them: a block is aligned to each power of two up to 16 that divides its size (here: to 16); where there is
// no memory, the answer is {0, a pointer that is not null}; a block of no bytes is a block of its own; n is below 2^63.
typedef unsigned long long u64;
typedef __UINTPTR_TYPE__ uptr;
typedef unsigned char u8;

typedef struct {
    u64 ok;
    u64 place;
} Tried;

typedef struct Free {
    struct Free *next;
} Free;

extern u8 __heap_base;

#define PAGE 65536ULL
#define ALIGNMENT 16ULL
// Before each block: the power of two that is its size, with this head.
#define HEAD 16ULL
#define LEAST 5
#define MOST 31

static Free *free_blocks[MOST + 1];
static u64 next_free, end;

static int grow_by(u64 pages) {
    if (__builtin_wasm_memory_grow(0, pages) == (uptr)-1) return 0;
    end += pages * PAGE;
    return 1;
}

static int grow_to(u64 wanted) {
    if (wanted <= end) return 1;
    u64 pages = (wanted - end + PAGE - 1) / PAGE, quarter = end / 4 / PAGE;
    // A quarter more than there is, so that a long answer does not grow the memory page by page.
    if (quarter > pages && grow_by(quarter)) return 1;
    return grow_by(pages);
}

static void begin(void) {
    next_free = ((uptr)&__heap_base + ALIGNMENT - 1) & ~(ALIGNMENT - 1);
    end = __builtin_wasm_memory_size(0) * PAGE;
}

static void *block_of(u64 n) {
    if (n > (1ULL << MOST) - HEAD) return 0;
    int power = LEAST;
    while ((1ULL << power) < n + HEAD) power++;
    Free *found = free_blocks[power];
    if (found) {
        free_blocks[power] = found->next;
        return found;
    }
    if (!next_free) begin();
    if (!grow_to(next_free + (1ULL << power))) return 0;
    u64 *head = (u64 *)(uptr)next_free;
    next_free += 1ULL << power;
    *head = power;
    return (u8 *)head + HEAD;
}

static u64 power_of(void *block) {
    return *(u64 *)((u8 *)block - HEAD);
}

static Tried tried(void *block) {
    return block ? (Tried){1, (uptr)block} : (Tried){0, ALIGNMENT};
}

Tried rattle_alloc(u64 n, u64 alignment) {
    return tried(block_of(n ? n : alignment));
}

void rattle_dealloc(void *block) {
    Free *freed = block;
    u64 power = power_of(block);
    freed->next = free_blocks[power];
    free_blocks[power] = freed;
}

Tried rattle_realloc(void *block, u64 kept, u64 n, u64 alignment) {
    if (n == 0) n = alignment;
    if (n <= (1ULL << power_of(block)) - HEAD) return tried(block);
    void *larger = block_of(n);
    if (larger) {
        __builtin_memcpy(larger, block, kept);
        rattle_dealloc(block);
    }
    return tried(larger);
}

// For the page: room for what it passes, aligned to 16, or null.
void *host_alloc(u64 n) {
    return block_of(n ? n : 1);
}
