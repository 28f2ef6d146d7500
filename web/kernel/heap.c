/* The heap of the kernel in a page. Nothing proves it: test_heap.js refuses it memory at each size.

   Blocks have 104 sizes, four to a doubling, so that a block is at most a quarter larger than what was asked for. Each
   size has a list of its free blocks, and a block that was freed is given again for its size only. Memory grows up to a
   limit; a call past it is refused, and has changed nothing. There is one thread. */
typedef unsigned long size_t;
enum { HEAD = 16, LEAST = 64, SIZES = 104, PAGE = 65536, GROW = 16, ALIGNED = 16, LEAST_BITS = 6, TOP_BIT = 63 };
static const size_t MOST = (size_t)64 << 20;

/* Before each block: its whole size, and the list that it belongs to; of a free block, the next one. */
struct head {
    size_t whole;
    void *next;
};
extern unsigned char __heap_base;
static size_t top, limit = MOST, used;
static void *free_of[SIZES];

/* The number of the size that holds n bytes, and that size. */
static size_t number_of(size_t n, size_t *whole) {
    n = n < LEAST ? LEAST : n;
    int bit = TOP_BIT - __builtin_clzl(n - 1);
    size_t quarter = (n - 1) >> (bit - 2); /* 4 to 7 */
    *whole = (quarter + 1) << (bit - 2);
    return (size_t)(bit + 1 - LEAST_BITS) * 4 + quarter - 7;
}

/* Lets the memory grow by these pages, or says no. The lowering to 32 bits makes no 64-bit -1 of a refusal, so its low
   32 bits are compared. */
static int grows(size_t pages) {
    return (int)__builtin_wasm_memory_grow(0, pages) != -1;
}

/* A block that was never given before, or 0. */
static size_t fresh(size_t whole) {
    size_t at = top ? top : ((size_t)&__heap_base + ALIGNED - 1) / ALIGNED * ALIGNED, end = at + whole;
    if (end < at || end > limit)
        return 0;
    size_t have = __builtin_wasm_memory_size(0) * PAGE;
    if (end > have) {
        size_t pages = (end - have + PAGE - 1) / PAGE;
        if (!(pages < GROW && grows(GROW)) && !grows(pages))
            return 0;
    }
    top = end;
    return at;
}

static void *get(size_t n) {
    size_t whole;
    if (n > limit)
        return 0;
    size_t number = number_of(n + HEAD, &whole), at = (size_t)free_of[number];
    if (at)
        free_of[number] = ((struct head *)at)->next;
    else if (!(at = fresh(whole)))
        return 0;
    *(struct head *)at = (struct head){whole, &free_of[number]};
    used += whole;
    return (void *)(at + HEAD);
}

static void put(void *block) {
    struct head *it = (struct head *)block - 1;
    void **list = it->next;
    used -= it->whole;
    it->next = *list;
    *list = it;
}

void *memcpy(void *to, const void *from, size_t n) {
    return __builtin_memcpy(to, from, n);
}
void *memmove(void *to, const void *from, size_t n) {
    return __builtin_memmove(to, from, n);
}
void *memset(void *to, int byte, size_t n) {
    return __builtin_memset(to, byte, n);
}

/* The kit's three calls, for blocks aligned to 16 bytes at most. A refusal answers a pointer to a byte kept here. */
struct got {
    size_t is_given;
    void *at;
};
static char nothing[1];

static struct got answer(void *block) {
    return (struct got){block != 0, block ? block : nothing};
}
struct got rattle_alloc(size_t n, size_t align) {
    (void)align;
    return answer(get(n));
}
struct got rattle_realloc(void *old, size_t kept, size_t n, size_t align) {
    (void)align;
    if (n <= limit && ((struct head *)old - 1)->whole >= n + HEAD)
        return answer(old);
    void *block = get(n);
    if (block) {
        memcpy(block, old, kept < n ? kept : n);
        put(old);
    }
    return answer(block);
}
void rattle_dealloc(void *block) {
    put(block);
}

/* For the page: memory of its own, the limit, what is in use, and how far the blocks reach. */
void *room(size_t n) {
    return get(n);
}
void heap_limit(size_t n) {
    limit = n;
}
size_t heap_used(void) {
    return used;
}
size_t heap_top(void) {
    return top;
}
