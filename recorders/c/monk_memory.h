/* The recorder's own memory, and what is known of an address. Part of libmonk_log.c. An allocator may have a mutex of
   its own, whose lines are written while it is held. So nothing here calls malloc. */
#ifndef MONK_MEMORY_H
#define MONK_MEMORY_H

#ifndef _GNU_SOURCE
#define _GNU_SOURCE
#endif

#include <stdatomic.h>
#include <stddef.h>
#include <stdint.h>
#include <string.h>
#include <sys/mman.h>

#include "monk_order.h"

enum {
    CHUNK = 1 << 20,   /* bytes that are asked for at once */
    LARGE = 1 << 16,   /* a block as large as this is asked for by itself */
    PAGE_BYTES = 4096,
    CLASSES = 17,      /* of smaller sizes, each twice the one before */
    GRAIN_BITS = 5,    /* a mutex and a condition have more bytes than a grain, so at most one begins in it */
    LEVEL_BITS = 14,   /* three levels of a tree over grains, which is what 47 bits of an address need */
    LEVELS = 3,
    LEVEL = 1 << LEVEL_BITS
};

/* The beginning of what is known of a mutex or a condition. Its memory is never used for another kind of thing,
   because a signal may look at it while another thread gives it back. */
struct known {
    const void *address;
    unsigned site; /* the call that first named it (monk_sites.h) */
    void *next_free;
    unsigned long serial; /* unlike that of all others, also of a later one at the same address */
};

struct pool {
    size_t size;
    struct known *free;
};

static atomic_flag memory_lock = ATOMIC_FLAG_INIT;
static char *chunk;
static size_t chunk_left;
static void *free_blocks[CLASSES];
static unsigned long serials;

static void lock_memory(void) {
    get_busy();
    while (atomic_flag_test_and_set_explicit(&memory_lock, memory_order_acquire))
        ;
}

static void unlock_memory(void) {
    atomic_flag_clear_explicit(&memory_lock, memory_order_release);
    get_idle();
}

static void *map(size_t size) {
    void *at = mmap(0, size, PROT_READ | PROT_WRITE, MAP_PRIVATE | MAP_ANONYMOUS | MAP_NORESERVE, -1, 0);
    return at == MAP_FAILED ? 0 : at;
}

/* Fresh memory, all zero, while memory is locked. */
static void *cut(size_t size) {
    if (size > chunk_left) {
        char *more = map(CHUNK);
        if (!more)
            return 0;
        chunk = more;
        chunk_left = CHUNK;
    }
    void *at = chunk;
    chunk += size;
    chunk_left -= size;
    return at;
}

static int class_of(size_t size) {
    int class = 0;
    while ((size_t)1 << class < size)
        class++;
    return class;
}

/* Memory for lines: its size is a power of two. Null if there is none. */
static void *take_block(size_t size) {
    if (size >= LARGE)
        return map(size);
    int class = class_of(size);
    lock_memory();
    void *block = free_blocks[class];
    if (block)
        free_blocks[class] = *(void **)block;
    else
        block = cut(size);
    unlock_memory();
    return block;
}

static void give_block(void *block, size_t size) {
    if (size >= LARGE) {
        munmap(block, size);
        return;
    }
    lock_memory();
    *(void **)block = free_blocks[class_of(size)];
    free_blocks[class_of(size)] = block;
    unlock_memory();
}

/* A larger block with what the smaller one has, which is given back. Its pages are asked for at once, because a first
   touch of each when a line is written takes longer than the line. Null if there is no memory. */
static void *grow_block(void *block, size_t used, size_t size, size_t larger) {
    void *grown = size >= LARGE ? mremap(block, size, larger, MREMAP_MAYMOVE) : take_block(larger);
    if (!grown || grown == MAP_FAILED)
        return 0;
    if (size < LARGE) {
        memcpy(grown, block, used);
        give_block(block, size);
    }
#ifdef MADV_POPULATE_WRITE
    if (larger >= LARGE)
        madvise((char *)grown + used / PAGE_BYTES * PAGE_BYTES, larger - used / PAGE_BYTES * PAGE_BYTES,
            MADV_POPULATE_WRITE);
#endif
    return grown;
}

/* A piece of a pool, all zero except what is given and its serial. Null if there is no memory. */
static void *take(struct pool *pool, const void *address, unsigned site) {
    lock_memory();
    struct known *it = pool->free;
    if (it)
        pool->free = it->next_free;
    else
        it = cut(pool->size);
    unsigned long serial = ++serials;
    unlock_memory();
    if (it) {
        memset(it, 0, pool->size);
        *it = (struct known){address, site, 0, serial};
    }
    return it;
}

static void give(struct pool *pool, struct known *it) {
    lock_memory();
    it->next_free = pool->free;
    pool->free = it;
    unlock_memory();
}

/* ---- what is known of an address: a tree whose leaves have a place for each grain; a look-up takes as long whatever
 * else is known */

typedef _Atomic(void *) place;
static place root[LEVEL];

SELDOM static void *below(place *at) {
    void *found = atomic_load_explicit(at, memory_order_acquire);
    if (found)
        return found;
    void *made = map(LEVEL * sizeof(place));
    if (!made)
        return 0;
    if (atomic_compare_exchange_strong(at, &found, made))
        return made;
    munmap(made, LEVEL * sizeof(place));
    return found;
}

/* The place of an address, or null if there is no memory, or if the address is longer than 47 bits. */
static inline place *place_of(const void *address) {
    uintptr_t grain = (uintptr_t)address >> GRAIN_BITS;
    if (grain >> LEVELS * LEVEL_BITS)
        return 0;
    place *level = root;
    for (int shift = (LEVELS - 1) * LEVEL_BITS; shift > 0; shift -= LEVEL_BITS) {
        place *at = &level[grain >> shift & (LEVEL - 1)];
        place *next = atomic_load_explicit(at, memory_order_acquire);
        level = next ? next : below(at);
        if (!level)
            return 0;
    }
    return &level[grain & (LEVEL - 1)];
}

#endif
