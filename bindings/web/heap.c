/* The heap of the WebAssembly module: malloc, realloc and free of C over memory that only grows.
 *
 * A block has one of a hundred sizes, four for each doubling, and before it 8 bytes with the class
 * of its size. Blocks are cut from the memory that is left; those that are given back are kept by
 * their classes, but for the last of memory, which is left again. Once all blocks are given back,
 * as after each call of the library, all memory is left, whatever the calls before did. */

typedef __SIZE_TYPE__ size_t;
typedef unsigned char byte;

enum {
    PAGE = 1 << 16,
    /* the bytes of a block before what its caller has */
    HEAD = sizeof(size_t),
    ALIGN = 16,
    /* the sizes up to 64 are apart by 16; from there each doubling has four */
    SMALL = 64,
    CLASSES = 112,
    /* the pages that memory grows by at least, unless the host refuses that many */
    LEAST_PAGES = 16
};

/* more than any memory of 32 bits has */
static const size_t TOO_LARGE = (size_t)1 << 32;

extern byte __heap_base;

struct block {
    size_t class;
    /* while it is kept; the caller's otherwise */
    struct block *next;
};

static struct block *kept[CLASSES];
/* how many blocks callers have */
static size_t taken;
/* the memory that is left */
static byte *left, *end;

static byte *base(void) {
    return (byte *)(((size_t)&__heap_base + ALIGN - 1 & -(size_t)ALIGN) + ALIGN - HEAD);
}

/* The class of blocks of at least so many bytes, more than 0. */
static size_t class_of(size_t size) {
    if (size <= SMALL) {
        return (size - 1) / ALIGN;
    }
    size_t power = 63 - __builtin_clzl(size - 1);
    return 4 * (power - 6) + 4 + ((size - 1) >> (power - 2) & 3);
}

/* How many bytes the blocks of a class have, a multiple of 16. */
static size_t size_of(size_t class) {
    return class < 4 ? (class + 1) * ALIGN : (5 + class % 4) << (class / 4 + 3);
}

/* Grows memory; returns 0 where the host refuses that. Of the -1 that it returns then, 32 bits are
 * left once memory has 32 bits. */
static int grow(size_t pages) {
    if ((unsigned)__builtin_wasm_memory_grow(0, pages) == (unsigned)-1) {
        return 0;
    }
    end += pages * PAGE;
    return 1;
}

/* Sees to it that so many bytes are left; returns 0 where the host has no such memory. */
static int reserve(size_t size) {
    if (!left) {
        left = base();
        end = (byte *)(__builtin_wasm_memory_size(0) * PAGE);
    }
    if (size <= (size_t)(end - left)) {
        return 1;
    }
    size_t pages = (size - (size_t)(end - left) + PAGE - 1) / PAGE;
    return grow(pages < LEAST_PAGES ? LEAST_PAGES : pages) || grow(pages);
}

/* Whether nothing but memory that is left is after a block. */
static int is_last(struct block *block) {
    return (byte *)block + size_of(block->class) == left;
}

static struct block *block_of(void *caller) {
    return (struct block *)((byte *)caller - HEAD);
}

void *malloc(size_t size) {
    if (size >= TOO_LARGE) {
        return 0;
    }
    size_t class = class_of(size + HEAD);
    struct block *block = kept[class];
    if (block) {
        kept[class] = block->next;
    } else {
        if (!reserve(size_of(class))) {
            return 0;
        }
        block = (struct block *)left;
        left += size_of(class);
        block->class = class;
    }
    taken++;
    return (byte *)block + HEAD;
}

void free(void *caller) {
    if (!caller) {
        return;
    }
    struct block *block = block_of(caller);
    if (--taken == 0) {
        left = base();
        __builtin_memset(kept, 0, sizeof kept);
    } else if (is_last(block)) {
        left = (byte *)block;
    } else {
        block->next = kept[block->class];
        kept[block->class] = block;
    }
}

/* Makes the last block one of a greater class, where it is. */
static int extend(struct block *block, size_t class) {
    size_t more = size_of(class) - size_of(block->class);
    if (!reserve(more)) {
        return 0;
    }
    left += more;
    block->class = class;
    return 1;
}

void *realloc(void *caller, size_t size) {
    if (!caller) {
        return malloc(size);
    }
    if (size >= TOO_LARGE) {
        return 0;
    }
    struct block *block = block_of(caller);
    size_t class = class_of(size + HEAD);
    if (class <= block->class) {
        return caller;
    }
    if (is_last(block)) {
        return extend(block, class) ? caller : 0;
    }
    void *copy = malloc(size);
    if (copy) {
        __builtin_memcpy(copy, caller, size_of(block->class) - HEAD);
        free(caller);
    }
    return copy;
}

/* The blocks of the host, whose numbers have 32 bits: 0 where there is no memory. */
unsigned wgsl_take(unsigned size) {
    return (unsigned)(size_t)malloc(size);
}

void wgsl_give(unsigned block) {
    free((void *)(size_t)block);
}
