/* The functions for memory that the library calls, by those of C, for the targets of which the kit
 * has none: a flag that is 0 where there is no memory, and the block. A block of no bytes has as
 * many as its alignment. */

typedef __SIZE_TYPE__ size_t;

void *malloc(size_t size);
void *realloc(void *block, size_t size);
void free(void *block);

struct given {
    size_t is_given;
    void *block;
};

static struct given given(void *block) {
    static size_t nothing;
    struct given found = {block != 0, block ? block : &nothing};
    return found;
}

struct given rattle_alloc(size_t size, size_t align) {
    return given(malloc(size ? size : align));
}

struct given rattle_realloc(void *block, size_t old_size, size_t size, size_t align) {
    (void)old_size;
    return given(realloc(block, size ? size : align));
}

void rattle_dealloc(void *block) {
    free(block);
}
