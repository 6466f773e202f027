/* Refuses a program one request for memory, the one with the number REFUSED_REQUEST (the first is
   1), and counts all of them. If the number is negative, the requests after that one are refused
   too. It is preloaded, and its last line on the errors says how many requests were made, how many
   blocks were given, and how many came back. Rattle's allocator calls malloc, realloc and free
   alone, and never for no bytes; a block from elsewhere would come back without having been given.
   No header is needed, so the kit's clang builds it too. */

void *__libc_malloc(unsigned long size);
void *__libc_realloc(void *block, unsigned long size);
void __libc_free(void *block);
char *getenv(const char *name);
long atol(const char *text);
int dprintf(int descriptor, const char *format, ...);

static long refused;
static long requests;
static long given;
static long returned;

__attribute__((constructor)) static void begin(void) {
    const char *number = getenv("REFUSED_REQUEST");
    refused = number ? atol(number) : 0;
    requests = given = returned = 0;
}

__attribute__((destructor)) static void end(void) {
    dprintf(2, "requests %ld, given %ld, returned %ld\n", requests, given, returned);
}

static int is_refused(void) {
    requests++;
    return requests == refused || (refused < 0 && requests >= -refused);
}

void *malloc(unsigned long size) {
    if (is_refused())
        return 0;
    void *block = __libc_malloc(size);
    given += block != 0;
    return block;
}

void *realloc(void *block, unsigned long size) {
    if (is_refused())
        return 0;
    void *moved = __libc_realloc(block, size);
    given += !block && moved;
    return moved;
}

void free(void *block) {
    returned += block != 0;
    __libc_free(block);
}
