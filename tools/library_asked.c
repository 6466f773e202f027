/* Makes the calls of the library that the standard input asks for, one after another, and writes to
 * the standard output what each returns: for tools/arm_test, whose numbers have the size and the
 * order of bytes of this program's. */
#include "wgsl.h"

#include <stdio.h>
#include <stdlib.h>

/* The calls, by the numbers that tools/asked.py has for them. */
enum call { CHECK, FORMAT, TIDY, MINIFY, PACKED_TREE, PRINT, TOKENS, COMMENTS, LISTS, NESTING };

/* What is asked for; after it are the bytes of the text. */
struct request {
    uint64_t call;
    /* the kind of the tree, or which names get new ones, or a layout */
    uint64_t kind;
    uint64_t width;
    uint64_t indent;
    uint64_t tab;
    uint64_t newlines;
    uint64_t size;
};

/* What is returned; after it are the bytes that the call wrote. */
struct reply {
    uint64_t status;
    uint64_t answer[5];
    uint64_t size;
};

static uint32_t tidied(const struct request *asked, const char *text, char *buffer, size_t size,
                       struct wgsl_answer *answer) {
    struct wgsl_layout layout = {asked->width, (uint8_t)asked->indent, (uint8_t)asked->tab,
                                 (uint8_t)asked->newlines};
    return wgsl_tidy(&layout, text, asked->size, buffer, size, answer);
}

/* Makes a call, and reports how many bytes an item has that it writes. */
static uint32_t made(const struct request *asked, const char *text, void *buffer, size_t size,
                     struct wgsl_answer *answer, size_t *item) {
    const size_t kind = (size_t)asked->kind, count = (size_t)asked->size;
    *item = 1;
    switch (asked->call) {
    case CHECK: return wgsl_check(text, count, buffer, size, answer);
    case FORMAT: return wgsl_format(text, count, buffer, size, answer);
    case TIDY: return tidied(asked, text, buffer, size, answer);
    case MINIFY:
        return wgsl_minify((uint32_t)kind, "", 0, text, count, buffer, size, answer);
    case PACKED_TREE:
        return wgsl_c_packed_tree((uint32_t)kind, (const uint8_t *)text, count, buffer, size,
                                  answer);
    case PRINT: return wgsl_print((const uint8_t *)text, count, buffer, size, answer);
    case NESTING:
        *item = 0;
        return wgsl_nesting(text, count, answer);
    case LISTS:
        *item = sizeof(struct wgsl_place);
        return wgsl_template_lists(text, count, buffer, size / *item, answer);
    default:
        *item = sizeof(struct wgsl_token);
        return asked->call == TOKENS
                   ? wgsl_tokens(text, count, buffer, size / *item, answer)
                   : wgsl_tokens_with_comments(text, count, buffer, size / *item, answer);
    }
}

static void *memory(size_t size) {
    void *block = malloc(size ? size : 1);
    if (block == NULL) {
        exit(2);
    }
    return block;
}

/* Makes a call with as large a buffer as it needs, and writes what it returns. */
static void reply_to(const struct request *asked, const char *text) {
    size_t size = 4 * (size_t)asked->size + 1024, item;
    for (;;) {
        void *buffer = memory(size);
        struct wgsl_answer answer = {0, 0, 0, 0, 0};
        uint32_t status = made(asked, text, buffer, size, &answer, &item);
        size_t written = answer.size * item;
        if (status != WGSL_TOO_SMALL && written <= size) {
            struct reply reply = {status,
                                  {answer.size, answer.start, answer.end, answer.kind,
                                   answer.expected},
                                  written};
            fwrite(&reply, sizeof reply, 1, stdout);
            fwrite(buffer, 1, written, stdout);
            fflush(stdout);
            free(buffer);
            return;
        }
        free(buffer);
        size = written;
    }
}

int main(void) {
    struct request asked;
    while (fread(&asked, sizeof asked, 1, stdin) == 1) {
        char *text = memory((size_t)asked.size);
        if (fread(text, 1, (size_t)asked.size, stdin) != asked.size) {
            return 2;
        }
        reply_to(&asked, text);
        free(text);
    }
    return 0;
}
