/* Calls the functions of wgsl.h with texts that nest, and exits with the line of the first check
   that fails, or 0. */
#include <stdio.h>
#include <string.h>

#include "library_answers.h"
#include "wgsl.h"

/* The calls that read a text which may nest a number of levels deep, and write bytes. */
typedef uint32_t deep_call(size_t, const char *, size_t, char *, size_t, struct wgsl_answer *);

static uint32_t tidy(size_t depth, const char *text, size_t size, char *buffer, size_t buffer_size,
                     struct wgsl_answer *said) {
    return wgsl_tidy_within(depth, NULL, text, size, buffer, buffer_size, said);
}

static uint32_t snippet(size_t depth, const char *text, size_t size, char *buffer,
                        size_t buffer_size, struct wgsl_answer *said) {
    return wgsl_snippet_within(depth, NULL, 0, text, size, buffer, buffer_size, said);
}

static uint32_t snippet_in_file(size_t depth, const char *text, size_t size, char *buffer,
                                size_t buffer_size, struct wgsl_answer *said) {
    return wgsl_snippet_within(depth, "f.wgsl", 6, text, size, buffer, buffer_size, said);
}

static uint32_t minify(size_t depth, const char *text, size_t size, char *buffer,
                       size_t buffer_size, struct wgsl_answer *said) {
    return wgsl_minify_within(depth, WGSL_ALL_NAMES, NULL, 0, text, size, buffer, buffer_size,
                              said);
}

static uint32_t tree(size_t depth, const char *text, size_t size, char *buffer, size_t buffer_size,
                     struct wgsl_answer *said) {
    return wgsl_tree_within(depth, WGSL_UNIT, text, size, buffer, buffer_size, said);
}

static uint32_t declaration(size_t depth, const char *text, size_t size, char *buffer,
                            size_t buffer_size, struct wgsl_answer *said) {
    return wgsl_tree_within(depth, WGSL_DECLARATION, text, size, buffer, buffer_size, said);
}

static uint32_t packed_tree(size_t depth, const char *text, size_t size, char *buffer,
                            size_t buffer_size, struct wgsl_answer *said) {
    return wgsl_packed_tree_within(depth, WGSL_UNIT, text, size, (uint8_t *)buffer, buffer_size,
                                   said);
}

/* What is written of a text that nests deeper than ten levels. */
#define TOLD "nests deeper than 10 levels"
#define LINE "const a = ((((((((((((((((((((1))))))))))))))))))));"
#define MARK "\n                    ^"

/* Each with the texts that it writes of the line of a text which nests twenty deep. */
static const struct {
    deep_call *call;
    const char *told;
} deep_calls[] = {
    {wgsl_format_within, TOLD},
    {wgsl_check_within, TOLD},
    {wgsl_recognize_within, TOLD},
    {minify, TOLD},
    {tree, TOLD},
    {declaration, TOLD},
    {packed_tree, TOLD},
    {snippet, "error: " TOLD "\n --> line 1, column 21\n" LINE MARK},
    {snippet_in_file, "f.wgsl:1:21: error: " TOLD "\n" LINE MARK},
};

/* Checks what each of them returns for what is not memory, and of a text that nests too deep. */
static int check_deep_calls(void) {
    char buffer[4096];
    size_t at, size = strlen(LINE);
    for (at = 0; at < sizeof deep_calls / sizeof *deep_calls; at++) {
        deep_call *call = deep_calls[at].call;
        const char *told = deep_calls[at].told;
        size_t length = strlen(told) + 1;
        memset(buffer, '#', sizeof buffer);
        CHECK(call(10, NULL, 1, buffer, sizeof buffer, &answer) == WGSL_BAD_ARGUMENT);
        CHECK(call(10, "", SIZE_MAX, buffer, sizeof buffer, &answer) == WGSL_BAD_ARGUMENT);
        CHECK(call(10, "", 0, NULL, 1, &answer) == WGSL_BAD_ARGUMENT);
        CHECK(call(10, "", 0, buffer, sizeof buffer, NULL) == WGSL_BAD_ARGUMENT);
        CHECK(call(10, "\xff", 1, buffer, sizeof buffer, &answer) == WGSL_NOT_UTF8);
        CHECK(call(10, LINE, size, NULL, 0, &answer) == WGSL_TOO_DEEP);
        CHECK(is_answer(length, 20, 21, 0, 0));
        CHECK(call(10, LINE, size, buffer, length - 1, &answer) == WGSL_TOO_DEEP);
        CHECK(is_filled(buffer, sizeof buffer));
        CHECK(call(10, LINE, size, buffer, length, &answer) == WGSL_TOO_DEEP);
        CHECK(is_answer(length, 20, 21, 0, 0) && memcmp(buffer, told, length) == 0);
        CHECK(is_filled(buffer + length, sizeof buffer - length));
        CHECK(call(20, LINE, size, buffer, sizeof buffer, &answer) == WGSL_DONE);
        CHECK(call(SIZE_MAX, LINE, size, buffer, sizeof buffer, &answer) == WGSL_DONE);
        CHECK(call(0, "const = ((1));", 14, buffer, sizeof buffer, &answer)
              == (call == wgsl_recognize_within || call == declaration ? WGSL_TOO_DEEP
                                                                      : WGSL_REFUSED));
    }
    return 0;
}

/* Other kinds of trees may be read to a depth too. */
static int check_trees(void) {
    char buffer[4096];
    uint8_t *form = (uint8_t *)buffer;
    CHECK(wgsl_tree_within(1, WGSL_STATEMENT, "{{}}", 4, buffer, 4096, &answer) == WGSL_TOO_DEEP);
    CHECK(answer.start == 1 && answer.end == 2);
    CHECK(wgsl_tree_within(2, WGSL_STATEMENT, "{{}}", 4, buffer, 4096, &answer) == WGSL_DONE);
    CHECK(wgsl_packed_tree_within(1, WGSL_EXPRESSION, "!-a", 3, form, 4096, &answer)
          == WGSL_TOO_DEEP);
    CHECK(answer.start == 1 && answer.end == 2);
    CHECK(wgsl_packed_tree_within(2, WGSL_EXPRESSION, "!-a", 3, form, 4096, &answer) == WGSL_DONE);
    CHECK(wgsl_tree_within(0, WGSL_DIRECTIVE, "enable f16;", 11, buffer, 4096, &answer)
          == WGSL_DONE);
    CHECK(wgsl_tree_within(2, 5, "a", 1, buffer, 4096, &answer) == WGSL_UNKNOWN);
    CHECK(wgsl_minify_within(2, 3, NULL, 0, "a", 1, buffer, 4096, &answer) == WGSL_UNKNOWN);
    return 0;
}

/* Writes a constant in so many brackets, after a text, and returns the size of both. */
static size_t nest(char *text, const char *front, size_t levels) {
    size_t size = strlen(front);
    memcpy(text, front, size);
    memcpy(text + size, "const a = ", 10);
    size += 10;
    memset(text + size, '(', levels);
    size += levels;
    text[size++] = '1';
    memset(text + size, ')', levels);
    size += levels;
    text[size++] = ';';
    return size;
}

/* A formatted text may nest a few more levels deep. The place of what is too deep counts a byte
 * order mark. */
static int check_tidied(void) {
    static char text[1024], buffer[1 << 19];
    size_t size = nest(text, "", 200);
    CHECK(tidy(10, text, size, buffer, sizeof buffer, &answer) == WGSL_TOO_DEEP);
    CHECK(is_answer(sizeof TOLD, 20, 21, 0, 0) && strcmp(buffer, TOLD) == 0);
    CHECK(tidy(200, text, size, buffer, sizeof buffer, &answer) == WGSL_DONE);
    size = nest(text, "\xef\xbb\xbf//\n", 200);
    CHECK(tidy(10, text, size, buffer, sizeof buffer, &answer) == WGSL_TOO_DEEP);
    CHECK(is_answer(sizeof TOLD, 26, 27, 0, 0) && strcmp(buffer, TOLD) == 0);
    return 0;
}

static char deep[1 << 16], written[1 << 19];

/* The calls without a depth. */
typedef uint32_t plain_call(size_t size);

static uint32_t format_all(size_t size) {
    return wgsl_format(deep, size, written, sizeof written, &answer);
}

static uint32_t tidy_all(size_t size) {
    return wgsl_tidy(NULL, deep, size, written, sizeof written, &answer);
}

static uint32_t minify_all(size_t size) {
    return wgsl_minify(WGSL_ALL_NAMES, NULL, 0, deep, size, written, sizeof written, &answer);
}

static uint32_t check_all(size_t size) {
    return wgsl_check(deep, size, written, sizeof written, &answer);
}

static uint32_t recognize_all(size_t size) {
    return wgsl_recognize(deep, size, written, sizeof written, &answer);
}

static uint32_t tree_all(size_t size) {
    return wgsl_tree(WGSL_UNIT, deep, size, written, sizeof written, &answer);
}

static uint32_t pack_all(size_t size) {
    return wgsl_packed_tree(WGSL_UNIT, deep, size, (uint8_t *)written, sizeof written, &answer);
}

static plain_call *const plain_calls[] = {
    format_all, tidy_all, minify_all, check_all, recognize_all, tree_all, pack_all,
};

/* Without another number of levels that of the header is the greatest. */
static int check_default(void) {
    char told[64];
    size_t at, size = nest(deep, "", WGSL_DEPTH);
    snprintf(told, sizeof told, "nests deeper than %d levels", WGSL_DEPTH);
    for (at = 0; at < sizeof plain_calls / sizeof *plain_calls; at++) {
        CHECK(plain_calls[at](size) == WGSL_DONE);
    }
    size = nest(deep, "", 10 * WGSL_DEPTH);
    for (at = 0; at < sizeof plain_calls / sizeof *plain_calls; at++) {
        CHECK(plain_calls[at](size) == WGSL_TOO_DEEP);
        CHECK(is_answer(strlen(told) + 1, 10 + WGSL_DEPTH, 11 + WGSL_DEPTH, 0, 0));
        CHECK(strcmp(written, told) == 0);
    }
    CHECK(wgsl_nesting(deep, size, &answer) == WGSL_DONE && is_size(10 * WGSL_DEPTH));
    return 0;
}

static int (*const checks[])(void) = {
    check_deep_calls, check_trees, check_tidied, check_default,
};

int main(void) {
    int failed = 0;
    size_t at;
    for (at = 0; failed == 0 && at < sizeof checks / sizeof *checks; at++) failed = checks[at]();
    return failed;
}
