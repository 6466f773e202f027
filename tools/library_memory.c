/* Makes each call of wgsl.h on each text with one request for memory refused, the first, the
   second, and so on, and exits with the line of the first check that fails, or 0. Each call has to
   report out of memory or return what it returns undisturbed, to free all it allocated, and to
   make a request on some text. The texts are those below and those of tests/texts.txt; wgsl_print
   has the packed forms of their trees and those of library_forms.h, and a text that nests too deep
   is its own. It is run at the top of the
   repository, and linked with --wrap of malloc, realloc and free. */
#include <stdio.h>
#include <stdlib.h>
#include <string.h>

#include "library_check.h"
#include "library_forms.h"
#include "wgsl.h"

void *__real_malloc(size_t size);
void *__real_realloc(void *block, size_t size);
void __real_free(void *block);
void *__wrap_malloc(size_t size);
void *__wrap_realloc(void *block, size_t size);
void __wrap_free(void *block);

/* How many requests were made, which of them is refused, and how many blocks are out. */
static size_t requests, refused, blocks;

void *__wrap_malloc(size_t size) {
    void *block = requests++ == refused ? NULL : __real_malloc(size);
    blocks += block != NULL;
    return block;
}

void *__wrap_realloc(void *block, size_t size) {
    void *grown = requests++ == refused ? NULL : __real_realloc(block, size);
    blocks += block == NULL && grown != NULL;
    return grown;
}

void __wrap_free(void *block) {
    blocks -= block != NULL;
    __real_free(block);
}

/* What a call returns. */
struct said {
    uint32_t status;
    struct wgsl_answer answer;
    size_t buffer[4096];
};

enum { FORMAT, TIDIED, CHECKED, SNIPPET, IN_FILE, RECOGNIZED, TOKENS, COMMENTS, LISTS, BEGINS };
enum { NESTING = BEGINS + 1, MINIFIED, PRINTED, DEEP, DEEP_IN_FILE, DEEP_SNIPPET, TREES };
enum { PACKED = TREES + WGSL_EXPRESSION + 1, CALLS = PACKED + WGSL_EXPRESSION + 1 };

/* A text that nests too deep where two levels are accepted. */
static const char deep[] = "const a = -((((((((((((((((((((((((((((1))))))))))))))))))))))))))));";

/* Makes a call; those from TREES on ask for the kinds of trees, one after another, and those from
   PACKED on for their packed forms. PRINTED has a packed form in place of a text. */
static uint32_t make(int call, const char *text, size_t size, struct said *said) {
    char *buffer = (char *)said->buffer;
    size_t buffer_size = sizeof said->buffer;
    struct wgsl_token *tokens = (struct wgsl_token *)said->buffer;
    struct wgsl_place *places = (struct wgsl_place *)said->buffer;
    switch (call) {
    case FORMAT:
        return wgsl_format(text, size, buffer, buffer_size, &said->answer);
    case TIDIED:
        return wgsl_tidy(NULL, text, size, buffer, buffer_size, &said->answer);
    case CHECKED:
        return wgsl_check(text, size, buffer, buffer_size, &said->answer);
    case SNIPPET:
        return wgsl_snippet(NULL, 0, text, size, buffer, buffer_size, &said->answer);
    case IN_FILE:
        return wgsl_snippet("f.wgsl", 6, text, size, buffer, buffer_size, &said->answer);
    case RECOGNIZED:
        return wgsl_recognize(text, size, buffer, buffer_size, &said->answer);
    case TOKENS:
        return wgsl_tokens(text, size, tokens, buffer_size / sizeof *tokens, &said->answer);
    case COMMENTS:
        return wgsl_tokens_with_comments(text, size, tokens, buffer_size / sizeof *tokens,
                                         &said->answer);
    case LISTS:
        return wgsl_template_lists(text, size, places, buffer_size / sizeof *places, &said->answer);
    case BEGINS:
        return wgsl_begins_with_template_list(text, size, &said->answer);
    case NESTING:
        return wgsl_nesting(text, size, &said->answer);
    case MINIFIED:
        return wgsl_minify(WGSL_ALL_NAMES, "f\na", 3, text, size, buffer, buffer_size,
                           &said->answer);
    case PRINTED:
        return wgsl_print((const uint8_t *)text, size, buffer, buffer_size, &said->answer);
    case DEEP:
        return wgsl_tidy_within(2, NULL, deep, strlen(deep), buffer, buffer_size, &said->answer);
    case DEEP_IN_FILE:
        return wgsl_snippet_within(2, "f.wgsl", 6, deep, strlen(deep), buffer, buffer_size,
                                   &said->answer);
    case DEEP_SNIPPET:
        return wgsl_snippet_within(2, NULL, 0, deep, strlen(deep), buffer, buffer_size,
                                   &said->answer);
    default:
        break;
    }
    if (call < PACKED) {
        return wgsl_tree((uint32_t)(call - TREES), text, size, buffer, buffer_size, &said->answer);
    }
    return wgsl_c_packed_tree((uint32_t)(call - PACKED), (const uint8_t *)text, size,
                              (uint8_t *)buffer, buffer_size, &said->answer);
}

/* Makes a call with one request refused, and counts the requests. */
static void ask(int call, const char *text, size_t size, size_t which, struct said *said) {
    memset(said, 0, sizeof *said);
    requests = 0;
    refused = which;
    said->status = make(call, text, size, said);
}

static int is_same(const struct said *one, const struct said *other) {
    return one->status == other->status
        && memcmp(&one->answer, &other->answer, sizeof one->answer) == 0
        && memcmp(one->buffer, other->buffer, sizeof one->buffer) == 0;
}

static const char *const texts[] = {
    "",
    "alias A = B;",
    "<a, b>(c) a < b",
    "const N = array<f32, 2>(1, 2)[i];",
    "struct S { @align(16) x: vec4<f32>, } @fragment fn f() -> @location(0) i32 { return 1; }",
    "fn f() { if a { x += 1; } else { loop { break; } } switch x { case 1, default: { } } }",
    "enable f16; fn f(a: array<array<f32, 2>, 3>) { let b = -!a[0].x + g(1, 2, 3); }",
    "const = 1;",
    "const x = 1 #;",
    "fn f() { return",
};

/* How many requests of each call were refused. */
static size_t refusals[CALLS];

/* Makes a call on a text with each of its requests refused. */
static int check_call(int call, const char *text, size_t size) {
    static struct said undisturbed, said;
    static const struct wgsl_answer nothing;
    size_t which, count;
    ask(call, text, size, SIZE_MAX, &undisturbed);
    CHECK(undisturbed.status <= WGSL_REFUSED || undisturbed.status == WGSL_TOO_DEEP);
    CHECK(blocks == 0);
    count = requests;
    refusals[call] += count;
    for (which = 0; which < count; which++) {
        ask(call, text, size, which, &said);
        CHECK(blocks == 0);
        if (said.status == WGSL_OUT_OF_MEMORY) {
            CHECK(memcmp(&said.answer, &nothing, sizeof nothing) == 0);
        } else {
            CHECK(is_same(&said, &undisturbed));
        }
    }
    return 0;
}

/* Makes each call on a text, and prints each of its trees. */
static int check(const char *text) {
    static struct said tree;
    size_t size = strlen(text);
    int call, failed = 0;
    for (call = 0; failed == 0 && call < CALLS; call++) {
        if (call != PRINTED) failed = check_call(call, text, size);
        if (failed != 0 || call < PACKED) continue;
        ask(call, text, size, SIZE_MAX, &tree);
        if (tree.status != WGSL_DONE) continue;
        failed = check_call(PRINTED, (const char *)tree.buffer, tree.answer.size);
    }
    return failed;
}

/* Prints each form of library_forms.h. */
static int check_forms(void) {
    size_t at;
    int failed = 0;
    for (at = 0; failed == 0 && at < sizeof printed_forms / sizeof *printed_forms; at++) {
        failed = check_call(PRINTED, printed_forms[at].form, printed_forms[at].size);
    }
    for (at = 0; failed == 0 && at < sizeof refused_forms / sizeof *refused_forms; at++) {
        failed = check_call(PRINTED, refused_forms[at].form, refused_forms[at].size);
    }
    return failed;
}

int main(void) {
    char line[512];
    int failed = check_forms(), read = 0;
    size_t at;
    FILE *file = fopen("tests/texts.txt", "r");
    CHECK(file != NULL);
    for (at = 0; failed == 0 && at < sizeof texts / sizeof *texts; at++) failed = check(texts[at]);
    while (failed == 0 && fgets(line, sizeof line, file) != NULL) {
        line[strcspn(line, "\n")] = 0;
        if (line[0] == '#' || line[0] == 0) continue;
        failed = check(line);
        read = 1;
    }
    fclose(file);
    if (failed != 0) return failed;
    CHECK(read);
    for (at = 0; at < CALLS; at++) CHECK(refusals[at] > 0);
    return 0;
}
