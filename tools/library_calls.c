/* Calls the functions of wgsl.h with what a caller may get wrong, and exits with the line of the
   first check that fails, or 0. */
#include <string.h>

#include "library_answers.h"
#include "wgsl.h"

/* The calls that read a text and write bytes. */
typedef uint32_t text_call(const char *, size_t, char *, size_t, struct wgsl_answer *);

static uint32_t tree(const char *text, size_t size, char *buffer, size_t buffer_size,
                     struct wgsl_answer *said) {
    return wgsl_tree(WGSL_UNIT, text, size, buffer, buffer_size, said);
}

static uint32_t tidy(const char *text, size_t size, char *buffer, size_t buffer_size,
                     struct wgsl_answer *said) {
    return wgsl_tidy(NULL, text, size, buffer, buffer_size, said);
}

static uint32_t snippet(const char *text, size_t size, char *buffer, size_t buffer_size,
                        struct wgsl_answer *said) {
    return wgsl_snippet(NULL, 0, text, size, buffer, buffer_size, said);
}

static uint32_t snippet_in_file(const char *text, size_t size, char *buffer, size_t buffer_size,
                                struct wgsl_answer *said) {
    return wgsl_snippet("f.wgsl", 6, text, size, buffer, buffer_size, said);
}

static uint32_t minify(const char *text, size_t size, char *buffer, size_t buffer_size,
                       struct wgsl_answer *said) {
    return wgsl_minify(WGSL_ALL_NAMES, NULL, 0, text, size, buffer, buffer_size, said);
}

/* Each with the first byte of what it writes of a text that ends too early. */
static const struct {
    text_call *call;
    char first;
} text_calls[] = {
    {wgsl_format, 'u'},    {tidy, 'u'}, {wgsl_check, 'u'}, {snippet, 'e'}, {snippet_in_file, 'f'},
    {wgsl_recognize, 'u'}, {tree, 'u'}, {minify, 'u'},
};

/* Checks what each of them returns for arguments that are not memory, and for bytes that are not
 * text. */
static int check_text_calls(void) {
    char buffer[256];
    size_t at;
    for (at = 0; at < sizeof text_calls / sizeof *text_calls; at++) {
        text_call *call = text_calls[at].call;
        memset(buffer, '#', sizeof buffer);
        CHECK(call(NULL, 1, buffer, sizeof buffer, &answer) == WGSL_BAD_ARGUMENT);
        CHECK(call("", SIZE_MAX, buffer, sizeof buffer, &answer) == WGSL_BAD_ARGUMENT);
        CHECK(call("", 0, NULL, 1, &answer) == WGSL_BAD_ARGUMENT);
        CHECK(call("", 0, buffer, WGSL_GREATEST + 1, &answer) == WGSL_BAD_ARGUMENT);
        CHECK(call("", 0, buffer, sizeof buffer, NULL) == WGSL_BAD_ARGUMENT);
        CHECK(call(";//\xff", 4, buffer, sizeof buffer, &answer) == WGSL_NOT_UTF8);
        CHECK(is_answer(0, 3, 3, 0, 0) && is_filled(buffer, sizeof buffer));
        CHECK(call("const", 5, NULL, 0, &answer) == WGSL_REFUSED);
        CHECK(answer.kind == WGSL_UNEXPECTED_END && answer.start == 5 && answer.end == 6);
        CHECK(answer.expected > 0 && answer.size > 0 && answer.size <= sizeof buffer);
        CHECK(call("const", 5, buffer, answer.size - 1, &answer) == WGSL_REFUSED);
        CHECK(is_filled(buffer, sizeof buffer));
        CHECK(call("const", 5, buffer, answer.size, &answer) == WGSL_REFUSED);
        CHECK(buffer[0] == text_calls[at].first && strlen(buffer) < answer.size);
        CHECK(buffer[answer.size - 1] == 0);
        CHECK(is_filled(buffer + answer.size, sizeof buffer - answer.size));
    }
    return 0;
}

/* The same for the calls that write items, or nothing. */
static int check_other_calls(void) {
    struct wgsl_token tokens[2];
    struct wgsl_place lists[2];
    CHECK(wgsl_tokens(NULL, 1, tokens, 2, &answer) == WGSL_BAD_ARGUMENT);
    CHECK(wgsl_tokens("", SIZE_MAX, tokens, 2, &answer) == WGSL_BAD_ARGUMENT);
    CHECK(wgsl_tokens("a", 1, NULL, 1, &answer) == WGSL_BAD_ARGUMENT);
    CHECK(wgsl_tokens("a", 1, tokens, WGSL_GREATEST, &answer) == WGSL_BAD_ARGUMENT);
    CHECK(wgsl_tokens("a", 1, tokens, 2, NULL) == WGSL_BAD_ARGUMENT);
    CHECK(wgsl_tokens("\xc3", 1, tokens, 2, &answer) == WGSL_NOT_UTF8 && is_answer(0, 0, 0, 0, 0));
    CHECK(wgsl_tokens_with_comments(NULL, 1, tokens, 2, &answer) == WGSL_BAD_ARGUMENT);
    CHECK(wgsl_tokens_with_comments("", SIZE_MAX, tokens, 2, &answer) == WGSL_BAD_ARGUMENT);
    CHECK(wgsl_tokens_with_comments("a", 1, NULL, 1, &answer) == WGSL_BAD_ARGUMENT);
    CHECK(wgsl_tokens_with_comments("a", 1, tokens, WGSL_GREATEST, &answer) == WGSL_BAD_ARGUMENT);
    CHECK(wgsl_tokens_with_comments("a", 1, tokens, 2, NULL) == WGSL_BAD_ARGUMENT);
    CHECK(wgsl_tokens_with_comments("//\xc3", 3, tokens, 2, &answer) == WGSL_NOT_UTF8);
    CHECK(is_answer(0, 2, 2, 0, 0));
    CHECK(wgsl_template_lists(NULL, 1, lists, 2, &answer) == WGSL_BAD_ARGUMENT);
    CHECK(wgsl_template_lists("", SIZE_MAX, lists, 2, &answer) == WGSL_BAD_ARGUMENT);
    CHECK(wgsl_template_lists("a", 1, NULL, 1, &answer) == WGSL_BAD_ARGUMENT);
    CHECK(wgsl_template_lists("a", 1, lists, WGSL_GREATEST, &answer) == WGSL_BAD_ARGUMENT);
    CHECK(wgsl_template_lists("a", 1, lists, 2, NULL) == WGSL_BAD_ARGUMENT);
    CHECK(wgsl_template_lists("a\xc3", 2, lists, 2, &answer) == WGSL_NOT_UTF8);
    CHECK(is_answer(0, 1, 1, 0, 0));
    CHECK(wgsl_begins_with_template_list(NULL, 1, &answer) == WGSL_BAD_ARGUMENT);
    CHECK(wgsl_begins_with_template_list("", SIZE_MAX, &answer) == WGSL_BAD_ARGUMENT);
    CHECK(wgsl_begins_with_template_list("", 0, NULL) == WGSL_BAD_ARGUMENT);
    CHECK(wgsl_begins_with_template_list("\xff", 1, &answer) == WGSL_NOT_UTF8);
    CHECK(wgsl_nesting(NULL, 1, &answer) == WGSL_BAD_ARGUMENT);
    CHECK(wgsl_nesting("", SIZE_MAX, &answer) == WGSL_BAD_ARGUMENT);
    CHECK(wgsl_nesting("", 0, NULL) == WGSL_BAD_ARGUMENT);
    CHECK(wgsl_nesting("\xff", 1, &answer) == WGSL_NOT_UTF8);
    return 0;
}

/* A text of no bytes, at null and elsewhere, is the empty module, which prints as a line break. */
static int check_no_bytes(void) {
    char buffer[1];
    CHECK(wgsl_format(NULL, 0, NULL, 0, &answer) == WGSL_TOO_SMALL && is_size(1));
    CHECK(wgsl_format(NULL, 0, buffer, 1, &answer) == WGSL_DONE && is_size(1));
    CHECK(wgsl_format("", 0, buffer, 1, &answer) == WGSL_DONE && buffer[0] == '\n');
    CHECK(wgsl_check(NULL, 0, NULL, 0, &answer) == WGSL_DONE);
    CHECK(wgsl_recognize(NULL, 0, NULL, 0, &answer) == WGSL_DONE);
    CHECK(wgsl_tokens(NULL, 0, NULL, 0, &answer) == WGSL_DONE && answer.size == 0);
    CHECK(wgsl_tokens_with_comments(NULL, 0, NULL, 0, &answer) == WGSL_DONE && is_size(0));
    CHECK(snippet(NULL, 0, NULL, 0, &answer) == WGSL_DONE && is_size(0));
    CHECK(wgsl_template_lists(NULL, 0, NULL, 0, &answer) == WGSL_DONE && answer.size == 0);
    CHECK(wgsl_begins_with_template_list(NULL, 0, &answer) == WGSL_DONE && answer.size == 0);
    CHECK(wgsl_nesting(NULL, 0, &answer) == WGSL_DONE && answer.size == 0);
    return 0;
}

/* A buffer that is too small does not change, and the size is returned; nor does what is after a
 * text in a buffer. */
static int check_buffers(void) {
    char buffer[256];
    memset(buffer, '#', sizeof buffer);
    CHECK(wgsl_format("const N=1;", 10, NULL, 0, &answer) == WGSL_TOO_SMALL && is_size(13));
    CHECK(wgsl_format("const N=1;", 10, buffer, 12, &answer) == WGSL_TOO_SMALL && is_size(13));
    CHECK(is_filled(buffer, sizeof buffer));
    CHECK(wgsl_format("const N=0x1f;", 13, buffer, 13, &answer) == WGSL_TOO_SMALL && is_size(14));
    CHECK(is_filled(buffer, sizeof buffer));
    CHECK(wgsl_format("const N=1;", 10, buffer, 13, &answer) == WGSL_DONE && is_size(13));
    CHECK(memcmp(buffer, "const N = 1;\n", 13) == 0 && is_filled(buffer + 13, sizeof buffer - 13));
    memset(buffer, '#', sizeof buffer);
    CHECK(wgsl_format("const N=0x1f;", 13, buffer, 32, &answer) == WGSL_DONE && is_size(14));
    CHECK(memcmp(buffer, "const N = 31;\n", 14) == 0 && is_filled(buffer + 14, sizeof buffer - 14));
    return 0;
}

/* Returns whether a text is formatted so by a layout. */
static int is_tidied(const struct wgsl_layout *layout, const char *text, const char *formatted) {
    char buffer[256];
    size_t size = strlen(formatted);
    memset(buffer, '#', sizeof buffer);
    return wgsl_tidy(layout, text, strlen(text), buffer, sizeof buffer, &answer) == WGSL_DONE
        && is_size(size) && memcmp(buffer, formatted, size) == 0
        && is_filled(buffer + size, sizeof buffer - size);
}

/* A formatted text keeps comments and unknown names, and has the layout that is chosen. */
static int check_layouts(void) {
    static const char text[] = "fn f(a:i32){x=a;} // f";
    struct wgsl_layout layout = WGSL_STANDARD_LAYOUT;
    CHECK(is_tidied(NULL, text, "fn f(a: i32) {\n    x = a;\n} // f\n"));
    CHECK(is_tidied(&layout, text, "fn f(a: i32) {\n    x = a;\n} // f\n"));
    CHECK(is_tidied(NULL, "@new const class=1;\r\n", "@new const class = 1;\r\n"));
    layout.indent = 2;
    CHECK(is_tidied(&layout, text, "fn f(a: i32) {\n  x = a;\n} // f\n"));
    layout.tab = 1;
    CHECK(is_tidied(&layout, text, "fn f(a: i32) {\n\tx = a;\n} // f\n"));
    layout.newlines = WGSL_NEWLINES_CRLF;
    CHECK(is_tidied(&layout, text, "fn f(a: i32) {\r\n\tx = a;\r\n} // f\r\n"));
    layout.newlines = WGSL_NEWLINES_LF;
    CHECK(is_tidied(&layout, "const a=1;\r\n", "const a = 1;\n"));
    layout.width = 12;
    CHECK(is_tidied(&layout, "const a=f(1,2);", "const a = f(\n\t1,\n\t2\n);\n"));
    CHECK(wgsl_tidy(&layout, text, sizeof text - 1, NULL, 0, &answer) == WGSL_TOO_SMALL);
    return 0;
}

/* A fault has its place with and without a buffer for its texts, and a module has none. */
static int check_faults(void) {
    static const char texts[] = "unexpected token `=`, expected `identifier`\0identifier";
    char buffer[256];
    CHECK(wgsl_check("const = 1;", 10, NULL, 0, &answer) == WGSL_REFUSED);
    CHECK(is_answer(55, 6, 7, WGSL_UNEXPECTED_TOKEN, 1));
    memset(buffer, '#', sizeof buffer);
    CHECK(wgsl_check("const = 1;", 10, buffer, sizeof buffer, &answer) == WGSL_REFUSED);
    CHECK(is_answer(sizeof texts, 6, 7, WGSL_UNEXPECTED_TOKEN, 1));
    CHECK(memcmp(buffer, texts, sizeof texts) == 0);
    CHECK(is_filled(buffer + sizeof texts, sizeof buffer - sizeof texts));
    CHECK(wgsl_check("const N = 1;", 12, NULL, 0, &answer) == WGSL_DONE && is_size(0));
    CHECK(wgsl_check("// \xff", 4, NULL, 0, &answer) == WGSL_NOT_UTF8);
    CHECK(is_answer(0, 3, 3, 0, 0));
    CHECK(wgsl_nesting("\xff", 1, &answer) == WGSL_NOT_UTF8 && is_size(0));
    CHECK(wgsl_recognize("@align fn f() {}", 16, NULL, 0, &answer) == WGSL_DONE && is_size(0));
    CHECK(wgsl_recognize("const a", 7, NULL, 0, &answer) == WGSL_REFUSED);
    CHECK(answer.start == 7 && answer.end == 8 && answer.kind == WGSL_UNEXPECTED_END);
    return 0;
}

static uint32_t show(const char *name, const char *text, char *buffer, size_t buffer_size) {
    return wgsl_snippet(name, strlen(name), text, strlen(text), buffer, buffer_size, &answer);
}

/* Returns whether a fault is shown by these lines, with their byte 0, in a buffer that they fit
 * into, and a smaller one does not change. */
static int is_shown(const char *name, const char *text, const char *lines) {
    char buffer[256];
    size_t size = strlen(lines) + 1;
    memset(buffer, '#', sizeof buffer);
    return show(name, text, buffer, size - 1) == WGSL_REFUSED && is_filled(buffer, sizeof buffer)
        && answer.size == size && show(name, text, buffer, sizeof buffer) == WGSL_REFUSED
        && answer.size == size && memcmp(buffer, lines, size) == 0
        && is_filled(buffer + size, sizeof buffer - size);
}

/* The lines that show a fault have its line with a mark below each of its characters. */
static int check_snippets(void) {
    static const char text[] = "const a = 1;\nconst = 2;\n";
    CHECK(is_shown("", text,
                   "error: unexpected token `=`, expected `identifier`\n --> line 2, column 7\n"
                   "const = 2;\n      ^"));
    CHECK(is_answer(answer.size, 19, 20, WGSL_UNEXPECTED_TOKEN, 1));
    CHECK(is_shown("s/a b.wgsl", text,
                   "s/a b.wgsl:2:7: error: unexpected token `=`\nconst = 2;\n      ^"));
    CHECK(is_answer(answer.size, 19, 20, WGSL_UNEXPECTED_TOKEN, 1));
    CHECK(is_shown("", "/*\xc3\xa9*/ #",
                   "error: invalid token\n --> line 1, column 7\n/*\xc3\xa9*/ #\n      ^"));
    CHECK(is_answer(answer.size, 7, 8, WGSL_INVALID_TOKEN, 0));
    CHECK(is_shown("\xc3\xa9", "const class = 1;",
                   "\xc3\xa9:1:7: error: use of a reserved word `class`\nconst class = 1;\n"
                   "      ^^^^^"));
    CHECK(is_shown("f", "const", "f:1:6: error: unexpected end of file\nconst\n     ^"));
    return 0;
}

/* A module has no lines, and the name of a file has to be UTF-8 and memory. */
static int check_names_of_files(void) {
    char buffer[64];
    memset(buffer, '#', sizeof buffer);
    CHECK(snippet_in_file("const N = 1;", 12, buffer, sizeof buffer, &answer) == WGSL_DONE);
    CHECK(is_size(0));
    answer.size = 9;
    CHECK(wgsl_snippet("a\xff", 2, "1", 1, buffer, sizeof buffer, &answer) == WGSL_BAD_ARGUMENT);
    CHECK(wgsl_snippet("\xff", 1, "", 0, buffer, sizeof buffer, &answer) == WGSL_BAD_ARGUMENT);
    CHECK(wgsl_snippet(NULL, 1, "1", 1, buffer, sizeof buffer, &answer) == WGSL_BAD_ARGUMENT);
    CHECK(wgsl_snippet("", SIZE_MAX, "1", 1, buffer, sizeof buffer, &answer) == WGSL_BAD_ARGUMENT);
    CHECK(is_size(9) && is_filled(buffer, sizeof buffer));
    CHECK(wgsl_snippet("\xff", 1, "\xff", 1, buffer, sizeof buffer, &answer) == WGSL_NOT_UTF8);
    CHECK(is_size(0) && is_filled(buffer, sizeof buffer));
    return 0;
}

/* Returns whether a text is minified so, with these new names after it, in a buffer that both fit
 * into, and a smaller one does not change. */
static int is_minified(uint32_t names, const char *keep, const char *text, const char *minified,
                       const char *map) {
    char buffer[256];
    size_t kept = strlen(keep), given = strlen(text), start = strlen(minified);
    size_t size = start + strlen(map);
    memset(buffer, '#', sizeof buffer);
    return wgsl_minify(names, keep, kept, text, given, buffer, size - 1, &answer) == WGSL_TOO_SMALL
        && is_answer(size, start, size, 0, 0) && is_filled(buffer, sizeof buffer)
        && wgsl_minify(names, keep, kept, text, given, buffer, size, &answer) == WGSL_DONE
        && is_answer(size, start, size, 0, 0) && memcmp(buffer, minified, start) == 0
        && memcmp(buffer + start, map, size - start) == 0
        && is_filled(buffer + size, sizeof buffer - size);
}

/* Names get new ones as is chosen, the names that occur most often first; entry points and names to
 * keep stay, and no name gets one of these. */
static int check_minified(void) {
    static const char text[] =
        "@fragment fn main() { let long = other + kept; } const other = 1; const kept = 2; // a";
    CHECK(is_minified(WGSL_NO_NAMES, "", text,
                      "@fragment fn main(){let long=other+kept;}const other=1;const kept=2;",
                      "{}"));
    CHECK(is_minified(WGSL_LOCAL_NAMES, "", text,
                      "@fragment fn main(){let a=other+kept;}const other=1;const kept=2;",
                      "{\"long\":\"a\"}"));
    CHECK(is_minified(WGSL_ALL_NAMES, "kept", text,
                      "@fragment fn main(){let b=a+kept;}const a=1;const kept=2;",
                      "{\"other\":\"a\",\"long\":\"b\"}"));
    CHECK(is_minified(WGSL_ALL_NAMES, "kept\r\nlong\na\n", text,
                      "@fragment fn main(){let long=b+kept;}const b=1;const kept=2;",
                      "{\"other\":\"b\"}"));
    CHECK(is_minified(WGSL_ALL_NAMES, "", "", "", "{}"));
    return 0;
}

/* No choice of names has another number, and names to keep have to be UTF-8 and memory. */
static int check_minify_arguments(void) {
    char buffer[64];
    memset(buffer, '#', sizeof buffer);
    CHECK(wgsl_minify(WGSL_ALL_NAMES + 1, "a", 1, "", 0, buffer, 9, &answer) == WGSL_UNKNOWN);
    CHECK(is_size(0) && wgsl_minify(3, "\xff", 1, "", 0, buffer, 9, &answer) == WGSL_UNKNOWN);
    answer.size = 9;
    CHECK(wgsl_minify(2, "a\n\xff", 3, "1", 1, buffer, 9, &answer) == WGSL_BAD_ARGUMENT);
    CHECK(wgsl_minify(2, NULL, 1, "1", 1, buffer, 9, &answer) == WGSL_BAD_ARGUMENT);
    CHECK(wgsl_minify(2, "", SIZE_MAX, "1", 1, buffer, 9, &answer) == WGSL_BAD_ARGUMENT);
    CHECK(is_size(9) && is_filled(buffer, sizeof buffer));
    CHECK(wgsl_minify(3, "\xff", 1, "\xff", 1, buffer, 9, &answer) == WGSL_NOT_UTF8);
    CHECK(is_size(0) && is_filled(buffer, sizeof buffer));
    CHECK(wgsl_minify(2, "a", 1, "const = 1;", 10, NULL, 0, &answer) == WGSL_REFUSED);
    CHECK(is_answer(55, 6, 7, WGSL_UNEXPECTED_TOKEN, 1));
    return 0;
}

static int is_token(const struct wgsl_token *token, size_t kind, size_t start, size_t end) {
    return token->kind == kind && token->start == start && token->end == end;
}

/* Tokens have kinds and places, and where not all fit the first ones are there. */
static int check_tokens(void) {
    struct wgsl_token tokens[8];
    tokens[4].kind = tokens[4].start = tokens[4].end = 9;
    CHECK(wgsl_tokens(" a<b> #", 7, tokens, 3, &answer) == WGSL_TOO_SMALL && is_size(4));
    CHECK(is_token(tokens, WGSL_IDENT, 1, 2));
    CHECK(is_token(tokens + 1, WGSL_TEMPLATE_ARGS_START, 2, 3));
    CHECK(wgsl_tokens(" a<b> #", 7, tokens, 5, &answer) == WGSL_REFUSED);
    CHECK(is_answer(4, 6, 7, WGSL_INVALID_TOKEN, 0));
    CHECK(is_token(tokens + 3, WGSL_TEMPLATE_ARGS_END, 4, 5) && is_token(tokens + 4, 9, 9, 9));
    CHECK(wgsl_tokens("a<b>", 4, tokens, 2, &answer) == WGSL_TOO_SMALL && answer.size == 4);
    CHECK(wgsl_tokens("a<b>", 4, tokens, 8, &answer) == WGSL_DONE && answer.size == 4);
    CHECK(tokens[0].kind == WGSL_IDENT && tokens[1].kind == WGSL_TEMPLATE_ARGS_START);
    CHECK(is_token(tokens + 3, WGSL_TEMPLATE_ARGS_END, 3, 4));
    CHECK(wgsl_tokens("a #", 3, tokens, 8, &answer) == WGSL_REFUSED);
    CHECK(is_answer(1, 2, 3, WGSL_INVALID_TOKEN, 0));
    CHECK(wgsl_tokens("a #", 3, tokens, 0, &answer) == WGSL_TOO_SMALL && is_size(1));
    return 0;
}

/* Comments are among the tokens, each with its kind and place, up to the first invalid token. */
static int check_comments(void) {
    struct wgsl_token items[9];
    items[4].kind = items[4].start = items[4].end = 9;
    CHECK(wgsl_tokens_with_comments(" /*a*/ b//c\n/* d", 16, items, 3, &answer) == WGSL_TOO_SMALL);
    CHECK(is_size(4) && is_token(items, WGSL_BLOCK_COMMENT, 1, 6));
    CHECK(is_token(items + 1, WGSL_IDENT, 7, 8) && is_token(items + 2, WGSL_LINE_COMMENT, 8, 11));
    CHECK(wgsl_tokens_with_comments(" /*a*/ b//c\n/* d", 16, items, 4, &answer) == WGSL_DONE);
    CHECK(is_size(4) && is_token(items + 3, WGSL_OPEN_COMMENT, 12, 16));
    CHECK(is_token(items + 4, 9, 9, 9));
    CHECK(wgsl_tokens_with_comments("a//b \r\n/*/**/*/c", 16, items, 9, &answer) == WGSL_DONE);
    CHECK(is_size(4) && is_token(items + 1, WGSL_LINE_COMMENT, 1, 5));
    CHECK(is_token(items + 2, WGSL_BLOCK_COMMENT, 7, 15));
    CHECK(is_token(items + 3, WGSL_IDENT, 15, 16));
    CHECK(wgsl_tokens_with_comments("a<b<c>/**/>//", 13, items, 9, &answer) == WGSL_DONE);
    CHECK(is_size(9) && is_token(items + 5, WGSL_TEMPLATE_ARGS_END, 5, 6));
    CHECK(is_token(items + 6, WGSL_BLOCK_COMMENT, 6, 10));
    CHECK(is_token(items + 7, WGSL_TEMPLATE_ARGS_END, 10, 11));
    CHECK(is_token(items + 8, WGSL_LINE_COMMENT, 11, 13));
    CHECK(wgsl_tokens_with_comments("/*a*/ # // b", 12, items, 9, &answer) == WGSL_REFUSED);
    CHECK(is_answer(1, 6, 7, WGSL_INVALID_TOKEN, 0));
    CHECK(is_token(items, WGSL_BLOCK_COMMENT, 0, 5));
    CHECK(is_token(items + 1, WGSL_TEMPLATE_ARGS_START, 1, 2));
    CHECK(wgsl_tokens_with_comments("/*/", 3, items, 1, &answer) == WGSL_DONE && is_size(1));
    CHECK(is_token(items, WGSL_OPEN_COMMENT, 0, 3));
    CHECK(wgsl_tokens_with_comments("// b", 4, NULL, 0, &answer) == WGSL_TOO_SMALL && is_size(1));
    return 0;
}

static int is_place(const struct wgsl_place *place, size_t start, size_t end) {
    return place->start == start && place->end == end;
}

/* Template lists have places, one at the front is found, and nesting is a number. */
static int check_lists(void) {
    struct wgsl_place lists[3];
    lists[2].start = lists[2].end = 9;
    CHECK(wgsl_template_lists("a<b<c>> < d", 11, lists, 3, &answer) == WGSL_DONE && is_size(2));
    CHECK(is_place(lists, 1, 7) && is_place(lists + 1, 3, 6) && is_place(lists + 2, 9, 9));
    CHECK(wgsl_template_lists("a<b<c>> < d", 11, NULL, 0, &answer) == WGSL_TOO_SMALL);
    CHECK(is_size(2));
    CHECK(wgsl_template_lists("a<b<c>>", 7, lists, 2, &answer) == WGSL_DONE && answer.size == 2);
    CHECK(wgsl_begins_with_template_list(" <a>", 4, &answer) == WGSL_DONE && answer.size == 1);
    CHECK(wgsl_begins_with_template_list(" /* */ <a>(b)", 13, &answer) == WGSL_DONE);
    CHECK(is_size(1));
    CHECK(wgsl_begins_with_template_list("< a", 3, &answer) == WGSL_DONE && is_size(0));
    CHECK(wgsl_nesting("const a = ((1));", 16, &answer) == WGSL_DONE && is_size(2));
    return 0;
}

static int is_position(const char *text, size_t offset, size_t line, size_t column) {
    struct wgsl_position found = wgsl_position_of(text, strlen(text), offset);
    return found.line == line && found.column == column;
}

/* A line ends with a line feed, and a column is a character, of one byte to four. */
static int check_positions(void) {
    static const char text[] = "a\xc3\xa4\r\n\n\xe2\x82\xac\xf0\x9f\x98\x80z";
    CHECK(is_position("", 0, 1, 1) && is_position("", 1, 1, 1));
    CHECK(is_position(text, 0, 1, 1) && is_position(text, 1, 1, 2));
    CHECK(is_position(text, 2, 1, 3) && is_position(text, 3, 1, 3));
    CHECK(is_position(text, 4, 1, 4) && is_position(text, 5, 2, 1) && is_position(text, 6, 3, 1));
    CHECK(is_position(text, 9, 3, 2) && is_position(text, 13, 3, 3));
    CHECK(is_position(text, 14, 3, 4) && is_position(text, SIZE_MAX, 3, 4));
    CHECK(wgsl_position_of(NULL, 0, 0).line == 1);
    return 0;
}

/* Each kind of token has a name, and no other number has one. */
static int check_names(void) {
    CHECK(strcmp(wgsl_token_kind_name(WGSL_SYM_AND), "SymAnd") == 0);
    CHECK(strcmp(wgsl_token_kind_name(WGSL_KW_CONST_ASSERT), "KwConstAssert") == 0);
    CHECK(strcmp(wgsl_token_kind_name(WGSL_F16), "F16") == 0);
    CHECK(strcmp(wgsl_token_kind_name(WGSL_BLOCK_COMMENT), "BlockComment") == 0);
    CHECK(strcmp(wgsl_token_kind_name(WGSL_OPEN_COMMENT), "OpenComment") == 0);
    CHECK(wgsl_token_kind_name(WGSL_OPEN_COMMENT + 1) == NULL);
    CHECK(wgsl_token_kind_name(SIZE_MAX) == NULL);
    return 0;
}

/* The message of an invalid token is what the calls with a buffer for it say of one. */
static int check_message(void) {
    char buffer[64];
    CHECK(wgsl_check("#", 1, buffer, sizeof buffer, &answer) == WGSL_REFUSED);
    CHECK(is_answer(sizeof WGSL_INVALID_TOKEN_MESSAGE, 0, 1, WGSL_INVALID_TOKEN, 0));
    CHECK(strcmp(buffer, WGSL_INVALID_TOKEN_MESSAGE) == 0);
    return 0;
}

static int (*const checks[])(void) = {
    check_text_calls, check_other_calls, check_no_bytes,       check_buffers,
    check_layouts,    check_faults,      check_snippets,       check_names_of_files,
    check_tokens,     check_comments,    check_lists,          check_positions,
    check_names,      check_message,     check_minified,       check_minify_arguments,
};

int main(void) {
    int failed = 0;
    size_t at;
    for (at = 0; failed == 0 && at < sizeof checks / sizeof *checks; at++) failed = checks[at]();
    return failed;
}
