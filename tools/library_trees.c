/* Calls the functions of wgsl.h that write trees and print them, also with what a caller may get
   wrong, and exits with the line of the first check that fails, or 0. */
#include <string.h>

#include "library_answers.h"
#include "library_forms.h"
#include "wgsl.h"

/* A tree is written as JSON, and no tree has another number. */
static int check_trees(void) {
    static const char json[] =
        "{\"Chain\":[\"a\",{\"NamedComponent\":{\"base\":[0,1],\"component\":\"b\"}}]}";
    static const char empty[] = "{\"Void\":{\"attributes\":[]}}";
    size_t size = sizeof json - 1;
    char buffer[256];
    CHECK(wgsl_tree(WGSL_STATEMENT, ";", 1, buffer, sizeof buffer, &answer) == WGSL_DONE);
    CHECK(is_size(sizeof empty - 1) && memcmp(buffer, empty, sizeof empty - 1) == 0);
    CHECK(wgsl_tree(WGSL_EXPRESSION, "a.b", 3, buffer, sizeof buffer, &answer) == WGSL_DONE);
    CHECK(is_size(size) && memcmp(buffer, json, size) == 0);
    memset(buffer, '#', sizeof buffer);
    CHECK(wgsl_tree(5, ";", 1, buffer, sizeof buffer, &answer) == WGSL_UNKNOWN && is_size(0));
    CHECK(is_filled(buffer, sizeof buffer));
    CHECK(wgsl_tree(5, "a.b", 3, NULL, 0, &answer) == WGSL_UNKNOWN && is_size(0));
    return 0;
}

static uint32_t print(const void *form, size_t size, char *buffer, size_t buffer_size) {
    return wgsl_print((const uint8_t *)form, size, buffer, buffer_size, &answer);
}

/* A packed form is printed, whatever node it is of. */
static int check_prints(void) {
    const struct printed_form *it = printed_forms;
    for (; it < printed_forms + sizeof printed_forms / sizeof *printed_forms; it++) {
        size_t size = strlen(it->text);
        char buffer[64];
        memset(buffer, '#', sizeof buffer);
        CHECK(print(it->form, it->size, NULL, 0) == WGSL_TOO_SMALL && is_size(size));
        CHECK(print(it->form, it->size, buffer, size - 1) == WGSL_TOO_SMALL && is_size(size));
        CHECK(is_filled(buffer, sizeof buffer));
        CHECK(print(it->form, it->size, buffer, sizeof buffer) == WGSL_DONE && is_size(size));
        CHECK(memcmp(buffer, it->text, size) == 0);
        CHECK(is_filled(buffer + size, sizeof buffer - size));
    }
    return 0;
}

/* Other bytes are rejected, without a place or a text. */
static int check_refused_forms(void) {
    const struct refused_form *it = refused_forms;
    for (; it < refused_forms + sizeof refused_forms / sizeof *refused_forms; it++) {
        char buffer[64];
        memset(buffer, '#', sizeof buffer);
        CHECK(print(it->form, it->size, NULL, 0) == WGSL_REFUSED);
        CHECK(is_answer(0, 0, 0, WGSL_NOT_A_FORM, 0));
        CHECK(print(it->form, it->size, buffer, sizeof buffer) == WGSL_REFUSED);
        CHECK(is_answer(0, 0, 0, WGSL_NOT_A_FORM, 0));
        CHECK(is_filled(buffer, sizeof buffer));
    }
    return 0;
}

/* A text in a form is printed as it is, also if it is not UTF-8, and what is not memory is
 * reported. */
static int check_print_arguments(void) {
    static const uint8_t form[] = NAME("\xff");
    char buffer[64];
    memset(buffer, '#', sizeof buffer);
    CHECK(print(form, sizeof form - 1, buffer, sizeof buffer) == WGSL_DONE && is_size(1));
    CHECK(buffer[0] == '\xff' && is_filled(buffer + 1, sizeof buffer - 1));
    CHECK(wgsl_print(NULL, 1, buffer, 1, &answer) == WGSL_BAD_ARGUMENT);
    CHECK(wgsl_print(form, SIZE_MAX, buffer, 1, &answer) == WGSL_BAD_ARGUMENT);
    CHECK(wgsl_print(form, 0, NULL, 1, &answer) == WGSL_BAD_ARGUMENT);
    CHECK(wgsl_print(form, 0, buffer, SIZE_MAX, &answer) == WGSL_BAD_ARGUMENT);
    CHECK(wgsl_print(form, 0, buffer, 1, NULL) == WGSL_BAD_ARGUMENT);
    CHECK(wgsl_print(NULL, 0, NULL, 0, &answer) == WGSL_REFUSED);
    CHECK(is_answer(0, 0, 0, WGSL_NOT_A_FORM, 0));
    return 0;
}

static uint32_t pack(uint32_t kind, const char *text, uint8_t *form, size_t form_size) {
    return wgsl_packed_tree(kind, text, strlen(text), form, form_size, &answer);
}

/* A tree has the packed form that its definition gives it, which is printed as the tree is; other
 * bytes are rejected. */
static int check_packed(void) {
    /* a chain, a name, a component with the span of what is before it, and the end */
    static const uint8_t named[] = {
        14, 12, 1, 0, 0, 0, 0, 0, 0, 0, 'a', 15, 0, 0, 0, 0, 0, 0, 0, 0, 1,
        0,  0,  0, 0, 0, 0, 0, 1, 0, 0, 0,   0,  0, 0, 0, 'b', 19,
    };
    static const char module[] = "fn f(){if a{b=-c;}}";
    static const char text[] = "fn f() {\n    if a {\n        b = -c;\n    }\n}\n";
    static uint8_t form[1024];
    char buffer[64];
    size_t size;
    CHECK(pack(WGSL_EXPRESSION, "a.b", form, sizeof form) == WGSL_DONE && is_size(sizeof named));
    CHECK(memcmp(form, named, sizeof named) == 0);
    CHECK(pack(WGSL_EXPRESSION, "a.b", form, sizeof named - 1) == WGSL_TOO_SMALL);
    CHECK(is_size(sizeof named));
    CHECK(print(named, sizeof named, buffer, 3) == WGSL_DONE && is_size(3));
    CHECK(memcmp(buffer, "a.b", 3) == 0);
    CHECK(print(named, sizeof named, buffer, 2) == WGSL_TOO_SMALL && is_size(3));
    for (size = 0; size < sizeof named; size++) {
        CHECK(print(named, size, buffer, sizeof buffer) == WGSL_REFUSED);
        CHECK(is_answer(0, 0, 0, WGSL_NOT_A_FORM, 0));
    }
    CHECK(pack(WGSL_UNIT, module, form, sizeof form) == WGSL_DONE);
    size = answer.size;
    CHECK(print(form, size, buffer, sizeof buffer) == WGSL_DONE);
    CHECK(is_size(strlen(text)) && memcmp(buffer, text, strlen(text)) == 0);
    CHECK(print(form, size + 1, buffer, sizeof buffer) == WGSL_REFUSED);
    CHECK(pack(WGSL_UNIT, "fn f(", form, sizeof form) == WGSL_REFUSED);
    CHECK(answer.kind == WGSL_UNEXPECTED_END && answer.start == 5);
    CHECK(pack(WGSL_EXPRESSION + 1, "@a", form, sizeof form) == WGSL_UNKNOWN && is_size(0));
    CHECK(pack(UINT32_MAX, "@a", form, sizeof form) == WGSL_UNKNOWN && is_size(0));
    CHECK(pack(WGSL_UNIT, "\xff", form, sizeof form) == WGSL_NOT_UTF8);
    CHECK(pack(UINT32_MAX, "\xff", form, sizeof form) == WGSL_NOT_UTF8 && is_size(0));
    CHECK(pack(WGSL_EXPRESSION, "a.b", NULL, 0) == WGSL_TOO_SMALL && is_size(sizeof named));
    CHECK(pack(WGSL_EXPRESSION, "a.b", NULL, 1) == WGSL_BAD_ARGUMENT);
    CHECK(pack(WGSL_EXPRESSION, "a.b", form, SIZE_MAX) == WGSL_BAD_ARGUMENT);
    CHECK(wgsl_packed_tree(WGSL_UNIT, NULL, 1, form, 1, &answer) == WGSL_BAD_ARGUMENT);
    CHECK(wgsl_packed_tree(WGSL_UNIT, "", 0, form, sizeof form, NULL) == WGSL_BAD_ARGUMENT);
    return 0;
}

static int (*const checks[])(void) = {
    check_trees, check_prints, check_refused_forms, check_print_arguments, check_packed,
};

int main(void) {
    int failed = 0;
    size_t at;
    for (at = 0; failed == 0 && at < sizeof checks / sizeof *checks; at++) failed = checks[at]();
    return failed;
}
