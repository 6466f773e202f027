/* Calls the functions of wgsl_packed.h, on forms that are made by hand and on those of its input,
   each after how many bytes it has (8 bytes, the lowest first), also cut off and with other bytes.
   Exits with the line of the first check that fails, or 0. */
#include <stdio.h>
#include <stdlib.h>
#include <string.h>

#include "library_check.h"
#include "library_forms.h"
#include "wgsl_packed.h"

/* How often a byte of a form is changed. */
#define CHANGES 200
/* The longest form of which bytes are changed. */
#define LONGEST 4096

static struct wgsl_node node_of(const void *form, size_t size) {
    struct wgsl_node node = {(const uint8_t *)form, size};
    return node;
}

static int is_span(struct wgsl_part part, uint64_t start, uint64_t end) {
    return part.start == start && part.end == end;
}

static int is_text(struct wgsl_part part, const char *text) {
    return part.place == '#' && part.size == strlen(text)
        && memcmp(part.text, text, part.size) == 0;
}

/* The parts of `a.b` are what docs/TREE.md says. */
static int check_parts(void) {
    static const char form[] =
        "\16" NAME("a") "\17" NUMBER("\0") NUMBER("\1") TEXT("\1", "b") NOTHING;
    struct wgsl_node chain = node_of(form, sizeof form - 1);
    struct wgsl_parts parts = wgsl_parts_of(chain);
    struct wgsl_part part;
    CHECK(wgsl_rule_of(chain) == WGSL_RULE_CHAIN);
    CHECK(wgsl_next_part(&parts, &part) == WGSL_IS_THERE && part.place == '$');
    CHECK(wgsl_rule_of(part.node) == WGSL_RULE_NAME && part.node.size == 10);
    CHECK(wgsl_part_of(part.node, WGSL_PART_NAME_IDENT, &part) == WGSL_IS_THERE);
    CHECK(is_text(part, "a") && part.node.size == 0 && is_span(part, 0, 0));
    CHECK(wgsl_next_part(&parts, &part) == WGSL_IS_THERE && part.place == '$');
    CHECK(wgsl_rule_of(part.node) == WGSL_RULE_COMPONENT);
    CHECK(wgsl_next_part(&parts, &part) == WGSL_IS_END && part.place == ' ');
    CHECK(wgsl_part_of(chain, 1, &part) == WGSL_IS_THERE);
    parts = wgsl_parts_of(part.node);
    CHECK(wgsl_next_part(&parts, &part) == WGSL_IS_THERE);
    CHECK(part.place == '%' && is_span(part, 0, 1));
    CHECK(wgsl_next_part(&parts, &part) == WGSL_IS_THERE && is_text(part, "b"));
    CHECK(wgsl_next_part(&parts, &part) == WGSL_IS_THERE);
    CHECK(wgsl_rule_of(part.node) == WGSL_RULE_NOTHING);
    CHECK(wgsl_next_part(&parts, &part) == WGSL_IS_END);
    CHECK(wgsl_part_of(chain, 2, &part) == WGSL_IS_END);
    return 0;
}

/* The items of lists: an empty statement and another one, the names of extensions, none. */
static int check_items(void) {
    static const char block[] = "\74" NOTHING "\75" NUMBER("\1") NUMBER("\2") "\76" NUMBER("\3")
        NUMBER("\11") "\73\61" NOTHING "\77";
    static const char names[] = "\124" NOTHING "\31" TEXT("\3", "f16") NAME("a");
    static const char empty[] = "\74" NOTHING "\100";
    struct wgsl_part item, part;
    struct wgsl_node list;
    CHECK(wgsl_part_of(node_of(block, sizeof block - 1), 1, &part) == WGSL_IS_THERE);
    list = part.node;
    CHECK(wgsl_next_item(&list, &item) == WGSL_IS_THERE);
    CHECK(item.place == ' ' && is_span(item, 1, 2));
    CHECK(wgsl_next_item(&list, &item) == WGSL_IS_THERE);
    CHECK(item.place == '$' && is_span(item, 3, 9));
    CHECK(wgsl_rule_of(item.node) == WGSL_RULE_ENDED && item.node.size == 3);
    CHECK(wgsl_next_item(&list, &item) == WGSL_IS_END && item.place == ' ');
    CHECK(wgsl_rule_of(list) == WGSL_RULE_BLOCK_END);
    CHECK(wgsl_part_of(node_of(names, sizeof names - 1), 1, &part) == WGSL_IS_THERE);
    list = part.node;
    CHECK(wgsl_next_item(&list, &item) == WGSL_IS_THERE && is_text(item, "f16"));
    CHECK(wgsl_next_item(&list, &item) == WGSL_IS_THERE && is_text(item, "a"));
    CHECK(wgsl_next_item(&list, &item) == WGSL_IS_END && list.size == 0);
    CHECK(wgsl_next_item(&list, &item) == WGSL_IS_END);
    CHECK(wgsl_part_of(node_of(empty, sizeof empty - 1), 1, &part) == WGSL_IS_THERE);
    CHECK(wgsl_next_item(&part.node, &item) == WGSL_IS_END);
    list = node_of(block, sizeof block - 1);
    CHECK(wgsl_next_item(&list, &item) == WGSL_IS_NOT_PACKED);
    return 0;
}

/* What may be left out. */
static int check_options(void) {
    static const char value[] = "\65" NUMBER("\4") NUMBER("\5") NAME("a");
    static const char mode[] = "\42" TEXT("\4", "read");
    struct wgsl_part part;
    CHECK(wgsl_option_of(node_of(value, sizeof value - 1), &part) == WGSL_IS_THERE);
    CHECK(part.place == '$' && is_span(part, 4, 5) && wgsl_rule_of(part.node) == WGSL_RULE_NAME);
    CHECK(wgsl_option_of(node_of(mode, sizeof mode - 1), &part) == WGSL_IS_THERE);
    CHECK(is_text(part, "read") && is_span(part, 0, 0));
    CHECK(wgsl_option_of(node_of(NOTHING, 1), &part) == WGSL_IS_END);
    CHECK(wgsl_option_of(node_of(NULL, 0), &part) == WGSL_IS_NOT_PACKED);
    return 0;
}

/* Returns how many bytes a form has by its parts, or 0 if it is none. */
static size_t walk(struct wgsl_node node) {
    struct wgsl_parts parts = wgsl_parts_of(node);
    struct wgsl_part part;
    size_t size = 1, inside;
    int presence;
    while ((presence = wgsl_next_part(&parts, &part)) == WGSL_IS_THERE) {
        if (part.place == '%') {
            size += 16;
        } else if (part.place == '#') {
            size += 8 + part.size;
            if (part.size > 0 && part.text[0] + part.text[part.size - 1] == 1 << 16) abort();
        } else {
            inside = walk(part.node);
            if (inside == 0) return 0;
            size += inside;
        }
    }
    return presence == WGSL_IS_END ? size : 0;
}

/* Returns how many items the nodes of a form have as lists, and as what may be left out. */
static size_t count(struct wgsl_node node) {
    struct wgsl_parts parts = wgsl_parts_of(node);
    struct wgsl_node list = node;
    struct wgsl_part part;
    size_t found = wgsl_option_of(node, &part) == WGSL_IS_THERE;
    while (wgsl_next_item(&list, &part) == WGSL_IS_THERE) found++;
    while (wgsl_next_part(&parts, &part) == WGSL_IS_THERE) {
        if (part.place == '$') found += count(part.node);
    }
    return found;
}

/* The forms of nodes have the bytes of their parts, and other bytes are no forms. */
static int check_forms(void) {
    size_t at;
    for (at = 0; at < sizeof printed_forms / sizeof *printed_forms; at++) {
        size_t size = printed_forms[at].size;
        CHECK(walk(node_of(printed_forms[at].form, size)) == size);
    }
    /* one has another form after it, and only printing sees that the last has a level too few */
    for (at = 0; at < sizeof refused_forms / sizeof *refused_forms - 1; at++) {
        size_t size = refused_forms[at].size;
        CHECK(walk(node_of(refused_forms[at].form, size)) == (refused_forms[at].form[0] == '\71'));
    }
    return 0;
}

/* Lists in the first items of lists, so many deep that too many parts are open, and one less. */
static int check_depth(void) {
    static uint8_t form[2 * WGSL_OPEN_PARTS + 8];
    struct wgsl_part part;
    size_t depth;
    for (depth = WGSL_OPEN_PARTS + 1; depth <= WGSL_OPEN_PARTS + 2; depth++) {
        int is_read = depth == WGSL_OPEN_PARTS + 1;
        memset(form, WGSL_RULE_PARTS, depth);
        memset(form + depth, WGSL_RULE_DEFAULT, depth + 1);
        CHECK(wgsl_part_of(node_of(form, 2 * depth + 1), 0, &part)
              == (is_read ? WGSL_IS_THERE : WGSL_IS_NOT_PACKED));
        CHECK(part.node.size == (is_read ? 2 * depth - 1 : 0));
    }
    return 0;
}

/* Bytes that end where their memory does. */
static uint8_t *copy_of(const uint8_t *bytes, size_t size) {
    uint8_t *copy = malloc(size > 0 ? size : 1);
    if (copy == NULL) abort();
    return memcpy(copy, bytes, size);
}

/* Checks a form, its beginnings, and forms with other bytes. */
static int check_form(uint8_t *form, size_t size) {
    static uint32_t state = 1;
    size_t cut, change, step = size / CHANGES + 1;
    CHECK(walk(node_of(form, size)) == size);
    CHECK(count(node_of(form, size)) < size);
    for (cut = 0; cut < size; cut += step) {
        uint8_t *part = copy_of(form, cut);
        CHECK(walk(node_of(part, cut)) == 0);
        CHECK(count(node_of(part, cut)) <= cut);
        free(part);
    }
    for (change = 0; size <= LONGEST && change < CHANGES; change++) {
        uint8_t kept;
        size_t at;
        state = state * 1664525 + 1013904223;
        at = (state >> 8) % size;
        kept = form[at];
        form[at] = (uint8_t)(state >> 24);
        CHECK(walk(node_of(form, size)) <= size);
        CHECK(count(node_of(form, size)) <= size);
        form[at] = kept;
    }
    return 0;
}

static int check_input(void) {
    uint8_t number[8];
    while (fread(number, 1, sizeof number, stdin) == sizeof number) {
        struct wgsl_node left = node_of(number, sizeof number);
        uint8_t *form;
        uint64_t size;
        int failed;
        CHECK(wgsl_take_number(&left, &size) && size < SIZE_MAX / 2);
        form = malloc(size);
        CHECK(form != NULL && fread(form, 1, size, stdin) == size);
        failed = check_form(form, size);
        free(form);
        if (failed != 0) return failed;
    }
    return 0;
}

static int (*const checks[])(void) = {
    check_parts, check_items, check_options, check_forms, check_depth, check_input,
};

int main(void) {
    int failed = 0;
    size_t at;
    for (at = 0; failed == 0 && at < sizeof checks / sizeof *checks; at++) failed = checks[at]();
    return failed;
}
