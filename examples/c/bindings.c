/* Lists the bindings of a shader: reads it from the standard input, and writes a line for each
   variable with @group and @binding: these, its name, its address space and access mode, and its
   type. The status is that of the library. */
#include <stdio.h>
#include <string.h>

#include "wgsl.h"
#include "wgsl_packed.h"

static char text[1 << 16], printed[1 << 10];
static uint8_t form[12 * sizeof text];

/* Finds a part that is there. Of a packed form that the library wrote, each is. */
static struct wgsl_part part_of(struct wgsl_node node, size_t number) {
    struct wgsl_part part;
    wgsl_part_of(node, number, &part);
    return part;
}

/* Returns whether a node has a rule. */
static int is_of(struct wgsl_node node, size_t rule) { return wgsl_rule_of(node) == rule; }

/* Returns whether a part is this text. */
static int is_text(struct wgsl_part part, const char *wanted) {
    return part.size == strlen(wanted) && memcmp(part.text, wanted, part.size) == 0;
}

/* Writes the text of a node as the library prints it. */
static void write_node(struct wgsl_node node) {
    struct wgsl_answer answer;
    uint32_t status = wgsl_print(node.bytes, node.size, printed, sizeof printed, &answer);
    if (status == WGSL_DONE) fwrite(printed, 1, answer.size, stdout);
}

/* Writes a text. */
static void write_text(struct wgsl_part part) { fwrite(part.text, 1, part.size, stdout); }

/* Finds the argument of the attribute with a name. */
static int find_argument(struct wgsl_node attributes, const char *name, struct wgsl_node *found) {
    struct wgsl_part item;
    while (wgsl_next_item(&attributes, &item) == WGSL_IS_THERE) {
        if (is_of(item.node, WGSL_RULE_WITH_ARGUMENT)
            && is_text(part_of(item.node, WGSL_PART_WITH_ARGUMENT_TYPE), name)) {
            *found = part_of(item.node, WGSL_PART_WITH_ARGUMENT_VALUE).node;
            return 1;
        }
    }
    return 0;
}

/* Writes the address space and the access mode of a `var`. Without a template it is in the address
   space `handle`, as textures and samplers are. */
static void write_space(struct wgsl_node kind) {
    struct wgsl_node template = part_of(kind, WGSL_PART_VAR_VALUE).node;
    struct wgsl_part mode;
    if (!is_of(template, WGSL_RULE_VAR_TEMPLATE)) {
        fputs("handle", stdout);
        return;
    }
    write_text(part_of(template, WGSL_PART_VAR_TEMPLATE_ADDRESS_SPACE));
    mode = part_of(template, WGSL_PART_VAR_TEMPLATE_ACCESS_MODE);
    if (wgsl_option_of(mode.node, &mode) == WGSL_IS_THERE) {
        putchar(' ');
        write_text(mode);
    }
}

/* Writes the line of a declaration, if it has both attributes. */
static void write_binding(struct wgsl_node declaration) {
    struct wgsl_node attributes = part_of(declaration, WGSL_PART_DECLARATION_ATTRIBUTES).node;
    struct wgsl_node kind = part_of(declaration, WGSL_PART_DECLARATION_KIND).node;
    struct wgsl_node type = part_of(declaration, WGSL_PART_DECLARATION_TY).node;
    struct wgsl_node group, binding;
    if (!is_of(kind, WGSL_RULE_VAR) || !find_argument(attributes, "group", &group)
        || !find_argument(attributes, "binding", &binding)) {
        return;
    }
    write_node(group);
    putchar(' ');
    write_node(binding);
    putchar(' ');
    write_text(part_of(declaration, WGSL_PART_DECLARATION_IDENT));
    putchar(' ');
    write_space(kind);
    if (is_of(type, WGSL_RULE_TYPED)) write_node(type);
    putchar('\n');
}

/* Writes the bindings of a module. */
static void write_bindings(struct wgsl_node unit) {
    struct wgsl_node list = part_of(unit, WGSL_PART_UNIT_GLOBAL_DECLARATIONS).node;
    struct wgsl_part item;
    while (wgsl_next_item(&list, &item) == WGSL_IS_THERE) {
        /* a declaration of a value is in the rule of the `;` after it */
        struct wgsl_node node = item.node;
        if (is_of(node, WGSL_RULE_ENDED)) node = part_of(node, 0).node;
        if (is_of(node, WGSL_RULE_DECLARATION)) write_binding(node);
    }
}

int main(void) {
    struct wgsl_answer answer;
    struct wgsl_node unit = {form, 0};
    size_t size = fread(text, 1, sizeof text, stdin);
    uint32_t status;
    if (size == sizeof text) return WGSL_TOO_SMALL;
    status = wgsl_packed_tree(WGSL_UNIT, text, size, form, sizeof form, &answer);
    if (status == WGSL_REFUSED || status == WGSL_TOO_DEEP) {
        struct wgsl_position at = wgsl_position_of(text, size, answer.start);
        fprintf(stderr, "%zu:%zu: error: %s\n", at.line, at.column, (const char *)form);
    }
    unit.size = answer.size;
    if (status == WGSL_DONE) write_bindings(unit);
    return (int)status;
}
