/* Reads packed forms: the bytes that wgsl_packed_tree of wgsl.h writes, which docs/TREE.md
 * describes. Nothing here takes memory or calls the library, and no byte outside of a form is read,
 * whatever bytes it has.
 *
 *     struct wgsl_node unit = {form, size}, list;
 *     struct wgsl_part part;
 *     wgsl_part_of(unit, WGSL_PART_UNIT_GLOBAL_DECLARATIONS, &part);
 *     list = part.node;
 *     while (wgsl_next_item(&list, &part) == WGSL_IS_THERE) ..
 *
 * docs/USE.md has a whole program, examples/c/bindings.c.
 */
#ifndef WGSL_PACKED_H
#define WGSL_PACKED_H

#include <stddef.h>
#include <stdint.h>

/* The rules, written by tools/tables/packed_header.py. */
enum wgsl_rule {
    /* `false`. */
    WGSL_RULE_FALSE = 0,
    /* `true`. */
    WGSL_RULE_TRUE = 1,
    /* A whole number without a suffix, in decimal. */
    WGSL_RULE_INT = 2,
    /* A whole number with the suffix `i`. */
    WGSL_RULE_I32 = 3,
    /* A whole number with the suffix `u`. */
    WGSL_RULE_U32 = 4,
    /* A float without a suffix, by its spelling. */
    WGSL_RULE_FLOAT = 5,
    /* A float with the suffix `f`. */
    WGSL_RULE_F32 = 6,
    /* A float with the suffix `h`. */
    WGSL_RULE_F16 = 7,
    /* An expression in parentheses. */
    WGSL_RULE_PARENTHESIZED = 8,
    /* An operator and its operand. */
    WGSL_RULE_UNARY = 9,
    /* The same if both would be read as one operator without the space. */
    WGSL_RULE_UNARY_APART = 10,
    /* A call. */
    WGSL_RULE_CALL = 11,
    /* A type or identifier without a template, the last of some names, or a keyword. */
    WGSL_RULE_NAME = 12,
    /* A type or identifier with a template. */
    WGSL_RULE_TEMPLATE = 13,
    /* What is leftmost in a component, an element or an operation, and what follows it. */
    WGSL_RULE_CHAIN = 14,
    /* A component of what is before it, which has the span. */
    WGSL_RULE_COMPONENT = 15,
    /* The same after a whole number without a suffix. */
    WGSL_RULE_COMPONENT_OF_INT = 16,
    /* An element of what is before it. */
    WGSL_RULE_INDEX = 17,
    /* An operator after what is before it, and a right operand. */
    WGSL_RULE_BINARY = 18,
    /* What is left out, or the end of a list. */
    WGSL_RULE_NOTHING = 19,
    /* An expression before others. */
    WGSL_RULE_NODES = 20,
    /* The last of some expressions, or an expression that may be left out. */
    WGSL_RULE_NODE = 21,
    /* A part before others. */
    WGSL_RULE_PARTS = 22,
    /* The last of some parts. */
    WGSL_RULE_PART = 23,
    /* A type of `@type` before others. */
    WGSL_RULE_TYPES = 24,
    /* A name before others. */
    WGSL_RULE_NAMES = 25,
    /* An attribute before others. */
    WGSL_RULE_ATTRIBUTES = 26,
    /* The last attribute before a line break. */
    WGSL_RULE_ATTRIBUTES_LINE = 27,
    /* The last attribute before a space. */
    WGSL_RULE_ATTRIBUTES_SPACE = 28,
    /* An attribute with an expression, by its name. */
    WGSL_RULE_WITH_ARGUMENT = 29,
    /* An attribute that is a name. */
    WGSL_RULE_WITHOUT_ARGUMENT = 30,
    /* A built-in value. */
    WGSL_RULE_BUILTIN = 31,
    /* A severity and the name of a rule. */
    WGSL_RULE_DIAGNOSTIC = 32,
    /* How a value is interpolated. */
    WGSL_RULE_INTERPOLATE = 33,
    /* A word that may be left out, after another. */
    WGSL_RULE_FURTHER_WORD = 34,
    /* The sizes of a workgroup. */
    WGSL_RULE_WORKGROUP_SIZE = 35,
    /* An expression that may be left out, after another. */
    WGSL_RULE_FURTHER_NODE = 36,
    /* A name and types. */
    WGSL_RULE_TYPE_ATTRIBUTE = 37,
    /* A name, and the types that it may be. */
    WGSL_RULE_TYPE_CONSTRAINT = 38,
    /* An attribute of another name. */
    WGSL_RULE_CUSTOM = 39,
    /* Its arguments. */
    WGSL_RULE_ARGUMENTS = 40,
    /* A `var` with its template. */
    WGSL_RULE_VAR = 41,
    /* An address space, and an access mode. */
    WGSL_RULE_VAR_TEMPLATE = 42,
    /* The declaration of a value, without its `;`. */
    WGSL_RULE_DECLARATION = 43,
    /* Its type. */
    WGSL_RULE_TYPED = 44,
    /* Its first value. */
    WGSL_RULE_INITIALIZER = 45,
    /* An assignment, without its `;`, as further statements up to `const_assert`. */
    WGSL_RULE_ASSIGNMENT = 46,
    /* An increment. */
    WGSL_RULE_INCREMENT = 47,
    /* A decrement. */
    WGSL_RULE_DECREMENT = 48,
    /* `break`. */
    WGSL_RULE_BREAK = 49,
    /* `continue`. */
    WGSL_RULE_CONTINUE = 50,
    /* `discard`. */
    WGSL_RULE_DISCARD = 51,
    /* `return`. */
    WGSL_RULE_RETURN = 52,
    /* The value that is returned. */
    WGSL_RULE_RETURNED = 53,
    /* A call alone. */
    WGSL_RULE_CALL_STATEMENT = 54,
    /* `const_assert`. */
    WGSL_RULE_CONST_ASSERT = 55,
    /* `break if`. */
    WGSL_RULE_BREAK_IF = 56,
    /* The selector `default`. */
    WGSL_RULE_DEFAULT = 57,
    /* An empty statement or declaration by itself, of which attributes are printed. */
    WGSL_RULE_VOID = 58,
    /* A statement or a declaration with the `;` that ends it. */
    WGSL_RULE_ENDED = 59,
    /* The attributes of a block, and what is in it. */
    WGSL_RULE_BLOCK = 60,
    /* An empty statement or declaration, before others. */
    WGSL_RULE_VOID_ITEM = 61,
    /* A statement in a block, before others. */
    WGSL_RULE_ITEM = 62,
    /* The end of a block that has a statement other than `;`, or of clauses. */
    WGSL_RULE_BLOCK_END = 63,
    /* The end of another, or of no members. */
    WGSL_RULE_EMPTY_END = 64,
    /* The end of the statements in a `loop` or `continuing`. */
    WGSL_RULE_OPENED_END = 65,
    /* The same if there are none but `;`. */
    WGSL_RULE_EMPTY_OPENED_END = 66,
    /* An `if` with what follows it. */
    WGSL_RULE_IF = 67,
    /* Its first condition and block. */
    WGSL_RULE_IF_CLAUSE = 68,
    /* An `else if`. */
    WGSL_RULE_ELSE_IF = 69,
    /* An `else`. */
    WGSL_RULE_ELSE = 70,
    /* What may be left out, on a line of its own. */
    WGSL_RULE_LINE = 71,
    /* A part on a line of its own, before others. */
    WGSL_RULE_LINES = 72,
    /* A `switch`. */
    WGSL_RULE_SWITCH = 73,
    /* A clause of a `switch`. */
    WGSL_RULE_SWITCH_CLAUSE = 74,
    /* A `loop`. */
    WGSL_RULE_LOOP = 75,
    /* What may be left out, on an indented line of its own. */
    WGSL_RULE_INDENTED_LINE = 76,
    /* What a loop does after each turn. */
    WGSL_RULE_CONTINUING = 77,
    /* A `for`. */
    WGSL_RULE_FOR = 78,
    /* A `while`. */
    WGSL_RULE_WHILE = 79,
    /* A module. */
    WGSL_RULE_UNIT = 80,
    /* A directive before others. */
    WGSL_RULE_DIRECTIVES = 81,
    /* The last directive. */
    WGSL_RULE_LAST_DIRECTIVE = 82,
    /* A severity and the name of a rule. */
    WGSL_RULE_DIAGNOSTIC_DIRECTIVE = 83,
    /* The names of extensions. */
    WGSL_RULE_ENABLE = 84,
    /* The names of extensions. */
    WGSL_RULE_REQUIRES = 85,
    /* The first declaration that is not a `;`, before others. */
    WGSL_RULE_FIRST_DECLARATION = 86,
    /* A further one, before others. */
    WGSL_RULE_DECLARATIONS = 87,
    /* A further name for a type. */
    WGSL_RULE_ALIAS = 88,
    /* A structure. */
    WGSL_RULE_STRUCT = 89,
    /* A member before others. */
    WGSL_RULE_MEMBERS = 90,
    /* The last member. */
    WGSL_RULE_LAST_MEMBER = 91,
    /* A member or a parameter. */
    WGSL_RULE_MEMBER = 92,
    /* A function. */
    WGSL_RULE_FUNCTION = 93,
    /* What a function returns. */
    WGSL_RULE_RESULT = 94
};

/* The number of the part that is a field of a node, by its rule, written by
 * tools/tables/packed_header.py. The span of a field is the part before it. */
enum wgsl_field {
    WGSL_PART_UNIT_GLOBAL_DIRECTIVES = 0,
    WGSL_PART_UNIT_GLOBAL_DECLARATIONS = 1,
    WGSL_PART_DIAGNOSTIC_DIRECTIVE_ATTRIBUTES = 0,
    WGSL_PART_DIAGNOSTIC_DIRECTIVE_SEVERITY = 1,
    WGSL_PART_DIAGNOSTIC_DIRECTIVE_RULE_NAME = 2,
    WGSL_PART_ENABLE_ATTRIBUTES = 0,
    WGSL_PART_ENABLE_EXTENSIONS = 1,
    WGSL_PART_REQUIRES_ATTRIBUTES = 0,
    WGSL_PART_REQUIRES_EXTENSIONS = 1,
    WGSL_PART_DECLARATION_ATTRIBUTES = 0,
    WGSL_PART_DECLARATION_KIND = 1,
    WGSL_PART_DECLARATION_IDENT = 2,
    WGSL_PART_DECLARATION_TY = 3,
    WGSL_PART_DECLARATION_INITIALIZER = 4,
    WGSL_PART_ALIAS_ATTRIBUTES = 0,
    WGSL_PART_ALIAS_IDENT = 1,
    WGSL_PART_ALIAS_TY = 2,
    WGSL_PART_STRUCT_ATTRIBUTES = 0,
    WGSL_PART_STRUCT_IDENT = 1,
    WGSL_PART_STRUCT_MEMBERS = 2,
    WGSL_PART_FUNCTION_ATTRIBUTES = 0,
    WGSL_PART_FUNCTION_IDENT = 1,
    WGSL_PART_FUNCTION_PARAMETERS = 2,
    WGSL_PART_FUNCTION_RESULT = 3,
    WGSL_PART_FUNCTION_BODY = 4,
    WGSL_PART_CONST_ASSERT_ATTRIBUTES = 0,
    WGSL_PART_CONST_ASSERT_EXPRESSION = 2,
    WGSL_PART_NAME_IDENT = 0,
    WGSL_PART_TEMPLATE_IDENT = 0,
    WGSL_PART_TEMPLATE_TEMPLATE_ARGS = 1,
    WGSL_PART_RESULT_RETURN_ATTRIBUTES = 0,
    WGSL_PART_RESULT_RETURN_TYPE = 1,
    WGSL_PART_BLOCK_ATTRIBUTES = 0,
    WGSL_PART_BLOCK_STATEMENTS = 1,
    WGSL_PART_NAME_TYPE = 0,
    WGSL_PART_VAR_VALUE = 0,
    WGSL_PART_MEMBER_ATTRIBUTES = 0,
    WGSL_PART_MEMBER_IDENT = 1,
    WGSL_PART_MEMBER_TY = 2,
    WGSL_PART_PARENTHESIZED_EXPRESSION = 1,
    WGSL_PART_COMPONENT_OF_INT_COMPONENT = 1,
    WGSL_PART_COMPONENT_COMPONENT = 1,
    WGSL_PART_INDEX_INDEX = 2,
    WGSL_PART_UNARY_APART_OPERATOR = 0,
    WGSL_PART_UNARY_APART_OPERAND = 2,
    WGSL_PART_UNARY_OPERATOR = 0,
    WGSL_PART_UNARY_OPERAND = 2,
    WGSL_PART_BINARY_OPERATOR = 1,
    WGSL_PART_BINARY_RIGHT = 3,
    WGSL_PART_CALL_TY = 0,
    WGSL_PART_CALL_ARGUMENTS = 1,
    WGSL_PART_WITH_ARGUMENT_TYPE = 0,
    WGSL_PART_WITH_ARGUMENT_VALUE = 2,
    WGSL_PART_WITHOUT_ARGUMENT_TYPE = 0,
    WGSL_PART_BUILTIN_VALUE = 0,
    WGSL_PART_DIAGNOSTIC_SEVERITY = 0,
    WGSL_PART_DIAGNOSTIC_RULE = 1,
    WGSL_PART_INTERPOLATE_TY = 0,
    WGSL_PART_INTERPOLATE_SAMPLING = 1,
    WGSL_PART_WORKGROUP_SIZE_X = 1,
    WGSL_PART_WORKGROUP_SIZE_Y = 2,
    WGSL_PART_WORKGROUP_SIZE_Z = 3,
    WGSL_PART_TYPE_CONSTRAINT_IDENT = 0,
    WGSL_PART_TYPE_CONSTRAINT_VARIANTS = 1,
    WGSL_PART_CUSTOM_NAME = 0,
    WGSL_PART_CUSTOM_ARGUMENTS = 1,
    WGSL_PART_VAR_TEMPLATE_ADDRESS_SPACE = 0,
    WGSL_PART_VAR_TEMPLATE_ACCESS_MODE = 1,
    WGSL_PART_INT_VALUE = 0,
    WGSL_PART_I32_VALUE = 0,
    WGSL_PART_U32_VALUE = 0,
    WGSL_PART_FLOAT_VALUE = 0,
    WGSL_PART_F32_VALUE = 0,
    WGSL_PART_F16_VALUE = 0,
    WGSL_PART_ASSIGNMENT_ATTRIBUTES = 0,
    WGSL_PART_ASSIGNMENT_LHS = 2,
    WGSL_PART_ASSIGNMENT_OPERATOR = 3,
    WGSL_PART_ASSIGNMENT_RHS = 5,
    WGSL_PART_INCREMENT_ATTRIBUTES = 0,
    WGSL_PART_INCREMENT_EXPRESSION = 2,
    WGSL_PART_DECREMENT_ATTRIBUTES = 0,
    WGSL_PART_DECREMENT_EXPRESSION = 2,
    WGSL_PART_IF_ATTRIBUTES = 0,
    WGSL_PART_IF_IF_CLAUSE = 1,
    WGSL_PART_IF_ELSE_IF_CLAUSES = 2,
    WGSL_PART_IF_ELSE_CLAUSE = 3,
    WGSL_PART_SWITCH_ATTRIBUTES = 0,
    WGSL_PART_SWITCH_EXPRESSION = 2,
    WGSL_PART_SWITCH_BODY_ATTRIBUTES = 3,
    WGSL_PART_SWITCH_CLAUSES = 4,
    WGSL_PART_LOOP_ATTRIBUTES = 0,
    WGSL_PART_LOOP_BODY = 1,
    WGSL_PART_LOOP_CONTINUING = 2,
    WGSL_PART_FOR_ATTRIBUTES = 0,
    WGSL_PART_FOR_INITIALIZER = 1,
    WGSL_PART_FOR_CONDITION = 2,
    WGSL_PART_FOR_UPDATE = 3,
    WGSL_PART_FOR_BODY = 4,
    WGSL_PART_WHILE_ATTRIBUTES = 0,
    WGSL_PART_WHILE_CONDITION = 2,
    WGSL_PART_WHILE_BODY = 3,
    WGSL_PART_BREAK_ATTRIBUTES = 0,
    WGSL_PART_CONTINUE_ATTRIBUTES = 0,
    WGSL_PART_RETURN_ATTRIBUTES = 0,
    WGSL_PART_RETURN_EXPRESSION = 1,
    WGSL_PART_DISCARD_ATTRIBUTES = 0,
    WGSL_PART_CALL_STATEMENT_ATTRIBUTES = 0,
    WGSL_PART_CALL_STATEMENT_CALL = 1,
    WGSL_PART_IF_CLAUSE_EXPRESSION = 1,
    WGSL_PART_IF_CLAUSE_BODY = 2,
    WGSL_PART_ELSE_IF_ATTRIBUTES = 0,
    WGSL_PART_ELSE_IF_EXPRESSION = 2,
    WGSL_PART_ELSE_IF_BODY = 3,
    WGSL_PART_ELSE_ATTRIBUTES = 0,
    WGSL_PART_ELSE_BODY = 1,
    WGSL_PART_SWITCH_CLAUSE_ATTRIBUTES = 0,
    WGSL_PART_SWITCH_CLAUSE_CASE_SELECTORS = 1,
    WGSL_PART_SWITCH_CLAUSE_BODY = 2,
    WGSL_PART_CONTINUING_ATTRIBUTES = 0,
    WGSL_PART_CONTINUING_BODY = 1,
    WGSL_PART_CONTINUING_BREAK_IF = 2,
    WGSL_PART_BREAK_IF_ATTRIBUTES = 0,
    WGSL_PART_BREAK_IF_EXPRESSION = 2,
    WGSL_PART_NODE_VALUE = 1
};

/* How many rules there are, written by tools/tables/packed_header.py. */
#define WGSL_RULES 95

/* How many parts after which others follow may be open in each other, each of which takes two bytes
 * of stack. What nests deeper is not read as a packed form. A level of WGSL has at most three. */
#ifndef WGSL_OPEN_PARTS
#define WGSL_OPEN_PARTS 2000
#endif

/* Whether a part or an item is there: it is; it is not, after the last one; or the bytes are not a
 * packed form. */
enum wgsl_presence { WGSL_IS_THERE = 0, WGSL_IS_END = 1, WGSL_IS_NOT_PACKED = 2 };

/* A node: the bytes of its packed form, the first of which is its rule. */
struct wgsl_node {
    const uint8_t *bytes;
    size_t size;
};

/* What fills a place of a rule, or is an item of a list. */
struct wgsl_part {
    /* What is there: '$' a node, '#' a text, '%' a span; of an item '$' or '#', or ' ' if it is an
     * empty item. Items have a span too, or 0 and 0. */
    char place;
    struct wgsl_node node;
    const char *text;
    size_t size;
    /* Where a span starts and ends, in bytes of the source. */
    uint64_t start;
    uint64_t end;
};

/* The parts of a node that are left. */
struct wgsl_parts {
    const char *places;
    struct wgsl_node left;
};

/* Returns the places of a rule, in order, or null if no rule has the number. Written by
 * tools/tables/packed_header.py. */
static inline const char *wgsl_places_of(size_t rule) {
    static const char *const places[] = {
        "", "", "#", "#", "#", "#", "#", "#", "%$", "#%$", "#%$", "$$", "#", "#$", "$$", "%#$",
        "%#$", "%%$$", "%#%$$", "", "%$$", "%$", "$$", "$", "$$", "#$", "%$$", "%$", "%$", "#%$",
        "#", "#", "##", "#$", "#", "%$$$", "%$", "$", "#$", "#$", "$", "$", "#$", "$$#$$", "$",
        "%$", "$%$#%$", "$%$", "$%$", "$", "$", "$", "$$", "%$", "$$", "$%$", "$%$", "", "$", "$",
        "$$", "%$", "%$$", "", "", "", "", "$$$$", "%$$", "$%$$", "$$", "$", "$$", "$%$$$", "$$$",
        "$$$", "$", "$$$", "$$$$$", "$%$$", "$$", "$$", "$", "$##", "$$", "$$", "%$$", "%$$",
        "$#$", "$#$", "%$$", "%$", "$#$", "$#$$$", "$$"
    };
    return rule < sizeof places / sizeof *places ? places[rule] : NULL;
}

/* Returns what a rule is in a list: 'b' an item before others, 'l' the last one, 'v' an empty item,
 * 'e' the end, and ' ' if it is in none. Written by tools/tables/packed_header.py. */
static inline char wgsl_role_of(size_t rule) {
    static const char roles[] = {
        ' ', ' ', ' ', ' ', ' ', ' ', ' ', ' ', ' ', ' ', ' ', ' ', 'l', ' ', ' ', ' ', ' ', ' ',
        ' ', 'e', 'b', 'l', 'b', 'l', 'b', 'b', 'b', 'l', 'l', ' ', ' ', ' ', ' ', ' ', ' ', ' ',
        ' ', ' ', ' ', ' ', ' ', ' ', ' ', ' ', ' ', ' ', ' ', ' ', ' ', ' ', ' ', ' ', ' ', ' ',
        ' ', ' ', ' ', ' ', ' ', ' ', ' ', 'v', 'b', 'e', 'e', 'e', 'e', ' ', ' ', ' ', ' ', ' ',
        'b', ' ', ' ', ' ', ' ', ' ', ' ', ' ', ' ', 'b', 'l', ' ', ' ', ' ', 'b', 'b', ' ', ' ',
        'b', 'l', ' ', ' ', ' '
    };
    return rule < sizeof roles / sizeof *roles ? roles[rule] : ' ';
}

/* Returns the rule of a node, one of enum wgsl_rule, or WGSL_RULES if it has none. */
static inline size_t wgsl_rule_of(struct wgsl_node node) {
    return node.size > 0 && node.bytes[0] < WGSL_RULES ? node.bytes[0] : WGSL_RULES;
}

/* Takes so many bytes from the front of what is left, and returns whether there are so many. */
static inline int wgsl_take(struct wgsl_node *left, uint64_t count) {
    if (count > left->size) {
        return 0;
    }
    left->bytes += (size_t)count;
    left->size -= (size_t)count;
    return 1;
}

/* Takes a number, and returns whether there is one. */
static inline int wgsl_take_number(struct wgsl_node *left, uint64_t *number) {
    const uint8_t *bytes = left->bytes;
    size_t at;
    *number = 0;
    if (!wgsl_take(left, 8)) {
        return 0;
    }
    for (at = 8; at > 0; at--) {
        *number = *number << 8 | bytes[at - 1];
    }
    return 1;
}

/* Takes a text, and returns whether there is one. */
static inline int wgsl_take_text(struct wgsl_node *left, struct wgsl_part *part) {
    uint64_t size;
    if (!wgsl_take_number(left, &size)) {
        return 0;
    }
    part->text = (const char *)left->bytes;
    part->size = (size_t)size;
    return wgsl_take(left, size);
}

/* Takes a span, and returns whether there is one. */
static inline int wgsl_take_span(struct wgsl_node *left, struct wgsl_part *part) {
    return wgsl_take_number(left, &part->start) && wgsl_take_number(left, &part->end);
}

/* Takes a text or a span, and returns whether there is one. */
static inline int wgsl_take_short(struct wgsl_node *left, char place, struct wgsl_part *part) {
    return place == '#' ? wgsl_take_text(left, part) : wgsl_take_span(left, part);
}

/* Takes a node whose end is not known, and returns whether there is one. Of each node that is open,
 * the rule is kept with the place of it that is next, unless that was the last. */
static inline int wgsl_take_node(struct wgsl_node *left, struct wgsl_node *node) {
    uint16_t open[WGSL_OPEN_PARTS];
    const char *places = "$";
    size_t count = 0, rule = 0, at = 0;
    struct wgsl_part part;
    *node = *left;
    while (places[at] != '\0' || count > 0) {
        char place = places[at++];
        if (place == '\0') {
            count--;
            rule = open[count] >> 3;
            at = open[count] & 7;
            places = wgsl_places_of(rule);
        } else if (place != '$') {
            if (!wgsl_take_short(left, place, &part)) {
                return 0;
            }
        } else {
            if (places[at] != '\0') {
                if (count == WGSL_OPEN_PARTS) {
                    return 0;
                }
                open[count++] = (uint16_t)(rule << 3 | at);
            }
            rule = wgsl_rule_of(*left);
            if (rule == WGSL_RULES) {
                return 0;
            }
            places = wgsl_places_of(rule);
            at = 0;
            wgsl_take(left, 1);
        }
    }
    node->size -= left->size;
    return 1;
}

/* Returns the parts of a node. */
static inline struct wgsl_parts wgsl_parts_of(struct wgsl_node node) {
    struct wgsl_parts parts;
    parts.places = wgsl_places_of(wgsl_rule_of(node));
    parts.left = node;
    if (parts.places != NULL) {
        wgsl_take(&parts.left, 1);
    }
    return parts;
}

/* Returns a part that is not there. */
static inline struct wgsl_part wgsl_no_part(void) {
    static const struct wgsl_part none = {' ', {NULL, 0}, NULL, 0, 0, 0};
    return none;
}

/* Takes the next part of a node: one of enum wgsl_presence. A node that is the last part has all
 * bytes that are left. */
static inline int wgsl_next_part(struct wgsl_parts *parts, struct wgsl_part *part) {
    int is_there;
    *part = wgsl_no_part();
    if (parts->places == NULL) {
        return WGSL_IS_NOT_PACKED;
    }
    if (*parts->places == '\0') {
        return WGSL_IS_END;
    }
    part->place = *parts->places++;
    if (part->place != '$') {
        is_there = wgsl_take_short(&parts->left, part->place, part);
    } else if (*parts->places == '\0') {
        part->node = parts->left;
        is_there = wgsl_rule_of(part->node) != WGSL_RULES;
        wgsl_take(&parts->left, parts->left.size);
    } else {
        is_there = wgsl_take_node(&parts->left, &part->node);
    }
    if (!is_there) {
        *part = wgsl_no_part();
        parts->places = NULL;
    }
    return is_there ? WGSL_IS_THERE : WGSL_IS_NOT_PACKED;
}

/* Finds a part of a node by its number, one of enum wgsl_field: one of enum wgsl_presence. */
static inline int wgsl_part_of(struct wgsl_node node, size_t number, struct wgsl_part *part) {
    struct wgsl_parts parts = wgsl_parts_of(node);
    int presence = wgsl_next_part(&parts, part);
    for (; number > 0 && presence == WGSL_IS_THERE; number--) {
        presence = wgsl_next_part(&parts, part);
    }
    return presence;
}

/* Takes what is in a list or may be left out: a node, or a text, and the span before it, if it has
 * one. */
static inline int wgsl_next_item_part(struct wgsl_parts *parts, struct wgsl_part *item) {
    struct wgsl_part span;
    int presence = wgsl_next_part(parts, &span);
    *item = span;
    if (presence == WGSL_IS_THERE && span.place == '%') {
        presence = wgsl_next_part(parts, item);
        item->start = span.start;
        item->end = span.end;
    }
    return presence;
}

/* Finds what is there of a node that may be left out, by the rule WGSL_RULE_NOTHING: one of enum
 * wgsl_presence. It has its span, if it has one. */
static inline int wgsl_option_of(struct wgsl_node node, struct wgsl_part *part) {
    struct wgsl_parts parts = wgsl_parts_of(node);
    return wgsl_next_item_part(&parts, part);
}

/* Takes the next item of a list, which is then what follows that: one of enum wgsl_presence. */
static inline int wgsl_next_item(struct wgsl_node *list, struct wgsl_part *item) {
    struct wgsl_parts parts = wgsl_parts_of(*list);
    struct wgsl_part rest = wgsl_no_part();
    char role = list->size > 0 ? wgsl_role_of(wgsl_rule_of(*list)) : 'e';
    int presence = WGSL_IS_NOT_PACKED;
    *item = rest;
    if (role == 'e') {
        return WGSL_IS_END;
    }
    if (role == 'v') {
        presence = wgsl_next_part(&parts, item);
        item->place = ' ';
    } else if (role != ' ') {
        presence = wgsl_next_item_part(&parts, item);
    }
    if (presence == WGSL_IS_THERE && role != 'l') {
        presence = wgsl_next_part(&parts, &rest);
    }
    *list = rest.node;
    return presence;
}

#endif
