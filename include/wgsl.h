/* WGSL, the shading language of WebGPU: read, checked and printed by a library of which every
 * function is proved to be safe, to return on every input, and to meet its contract.
 *
 *     cc program.c $(pkg-config --cflags --libs wgsl)
 *
 * `make lib` makes the library and `make install` installs it; a release has it in the folder lib.
 * docs/USE.md has a whole program, examples/c/format.c.
 *
 * Texts. A text is bytes and their number; no byte 0 ends it. For bytes that are not UTF-8 the
 * status is WGSL_NOT_UTF8. Places are byte offsets, from 0; what ends at a place ends before it.
 *
 * Buffer. A call writes what it returns into memory of the caller, the buffer. If that is too
 * small, the status is WGSL_TOO_SMALL, `size` of the answer says how much is needed, and the call
 * is made again; a buffer of no bytes only asks for the size. The library keeps nothing between
 * calls, so there is nothing to free.
 *
 * Null. Each pointer may be null if its number is 0. For a null pointer with another number, a null
 * answer, or a number that no memory has, the status is WGSL_BAD_ARGUMENT, and nothing is written.
 *
 * What a caller must see to, since no call can test it: the bytes of a text can be read, and do not
 * change until the call returns; the buffer and the answer can be written, whatever they hold; what
 * is read, the buffer and the answer do not overlap; and there is enough stack.
 *
 * Depth. A text nests as deep as its brackets, blocks, template lists and prefix operators do, and
 * each takes stack while the text is read: as measured over wgsl_recognize, wgsl_check,
 * wgsl_format, wgsl_tree and wgsl_packed_tree, at most 2,800 bytes, in wgsl_minify 3,800, and in
 * wgsl_tidy 1,900. A left operand, and what is before a component or an index, takes none. So these
 * calls and wgsl_snippet read a text that nests up to WGSL_DEPTH levels deep, for which 1 MB of
 * stack is enough. Of one that nests deeper the status is WGSL_TOO_DEEP, unless a fault before that
 * place is found; a few more levels may be accepted. Each of these calls has another one, with
 * _within at the end of its name, which first takes how many levels deep a text may nest.
 * wgsl_nesting returns how deep a text nests, and takes no such stack; nor does wgsl_print.
 *
 * Memory. While it runs, a call takes memory by the program's malloc, realloc and free, and gives
 * all of it back before it returns. Where they fail, the status is WGSL_OUT_OF_MEMORY. The three
 * belong to one allocator, and align a block to each power of two up to 16 that divides its size.
 *
 * Threads. Any thread may make any call, at the same time as others. No call is made from a signal
 * handler, nor in the forked child of a program with threads.
 */
#ifndef WGSL_H
#define WGSL_H

#include <stddef.h>
#include <stdint.h>

#ifdef __cplusplus
extern "C" {
#endif

/* The status of a call. */
enum wgsl_status {
    /* The call did what it is for. */
    WGSL_DONE = 0,
    /* The text is refused. The answer has the kind and the place of the fault. If its texts fit
     * into the buffer, as they do if `size` is at most the size of the buffer, they are there: the
     * message and then each text of what was expected, each with a byte 0 after it; otherwise the
     * buffer does not change. wgsl_snippet gives lines instead of these texts; wgsl_tokens and
     * wgsl_tokens_with_comments give none: their message is WGSL_INVALID_TOKEN_MESSAGE. */
    WGSL_REFUSED = 1,
    /* The bytes are not UTF-8: `start` is the first place where they stop being so. */
    WGSL_NOT_UTF8 = 2,
    WGSL_OUT_OF_MEMORY = 3,
    /* The buffer is too small for what `size` says is needed. A buffer of bytes does not change. */
    WGSL_TOO_SMALL = 4,
    /* No tree, or no choice of names, has the number that was asked for. */
    WGSL_UNKNOWN = 5,
    /* A null pointer where memory is wanted, a number that no memory has, or a name of a file or
     * names to keep that are not UTF-8. */
    WGSL_BAD_ARGUMENT = 6,
    /* The text nests too deep. The answer has the place of the first token with which it does, and
     * the buffer, if it fits as for WGSL_REFUSED, the message, such as `nests deeper than 200
     * levels`, with a byte 0 after it; that of wgsl_snippet the lines that show it. */
    WGSL_TOO_DEEP = 7
};

/* How many levels deep a text may nest for the calls whose names do not end with _within. */
#define WGSL_DEPTH 200

/* The kinds of faults. */
enum wgsl_fault {
    /* Text that begins no token, or a whole number out of range. */
    WGSL_INVALID_TOKEN = 1,
    /* A reserved word where a name is wanted. */
    WGSL_RESERVED_WORD_USED = 2,
    /* A token that cannot be where it is. */
    WGSL_UNEXPECTED_TOKEN = 3,
    /* The text ends too early: from the end of its last token to one byte after. */
    WGSL_UNEXPECTED_END = 4,
    /* A severity that is not one. */
    WGSL_DIAGNOSTIC_SEVERITY = 6,
    /* An attribute whose arguments do not fit. */
    WGSL_ATTRIBUTE = 7,
    /* A `var` template whose arguments do not fit. */
    WGSL_VAR_TEMPLATE = 8,
    /* Bytes that are not a packed form. Only wgsl_print returns it, without a place or a text. */
    WGSL_NOT_A_FORM = 10
};

/* The message of each WGSL_INVALID_TOKEN, which expects nothing. */
#define WGSL_INVALID_TOKEN_MESSAGE "invalid token"

/* The result of a call beside its status. A number that does not go with the status is 0; after
 * WGSL_BAD_ARGUMENT the whole may be as it was before the call. */
struct wgsl_answer {
    /* How many bytes or items there are to give, or the number that was asked for. */
    size_t size;
    /* Where a fault starts and ends; of wgsl_minify, where the new names do in the buffer. */
    size_t start;
    size_t end;
    /* The kind of a fault: one of enum wgsl_fault. */
    size_t kind;
    /* How many texts were expected. */
    size_t expected;
};

/* A token or a comment: one of enum wgsl_token_kind, and where it starts and ends. */
struct wgsl_token {
    size_t kind;
    size_t start;
    size_t end;
};

/* The start and the end of a part of a text. */
struct wgsl_place {
    size_t start;
    size_t end;
};

/* The line breaks of a formatted text: that of the first line of its source; LF; CR LF. */
enum wgsl_newlines { WGSL_NEWLINES_AUTO = 0, WGSL_NEWLINES_LF = 1, WGSL_NEWLINES_CRLF = 2 };

/* The choices for the layout of a formatted text. */
struct wgsl_layout {
    /* How many columns a line may have, or 0 if no line is broken for its length. */
    size_t width;
    /* How many columns a level of indentation has. */
    uint8_t indent;
    /* 0 if a level is spaces, any other number if it is a tab. */
    uint8_t tab;
    /* One of enum wgsl_newlines. Any other number is taken as WGSL_NEWLINES_CRLF. */
    uint8_t newlines;
};

/* The standard layout: lines of up to 100 columns, four spaces a level, and the line breaks of the
 * source. */
#define WGSL_STANDARD_LAYOUT { 100, 4, 0, WGSL_NEWLINES_AUTO }

/* The names that get new ones in a minified module. */
enum wgsl_names {
    WGSL_NO_NAMES = 0,
    /* Those that are declared in functions alone. */
    WGSL_LOCAL_NAMES = 1,
    /* All that are declared. */
    WGSL_ALL_NAMES = 2
};

/* The kinds of trees that are read from a text. */
enum wgsl_tree_kind {
    WGSL_UNIT = 0,
    WGSL_DIRECTIVE = 1,
    WGSL_DECLARATION = 2,
    WGSL_STATEMENT = 3,
    WGSL_EXPRESSION = 4
};

/* The kinds of tokens and comments, written by tools/tables/tokens.py. Only
 * wgsl_tokens_with_comments gives comments. */
enum wgsl_token_kind {
    WGSL_SYM_AND = 0,
    WGSL_SYM_AND_AND = 1,
    WGSL_SYM_ARROW = 2,
    WGSL_SYM_ATTR = 3,
    WGSL_SYM_FORWARD_SLASH = 4,
    WGSL_SYM_BANG = 5,
    WGSL_SYM_BRACKET_LEFT = 6,
    WGSL_SYM_BRACKET_RIGHT = 7,
    WGSL_SYM_BRACE_LEFT = 8,
    WGSL_SYM_BRACE_RIGHT = 9,
    WGSL_SYM_COLON = 10,
    WGSL_SYM_COMMA = 11,
    WGSL_SYM_EQUAL = 12,
    WGSL_SYM_EQUAL_EQUAL = 13,
    WGSL_SYM_NOT_EQUAL = 14,
    WGSL_SYM_GREATER_THAN = 15,
    WGSL_SYM_GREATER_THAN_EQUAL = 16,
    WGSL_SYM_SHIFT_RIGHT = 17,
    WGSL_SYM_LESS_THAN = 18,
    WGSL_SYM_LESS_THAN_EQUAL = 19,
    WGSL_SYM_SHIFT_LEFT = 20,
    WGSL_SYM_MODULO = 21,
    WGSL_SYM_MINUS = 22,
    WGSL_SYM_MINUS_MINUS = 23,
    WGSL_SYM_PERIOD = 24,
    WGSL_SYM_PLUS = 25,
    WGSL_SYM_PLUS_PLUS = 26,
    WGSL_SYM_OR = 27,
    WGSL_SYM_OR_OR = 28,
    WGSL_SYM_PAREN_LEFT = 29,
    WGSL_SYM_PAREN_RIGHT = 30,
    WGSL_SYM_SEMICOLON = 31,
    WGSL_SYM_STAR = 32,
    WGSL_SYM_TILDE = 33,
    WGSL_SYM_UNDERSCORE = 34,
    WGSL_SYM_XOR = 35,
    WGSL_SYM_PLUS_EQUAL = 36,
    WGSL_SYM_MINUS_EQUAL = 37,
    WGSL_SYM_TIMES_EQUAL = 38,
    WGSL_SYM_DIVISION_EQUAL = 39,
    WGSL_SYM_MODULO_EQUAL = 40,
    WGSL_SYM_AND_EQUAL = 41,
    WGSL_SYM_OR_EQUAL = 42,
    WGSL_SYM_XOR_EQUAL = 43,
    WGSL_SYM_SHIFT_RIGHT_ASSIGN = 44,
    WGSL_SYM_SHIFT_LEFT_ASSIGN = 45,
    WGSL_KW_ALIAS = 46,
    WGSL_KW_BREAK = 47,
    WGSL_KW_CASE = 48,
    WGSL_KW_CONST = 49,
    WGSL_KW_CONST_ASSERT = 50,
    WGSL_KW_CONTINUE = 51,
    WGSL_KW_CONTINUING = 52,
    WGSL_KW_DEFAULT = 53,
    WGSL_KW_DIAGNOSTIC = 54,
    WGSL_KW_DISCARD = 55,
    WGSL_KW_ELSE = 56,
    WGSL_KW_ENABLE = 57,
    WGSL_KW_FALSE = 58,
    WGSL_KW_FN = 59,
    WGSL_KW_FOR = 60,
    WGSL_KW_IF = 61,
    WGSL_KW_LET = 62,
    WGSL_KW_LOOP = 63,
    WGSL_KW_OVERRIDE = 64,
    WGSL_KW_REQUIRES = 65,
    WGSL_KW_RETURN = 66,
    WGSL_KW_STRUCT = 67,
    WGSL_KW_SWITCH = 68,
    WGSL_KW_TRUE = 69,
    WGSL_KW_VAR = 70,
    WGSL_KW_WHILE = 71,
    WGSL_IDENT = 72,
    WGSL_RESERVED_WORD = 73,
    WGSL_ABSTRACT_INT = 74,
    WGSL_I32 = 75,
    WGSL_U32 = 76,
    WGSL_ABSTRACT_FLOAT = 77,
    WGSL_F32 = 78,
    WGSL_F16 = 79,
    WGSL_TEMPLATE_ARGS_START = 80,
    WGSL_TEMPLATE_ARGS_END = 81,
    WGSL_LINE_COMMENT = 82,
    WGSL_BLOCK_COMMENT = 83,
    WGSL_OPEN_COMMENT = 84
};

/* The exports of the library, which the functions below call. They are for languages that read no
 * header. They test no pointer and no number: none of theirs may be null, even with the number 0,
 * and what is counted has at most WGSL_GREATEST bytes. */
uint32_t wgsl_c_format(const uint8_t *text, size_t size, uint8_t *buffer, size_t buffer_size,
                       struct wgsl_answer *answer);
uint32_t wgsl_c_format_within(size_t depth, const uint8_t *text, size_t size, uint8_t *buffer,
                              size_t buffer_size, struct wgsl_answer *answer);
uint32_t wgsl_c_tidy(const struct wgsl_layout *layout, const uint8_t *text, size_t size,
                     uint8_t *buffer, size_t buffer_size, struct wgsl_answer *answer);
uint32_t wgsl_c_tidy_within(size_t depth, const struct wgsl_layout *layout, const uint8_t *text,
                            size_t size, uint8_t *buffer, size_t buffer_size,
                            struct wgsl_answer *answer);
uint32_t wgsl_c_minify(uint32_t names, const uint8_t *keep, size_t keep_size, const uint8_t *text,
                       size_t size, uint8_t *buffer, size_t buffer_size,
                       struct wgsl_answer *answer);
uint32_t wgsl_c_minify_within(size_t depth, uint32_t names, const uint8_t *keep, size_t keep_size,
                              const uint8_t *text, size_t size, uint8_t *buffer, size_t buffer_size,
                              struct wgsl_answer *answer);
uint32_t wgsl_c_check(const uint8_t *text, size_t size, uint8_t *buffer, size_t buffer_size,
                      struct wgsl_answer *answer);
uint32_t wgsl_c_check_within(size_t depth, const uint8_t *text, size_t size, uint8_t *buffer,
                             size_t buffer_size, struct wgsl_answer *answer);
uint32_t wgsl_c_snippet(const uint8_t *name, size_t name_size, const uint8_t *text, size_t size,
                        uint8_t *buffer, size_t buffer_size, struct wgsl_answer *answer);
uint32_t wgsl_c_snippet_within(size_t depth, const uint8_t *name, size_t name_size,
                               const uint8_t *text, size_t size, uint8_t *buffer,
                               size_t buffer_size, struct wgsl_answer *answer);
uint32_t wgsl_c_recognize(const uint8_t *text, size_t size, uint8_t *buffer, size_t buffer_size,
                          struct wgsl_answer *answer);
uint32_t wgsl_c_recognize_within(size_t depth, const uint8_t *text, size_t size, uint8_t *buffer,
                                 size_t buffer_size, struct wgsl_answer *answer);
uint32_t wgsl_c_tree(uint32_t kind, const uint8_t *text, size_t size, uint8_t *buffer,
                     size_t buffer_size, struct wgsl_answer *answer);
uint32_t wgsl_c_tree_within(size_t depth, uint32_t kind, const uint8_t *text, size_t size,
                            uint8_t *buffer, size_t buffer_size, struct wgsl_answer *answer);
uint32_t wgsl_c_packed_tree(uint32_t kind, const uint8_t *text, size_t size, uint8_t *buffer,
                            size_t buffer_size, struct wgsl_answer *answer);
uint32_t wgsl_c_packed_tree_within(size_t depth, uint32_t kind, const uint8_t *text, size_t size,
                                   uint8_t *buffer, size_t buffer_size, struct wgsl_answer *answer);
uint32_t wgsl_c_print(const uint8_t *form, size_t size, uint8_t *buffer, size_t buffer_size,
                      struct wgsl_answer *answer);
uint32_t wgsl_c_tokens(const uint8_t *text, size_t size, struct wgsl_token *buffer,
                       size_t buffer_size, struct wgsl_answer *answer);
uint32_t wgsl_c_tokens_with_comments(const uint8_t *text, size_t size, struct wgsl_token *buffer,
                                     size_t buffer_size, struct wgsl_answer *answer);
uint32_t wgsl_c_lists(const uint8_t *text, size_t size, struct wgsl_place *buffer,
                      size_t buffer_size, struct wgsl_answer *answer);
uint32_t wgsl_c_begins_with_list(const uint8_t *text, size_t size, struct wgsl_answer *answer);
uint32_t wgsl_c_nesting(const uint8_t *text, size_t size, struct wgsl_answer *answer);

/* The most bytes that memory has. */
#define WGSL_GREATEST (SIZE_MAX / 2)

/* Returns whether a pointer and a number of items of a size are memory: some other than null,
 * unless the number is 0, and not too much. */
static inline int wgsl_is_memory(const void *at, size_t count, size_t item) {
    return (at != NULL || count == 0) && count <= WGSL_GREATEST / item;
}

/* Returns a pointer that is not null, for memory of no bytes too. It is aligned as every item
 * needs. */
static inline void *wgsl_at(const void *at) {
    static size_t nothing;
    return at != NULL ? (void *)(uintptr_t)at : (void *)&nothing;
}

/* Writes the canonical text of a module into the buffer: without comments, blank lines and the
 * author's line breaks, and with no byte 0 after it. Most texts fit where the buffer is half as
 * large again as the text. */
static inline uint32_t wgsl_format(const char *text, size_t size, char *buffer, size_t buffer_size,
                                   struct wgsl_answer *answer) {
    if (!wgsl_is_memory(text, size, 1) || !wgsl_is_memory(buffer, buffer_size, 1)
        || answer == NULL) {
        return WGSL_BAD_ARGUMENT;
    }
    return wgsl_c_format((const uint8_t *)wgsl_at(text), size, (uint8_t *)wgsl_at(buffer),
                         buffer_size, answer);
}

/* The same as wgsl_format, of a text that may nest a number of levels deep. */
static inline uint32_t wgsl_format_within(size_t depth, const char *text, size_t size, char *buffer,
                                          size_t buffer_size, struct wgsl_answer *answer) {
    if (!wgsl_is_memory(text, size, 1) || !wgsl_is_memory(buffer, buffer_size, 1)
        || answer == NULL) {
        return WGSL_BAD_ARGUMENT;
    }
    return wgsl_c_format_within(depth, (const uint8_t *)wgsl_at(text), size,
                                (uint8_t *)wgsl_at(buffer), buffer_size, answer);
}

/* Writes the formatted text of a module, with its comments, as wgsltidy does, into the buffer; by
 * the standard layout if the layout is null. Names are not checked, so a module with a name that
 * this library does not know is formatted too. */
static inline uint32_t wgsl_tidy(const struct wgsl_layout *layout, const char *text, size_t size,
                                 char *buffer, size_t buffer_size, struct wgsl_answer *answer) {
    static const struct wgsl_layout standard = WGSL_STANDARD_LAYOUT;
    if (!wgsl_is_memory(text, size, 1) || !wgsl_is_memory(buffer, buffer_size, 1)
        || answer == NULL) {
        return WGSL_BAD_ARGUMENT;
    }
    return wgsl_c_tidy(layout != NULL ? layout : &standard, (const uint8_t *)wgsl_at(text), size,
                       (uint8_t *)wgsl_at(buffer), buffer_size, answer);
}

/* The same as wgsl_tidy, of a text that may nest a number of levels deep. */
static inline uint32_t wgsl_tidy_within(size_t depth, const struct wgsl_layout *layout,
                                        const char *text, size_t size, char *buffer,
                                        size_t buffer_size, struct wgsl_answer *answer) {
    static const struct wgsl_layout standard = WGSL_STANDARD_LAYOUT;
    if (!wgsl_is_memory(text, size, 1) || !wgsl_is_memory(buffer, buffer_size, 1)
        || answer == NULL) {
        return WGSL_BAD_ARGUMENT;
    }
    return wgsl_c_tidy_within(depth, layout != NULL ? layout : &standard,
                              (const uint8_t *)wgsl_at(text), size, (uint8_t *)wgsl_at(buffer),
                              buffer_size, answer);
}

/* Writes the minified text of a module into the buffer and, after it, its new names: JSON with a
 * member for each name that got one, such as {"color":"a","size":"b"}. The text is in front of the
 * byte `start` of the answer. It has the tokens of the module's print, with these names, but whole
 * numbers are in hexadecimal if that is shorter, and a `default` that is alone in its clause has
 * no `case`; no text with these tokens is shorter. Comments and empty items are left out. Each use
 * of a name refers to what it referred to before. `names` is one of enum wgsl_names, and
 * WGSL_UNKNOWN is the status for another number. The names of entry points, overrides and members
 * stay, and so do those on the lines of `keep`, which may be empty, and those that may be outside
 * of the module where `@if` leaves their declaration out.
 * Most results fit where the buffer is as large as the text. */
static inline uint32_t wgsl_minify(uint32_t names, const char *keep, size_t keep_size,
                                   const char *text, size_t size, char *buffer, size_t buffer_size,
                                   struct wgsl_answer *answer) {
    if (!wgsl_is_memory(keep, keep_size, 1) || !wgsl_is_memory(text, size, 1)
        || !wgsl_is_memory(buffer, buffer_size, 1) || answer == NULL) {
        return WGSL_BAD_ARGUMENT;
    }
    return wgsl_c_minify(names, (const uint8_t *)wgsl_at(keep), keep_size,
                         (const uint8_t *)wgsl_at(text), size, (uint8_t *)wgsl_at(buffer),
                         buffer_size, answer);
}

/* The same as wgsl_minify, of a text that may nest a number of levels deep. */
static inline uint32_t wgsl_minify_within(size_t depth, uint32_t names, const char *keep,
                                          size_t keep_size, const char *text, size_t size,
                                          char *buffer, size_t buffer_size,
                                          struct wgsl_answer *answer) {
    if (!wgsl_is_memory(keep, keep_size, 1) || !wgsl_is_memory(text, size, 1)
        || !wgsl_is_memory(buffer, buffer_size, 1) || answer == NULL) {
        return WGSL_BAD_ARGUMENT;
    }
    return wgsl_c_minify_within(depth, names, (const uint8_t *)wgsl_at(keep), keep_size,
                                (const uint8_t *)wgsl_at(text), size, (uint8_t *)wgsl_at(buffer),
                                buffer_size, answer);
}

/* Checks whether a text is a module: WGSL_DONE with the size 0, or WGSL_REFUSED. The buffer is for
 * the texts of the fault. */
static inline uint32_t wgsl_check(const char *text, size_t size, char *buffer, size_t buffer_size,
                                  struct wgsl_answer *answer) {
    if (!wgsl_is_memory(text, size, 1) || !wgsl_is_memory(buffer, buffer_size, 1)
        || answer == NULL) {
        return WGSL_BAD_ARGUMENT;
    }
    return wgsl_c_check((const uint8_t *)wgsl_at(text), size, (uint8_t *)wgsl_at(buffer),
                        buffer_size, answer);
}

/* The same as wgsl_check, of a text that may nest a number of levels deep. */
static inline uint32_t wgsl_check_within(size_t depth, const char *text, size_t size, char *buffer,
                                         size_t buffer_size, struct wgsl_answer *answer) {
    if (!wgsl_is_memory(text, size, 1) || !wgsl_is_memory(buffer, buffer_size, 1)
        || answer == NULL) {
        return WGSL_BAD_ARGUMENT;
    }
    return wgsl_c_check_within(depth, (const uint8_t *)wgsl_at(text), size,
                               (uint8_t *)wgsl_at(buffer), buffer_size, answer);
}

/* Checks whether a text is a module, as wgsl_check does. If it is not, the buffer is for lines that
 * show the fault, with a byte 0 after them:
 *
 *     error: unexpected token `=`, expected `identifier`
 *      --> line 2, column 7
 *     const = 2;
 *           ^
 *
 * or, if the name of the file has bytes, as compilers print it, without what was expected:
 *
 *     waves.wgsl:2:7: error: unexpected token `=`
 *     const = 2;
 *           ^
 *
 * A line ends with a line feed, and columns are counted in characters. A `^` is below each
 * character of the fault in its first line, and below its place if there is none. */
static inline uint32_t wgsl_snippet(const char *name, size_t name_size, const char *text,
                                    size_t size, char *buffer, size_t buffer_size,
                                    struct wgsl_answer *answer) {
    if (!wgsl_is_memory(name, name_size, 1) || !wgsl_is_memory(text, size, 1)
        || !wgsl_is_memory(buffer, buffer_size, 1) || answer == NULL) {
        return WGSL_BAD_ARGUMENT;
    }
    return wgsl_c_snippet((const uint8_t *)wgsl_at(name), name_size, (const uint8_t *)wgsl_at(text),
                          size, (uint8_t *)wgsl_at(buffer), buffer_size, answer);
}

/* The same as wgsl_snippet, of a text that may nest a number of levels deep. */
static inline uint32_t wgsl_snippet_within(size_t depth, const char *name, size_t name_size,
                                           const char *text, size_t size, char *buffer,
                                           size_t buffer_size, struct wgsl_answer *answer) {
    if (!wgsl_is_memory(name, name_size, 1) || !wgsl_is_memory(text, size, 1)
        || !wgsl_is_memory(buffer, buffer_size, 1) || answer == NULL) {
        return WGSL_BAD_ARGUMENT;
    }
    return wgsl_c_snippet_within(depth, (const uint8_t *)wgsl_at(name), name_size,
                                 (const uint8_t *)wgsl_at(text), size, (uint8_t *)wgsl_at(buffer),
                                 buffer_size, answer);
}

/* Checks whether a text is a module of a smaller language, the dialect, as wgsl_check does: its
 * names are identifiers only, also after `@`, its sums have no `--`, and fewer nodes have
 * attributes; what attributes, `var` templates and diagnostics contain is not checked. */
static inline uint32_t wgsl_recognize(const char *text, size_t size, char *buffer,
                                      size_t buffer_size, struct wgsl_answer *answer) {
    if (!wgsl_is_memory(text, size, 1) || !wgsl_is_memory(buffer, buffer_size, 1)
        || answer == NULL) {
        return WGSL_BAD_ARGUMENT;
    }
    return wgsl_c_recognize((const uint8_t *)wgsl_at(text), size, (uint8_t *)wgsl_at(buffer),
                            buffer_size, answer);
}

/* The same as wgsl_recognize, of a text that may nest a number of levels deep. */
static inline uint32_t wgsl_recognize_within(size_t depth, const char *text, size_t size,
                                             char *buffer, size_t buffer_size,
                                             struct wgsl_answer *answer) {
    if (!wgsl_is_memory(text, size, 1) || !wgsl_is_memory(buffer, buffer_size, 1)
        || answer == NULL) {
        return WGSL_BAD_ARGUMENT;
    }
    return wgsl_c_recognize_within(depth, (const uint8_t *)wgsl_at(text), size,
                                   (uint8_t *)wgsl_at(buffer), buffer_size, answer);
}

/* Writes the tree of a kind (enum wgsl_tree_kind) that a text is into the buffer, as JSON: each
 * field of each node and its place, as docs/TREE.md says, and no byte 0 after it. WGSL_UNKNOWN where
 * the kind is not one of these. */
static inline uint32_t wgsl_tree(uint32_t kind, const char *text, size_t size, char *buffer,
                                 size_t buffer_size, struct wgsl_answer *answer) {
    if (!wgsl_is_memory(text, size, 1) || !wgsl_is_memory(buffer, buffer_size, 1)
        || answer == NULL) {
        return WGSL_BAD_ARGUMENT;
    }
    return wgsl_c_tree(kind, (const uint8_t *)wgsl_at(text), size, (uint8_t *)wgsl_at(buffer),
                       buffer_size, answer);
}

/* The same as wgsl_tree, of a text that may nest a number of levels deep. */
static inline uint32_t wgsl_tree_within(size_t depth, uint32_t kind, const char *text, size_t size,
                                        char *buffer, size_t buffer_size,
                                        struct wgsl_answer *answer) {
    if (!wgsl_is_memory(text, size, 1) || !wgsl_is_memory(buffer, buffer_size, 1)
        || answer == NULL) {
        return WGSL_BAD_ARGUMENT;
    }
    return wgsl_c_tree_within(depth, kind, (const uint8_t *)wgsl_at(text), size,
                              (uint8_t *)wgsl_at(buffer), buffer_size, answer);
}

/* Writes the tree of a kind (enum wgsl_tree_kind) that a text is, by its packed form, into the
 * buffer: bytes from which wgsl_print prints the tree, and which the functions of wgsl_packed.h
 * read. WGSL_UNKNOWN where the kind is not one of these. Most forms fit where the buffer is ten times
 * as large as the text. */
static inline uint32_t wgsl_packed_tree(uint32_t kind, const char *text, size_t size,
                                        uint8_t *buffer, size_t buffer_size,
                                        struct wgsl_answer *answer) {
    if (!wgsl_is_memory(text, size, 1) || !wgsl_is_memory(buffer, buffer_size, 1)
        || answer == NULL) {
        return WGSL_BAD_ARGUMENT;
    }
    return wgsl_c_packed_tree(kind, (const uint8_t *)wgsl_at(text), size,
                              (uint8_t *)wgsl_at(buffer), buffer_size, answer);
}

/* The same as wgsl_packed_tree, of a text that may nest a number of levels deep. */
static inline uint32_t wgsl_packed_tree_within(size_t depth, uint32_t kind, const char *text,
                                               size_t size, uint8_t *buffer, size_t buffer_size,
                                               struct wgsl_answer *answer) {
    if (!wgsl_is_memory(text, size, 1) || !wgsl_is_memory(buffer, buffer_size, 1)
        || answer == NULL) {
        return WGSL_BAD_ARGUMENT;
    }
    return wgsl_c_packed_tree_within(depth, kind, (const uint8_t *)wgsl_at(text), size,
                                     (uint8_t *)wgsl_at(buffer), buffer_size, answer);
}

/* Writes the printed text of the node that a packed form describes into the buffer: of a tree that
 * wgsl_packed_tree wrote, or of a node of any kind, as docs/TREE.md says. The text does not depend
 * on the spans, and is UTF-8 if the texts in the form are. Other bytes are WGSL_REFUSED with
 * WGSL_NOT_A_FORM. */
static inline uint32_t wgsl_print(const uint8_t *form, size_t size, char *buffer,
                                  size_t buffer_size, struct wgsl_answer *answer) {
    if (!wgsl_is_memory(form, size, 1) || !wgsl_is_memory(buffer, buffer_size, 1)
        || answer == NULL) {
        return WGSL_BAD_ARGUMENT;
    }
    return wgsl_c_print((const uint8_t *)wgsl_at(form), size, (uint8_t *)wgsl_at(buffer),
                        buffer_size, answer);
}

/* Writes the tokens of a text into a buffer for tokens. WGSL_REFUSED where text that is no token
 * ends them: the answer has its place, and the tokens before it are in the buffer, `size` of them.
 * Where the buffer is too small it holds the first ones. */
static inline uint32_t wgsl_tokens(const char *text, size_t size, struct wgsl_token *buffer,
                                   size_t buffer_size, struct wgsl_answer *answer) {
    if (!wgsl_is_memory(text, size, 1) || !wgsl_is_memory(buffer, buffer_size, sizeof *buffer)
        || answer == NULL) {
        return WGSL_BAD_ARGUMENT;
    }
    return wgsl_c_tokens((const uint8_t *)wgsl_at(text), size, (struct wgsl_token *)wgsl_at(buffer),
                         buffer_size, answer);
}

/* Writes the tokens of a text and the comments between them, in order, into a buffer for tokens. A
 * line comment ends before its line break, a block comment after its last sign, and one that is not
 * closed (WGSL_OPEN_COMMENT) at the end of the text. WGSL_REFUSED as in wgsl_tokens: the comments
 * before the text that is no token are the last items. Where the buffer is too small it holds the
 * first ones. */
static inline uint32_t wgsl_tokens_with_comments(const char *text, size_t size,
                                                 struct wgsl_token *buffer, size_t buffer_size,
                                                 struct wgsl_answer *answer) {
    if (!wgsl_is_memory(text, size, 1) || !wgsl_is_memory(buffer, buffer_size, sizeof *buffer)
        || answer == NULL) {
        return WGSL_BAD_ARGUMENT;
    }
    return wgsl_c_tokens_with_comments((const uint8_t *)wgsl_at(text), size,
                                       (struct wgsl_token *)wgsl_at(buffer), buffer_size, answer);
}

/* Writes the template lists of a text into a buffer for places: each from its `<` to after its `>`,
 * in the order of their starts. They are found in comments too. A `<` at which none of them starts
 * begins no template list. Where the buffer is too small it holds the first ones. */
static inline uint32_t wgsl_template_lists(const char *text, size_t size, struct wgsl_place *buffer,
                                           size_t buffer_size, struct wgsl_answer *answer) {
    if (!wgsl_is_memory(text, size, 1) || !wgsl_is_memory(buffer, buffer_size, sizeof *buffer)
        || answer == NULL) {
        return WGSL_BAD_ARGUMENT;
    }
    return wgsl_c_lists((const uint8_t *)wgsl_at(text), size, (struct wgsl_place *)wgsl_at(buffer),
                        buffer_size, answer);
}

/* Checks whether a text begins with a template list, after blank space and comments: `size` is 1
 * where it does, and else 0. */
static inline uint32_t wgsl_begins_with_template_list(const char *text, size_t size,
                                                      struct wgsl_answer *answer) {
    if (!wgsl_is_memory(text, size, 1) || answer == NULL) {
        return WGSL_BAD_ARGUMENT;
    }
    return wgsl_c_begins_with_list((const uint8_t *)wgsl_at(text), size, answer);
}

/* Gives as `size` the greatest number of brackets, blocks, template lists and prefix operators that
 * are open at one place of a text, up to its first invalid token. */
static inline uint32_t wgsl_nesting(const char *text, size_t size, struct wgsl_answer *answer) {
    if (!wgsl_is_memory(text, size, 1) || answer == NULL) {
        return WGSL_BAD_ARGUMENT;
    }
    return wgsl_c_nesting((const uint8_t *)wgsl_at(text), size, answer);
}

/* Returns the name of a kind of token or comment, as the library for Rust has it, such as "SymAnd"
 * of WGSL_SYM_AND, or null if no kind has the number. Written by tools/tables/tokens.py. */
static inline const char *wgsl_token_kind_name(size_t kind) {
    static const char *const names[] = {
        "SymAnd", "SymAndAnd", "SymArrow", "SymAttr", "SymForwardSlash", "SymBang",
        "SymBracketLeft", "SymBracketRight", "SymBraceLeft", "SymBraceRight", "SymColon",
        "SymComma", "SymEqual", "SymEqualEqual", "SymNotEqual", "SymGreaterThan",
        "SymGreaterThanEqual", "SymShiftRight", "SymLessThan", "SymLessThanEqual", "SymShiftLeft",
        "SymModulo", "SymMinus", "SymMinusMinus", "SymPeriod", "SymPlus", "SymPlusPlus", "SymOr",
        "SymOrOr", "SymParenLeft", "SymParenRight", "SymSemicolon", "SymStar", "SymTilde",
        "SymUnderscore", "SymXor", "SymPlusEqual", "SymMinusEqual", "SymTimesEqual",
        "SymDivisionEqual", "SymModuloEqual", "SymAndEqual", "SymOrEqual", "SymXorEqual",
        "SymShiftRightAssign", "SymShiftLeftAssign", "KwAlias", "KwBreak", "KwCase", "KwConst",
        "KwConstAssert", "KwContinue", "KwContinuing", "KwDefault", "KwDiagnostic", "KwDiscard",
        "KwElse", "KwEnable", "KwFalse", "KwFn", "KwFor", "KwIf", "KwLet", "KwLoop", "KwOverride",
        "KwRequires", "KwReturn", "KwStruct", "KwSwitch", "KwTrue", "KwVar", "KwWhile", "Ident",
        "ReservedWord", "AbstractInt", "I32", "U32", "AbstractFloat", "F32", "F16",
        "TemplateArgsStart", "TemplateArgsEnd", "LineComment", "BlockComment", "OpenComment"
    };
    return kind < sizeof names / sizeof *names ? names[kind] : NULL;
}

/* A place of a text as people count it. */
struct wgsl_position {
    /* From 1. A line ends with a line feed. */
    size_t line;
    /* From 1, in characters. */
    size_t column;
};

/* Returns the line and the column of a byte offset of a text, which is read up to there. An offset
 * inside a character counts as the end of that character, and one after the text as the end of the
 * text. */
static inline struct wgsl_position wgsl_position_of(const char *text, size_t size, size_t offset) {
    struct wgsl_position found = {1, 1};
    size_t at;
    for (at = 0; at < size && at < offset; at++) {
        if (text[at] == '\n') {
            found.line++;
            found.column = 1;
        } else if (((unsigned char)text[at] & 0xc0) != 0x80) {
            found.column++;
        }
    }
    return found;
}

#ifdef __cplusplus
}
#endif

#endif
