/* Renames in a shader: rename OLD NEW reads it from the standard input, and writes it with NEW in
   place of each name OLD, whatever that names. All else stays, but names in comments are not
   renamed. The status is that of the library. */
#include <stdio.h>
#include <string.h>

#include "wgsl.h"

static char text[1 << 16];

/* There is at most a token for each byte. */
static struct wgsl_token tokens[sizeof text];

/* Returns whether a token of a text is a name that is spelled so. */
static int is_called(const char *of, const struct wgsl_token *token, const char *name) {
    size_t size = strlen(name);
    return token->kind == WGSL_IDENT && token->end - token->start == size
        && memcmp(of + token->start, name, size) == 0;
}

/* Returns whether a text is a name. */
static int is_name(const char *name) {
    struct wgsl_answer answer;
    struct wgsl_token token;
    return wgsl_tokens(name, strlen(name), &token, 1, &answer) == WGSL_DONE && answer.size == 1
        && is_called(name, &token, name);
}

/* Writes the text of these sizes with the second name in place of the first one. */
static void write_renamed(size_t size, size_t count, char **names) {
    size_t at, written = 0;
    for (at = 0; at < count; at++) {
        if (!is_called(text, tokens + at, names[0])) continue;
        fwrite(text + written, 1, tokens[at].start - written, stdout);
        fputs(names[1], stdout);
        written = tokens[at].end;
    }
    fwrite(text + written, 1, size - written, stdout);
}

int main(int count, char **arguments) {
    struct wgsl_answer answer;
    uint32_t status;
    size_t size;
    if (count != 3 || !is_name(arguments[1]) || !is_name(arguments[2])) {
        fprintf(stderr, "usage: rename OLD NEW\n");
        return WGSL_BAD_ARGUMENT;
    }
    size = fread(text, 1, sizeof text, stdin);
    if (size == sizeof text) return WGSL_TOO_SMALL;
    status = wgsl_tokens(text, size, tokens, sizeof text, &answer);
    if (status == WGSL_REFUSED) {
        struct wgsl_position at = wgsl_position_of(text, size, answer.start);
        fprintf(stderr, "%zu:%zu: error: %s\n", at.line, at.column, WGSL_INVALID_TOKEN_MESSAGE);
    }
    if (status == WGSL_DONE) write_renamed(size, answer.size, arguments + 1);
    return (int)status;
}
