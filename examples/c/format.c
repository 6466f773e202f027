/* Formats a shader: format FILE writes its canonical text, or what is wrong with it. */
#include <stdio.h>
#include <stdlib.h>

#include "wgsl.h"

/* Returns all bytes of a file, or null. */
static char *read_all(const char *name, size_t *size) {
    FILE *file = fopen(name, "rb");
    char *text = NULL;
    size_t capacity = 0, count = 1;
    *size = 0;
    while (file != NULL && count > 0) {
        if (*size == capacity) {
            capacity = 2 * capacity + 4096;
            char *grown = realloc(text, capacity);
            if (grown == NULL) {
                break;
            }
            text = grown;
        }
        count = fread(text + *size, 1, capacity - *size, file);
        *size += count;
    }
    if (file == NULL || count > 0 || ferror(file)) {
        free(text);
        text = NULL;
    }
    if (file != NULL) {
        fclose(file);
    }
    return text;
}

/* Reports what is wrong with a text, and where, by the message of the fault. */
static void report(const char *name, struct wgsl_position at, const char *message) {
    fprintf(stderr, "%s:%zu:%zu: error: %s\n", name, at.line, at.column, message);
}

int main(int count, char **arguments) {
    if (count != 2) {
        fprintf(stderr, "usage: format FILE\n");
        return 5;
    }
    size_t size;
    char *text = read_all(arguments[1], &size);
    if (text == NULL) {
        perror(arguments[1]);
        return 4;
    }
    struct wgsl_answer answer = {0};
    size_t buffer_size = size + size / 2 + 256;
    char *buffer = malloc(buffer_size);
    uint32_t status = WGSL_OUT_OF_MEMORY;
    while (buffer != NULL) {
        status = wgsl_format(text, size, buffer, buffer_size, &answer);
        if (answer.size <= buffer_size) {
            break;
        }
        buffer_size = answer.size;
        free(buffer);
        buffer = malloc(buffer_size);
    }
    if (buffer == NULL) {
        status = WGSL_OUT_OF_MEMORY;
    }
    switch (status) {
    case WGSL_DONE:
        fwrite(buffer, 1, answer.size, stdout);
        break;
    case WGSL_REFUSED:
    case WGSL_TOO_DEEP:
        report(arguments[1], wgsl_position_of(text, size, answer.start), buffer);
        break;
    case WGSL_NOT_UTF8:
        report(arguments[1], wgsl_position_of(text, size, answer.start), "this is not UTF-8");
        break;
    default:
        fprintf(stderr, "out of memory\n");
    }
    free(buffer);
    free(text);
    return fflush(stdout) == 0 && !ferror(stdout) ? (int)status : 4;
}
