/* The answer of the last call, and what may be said of it. */
#ifndef LIBRARY_ANSWERS_H
#define LIBRARY_ANSWERS_H

#include "library_check.h"
#include "wgsl.h"

static struct wgsl_answer answer;

static int is_answer(size_t size, size_t start, size_t end, size_t kind, size_t expected) {
    return answer.size == size && answer.start == start && answer.end == end && answer.kind == kind
        && answer.expected == expected;
}

static int is_size(size_t size) { return is_answer(size, 0, 0, 0, 0); }

/* Returns whether a buffer is as it was filled: with one byte again and again. */
static int is_filled(const char *buffer, size_t size) {
    while (size > 0 && buffer[size - 1] == '#') size--;
    return size == 0;
}

#endif
