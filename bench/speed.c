/* Measures how many megabytes of the standard input a second the library takes: speed WHAT TURNS,
   where WHAT is bytes (a loop over them, to compare with), lists (the template lists), check
   (read to a tree that is dropped) or format (the same, and the printed text). */
#define _POSIX_C_SOURCE 199309L
#include <stdio.h>
#include <stdlib.h>
#include <string.h>
#include <time.h>

#include "wgsl.h"

/* A text, and the buffer for what a call writes. */
struct given {
    char *text;
    size_t size;
    void *buffer;
    size_t buffer_size;
    struct wgsl_answer answer;
};

static uint32_t count_ends(struct given *it) {
    size_t at, count = 0;
    for (at = 0; at < it->size; at++) count += it->text[at] == ';';
    it->answer.size = count;
    return WGSL_DONE;
}

static uint32_t give_lists(struct given *it) {
    return wgsl_template_lists(it->text, it->size, it->buffer, it->buffer_size, &it->answer);
}

static uint32_t check(struct given *it) {
    return wgsl_check(it->text, it->size, it->buffer, it->buffer_size, &it->answer);
}

static uint32_t format(struct given *it) {
    return wgsl_format(it->text, it->size, it->buffer, it->buffer_size, &it->answer);
}

/* What is measured: its name, its call, and the bytes of an item that it writes. */
static const struct measured {
    const char *name;
    uint32_t (*call)(struct given *);
    size_t item;
} all[] = {
    {"bytes", count_ends, 1},
    {"lists", give_lists, sizeof(struct wgsl_place)},
    {"check", check, 1},
    {"format", format, 1},
};

/* The measurement with a name; null where there is none. */
static const struct measured *named(const char *name) {
    size_t at;
    for (at = 0; at < sizeof all / sizeof *all; at++) {
        if (strcmp(all[at].name, name) == 0) return &all[at];
    }
    return NULL;
}

/* Reads the standard input; returns whether there was memory for it. */
static int read_text(struct given *it) {
    size_t capacity = 0, count = 1;
    while (count > 0) {
        if (it->size == capacity) {
            char *grown = realloc(it->text, capacity = 2 * capacity + 4096);
            if (grown == NULL) return 0;
            it->text = grown;
        }
        count = fread(it->text + it->size, 1, capacity - it->size, stdin);
        it->size += count;
    }
    return 1;
}

/* Allocates the buffer for what a call writes of the text; returns whether there was memory. */
static int make_buffer(const struct measured *what, struct given *it) {
    what->call(it);
    it->buffer = malloc(it->answer.size * what->item + 1);
    it->buffer_size = it->answer.size;
    return it->buffer != NULL;
}

static double seconds(void) {
    struct timespec now;
    clock_gettime(CLOCK_MONOTONIC, &now);
    return (double)now.tv_sec + (double)now.tv_nsec / 1e9;
}

/* The seconds that `turns` calls take; less than 0 where the text was rejected. */
static double measure(const struct measured *what, struct given *it, long turns) {
    double start = seconds();
    for (; turns > 0; turns--) {
        if (what->call(it) != WGSL_DONE) return -1;
    }
    return seconds() - start;
}

int main(int count, char **words) {
    const struct measured *what = count == 3 ? named(words[1]) : NULL;
    long turns = what != NULL ? atol(words[2]) : 0;
    struct given it = {0};
    double took, bytes;
    if (turns < 1) {
        fprintf(stderr, "usage: speed bytes|lists|check|format TURNS < TEXT\n");
        return 5;
    }
    if (!read_text(&it) || !make_buffer(what, &it)) {
        fprintf(stderr, "out of memory\n");
        return 3;
    }
    took = measure(what, &it, turns);
    if (took < 0) {
        fprintf(stderr, "%s: the text was refused\n", what->name);
        return 1;
    }
    bytes = (double)it.size * (double)turns;
    printf("%s: %.1f MB/s, %.1f ns a byte, %lu given\n", what->name, bytes / 1e6 / took,
           took * 1e9 / bytes, (unsigned long)it.answer.size);
    return 0;
}
