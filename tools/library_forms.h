/* Packed forms of nodes: one of each kind that is printed by itself, and some that are rejected. */
#ifndef LIBRARY_FORMS_H
#define LIBRARY_FORMS_H

#include <stddef.h>

/* A number whose lowest byte is given, and a text after how many bytes it has. */
#define NUMBER(byte) byte "\0\0\0\0\0\0\0"
#define TEXT(size, text) NUMBER(size) text
#define GREATEST "\377\377\377\377\377\377\377\377"
#define SPAN NUMBER("\0") NUMBER("\0")
/* Nodes after the numbers of their rules, of which docs/TREE.md says where they are. */
#define NOTHING "\23"
#define NAME(name) "\14" TEXT("\1", name)
#define MUST_USE "\36" TEXT("\10", "must_use")
#define BLOCK "\74" NOTHING "\100"
#define OPENED_BLOCK "\74" NOTHING "\102"

/* The bytes of a form, and how many they are. */
#define FORM(bytes) bytes, sizeof(bytes) - 1

/* A form, and its printed text. */
static const struct printed_form {
    const char *form;
    size_t size;
    const char *text;
} printed_forms[] = {
    {FORM("\120" NOTHING NOTHING), "\n"},
    {FORM("\124" NOTHING "\14" TEXT("\3", "f16")), "enable f16;"},
    {FORM("\73\72" NOTHING), ";"},
    {FORM("\73\61" NOTHING), "break;"},
    {FORM("\3" TEXT("\13", "-2147483648")), "-2147483648i"},
    {FORM("\14" TEXT("\3", "\"\\\x1f")), "\"\\\x1f"},
    {FORM(MUST_USE), "@must_use"},
    {FORM("\134" NOTHING TEXT("\1", "a") NAME("b")), "a: b"},
    {FORM("\134\34" SPAN MUST_USE TEXT("\1", "a") NAME("b")), "@must_use a: b"},
    {FORM("\51\52" TEXT("\7", "storage") "\42" TEXT("\4", "read")), "var<storage, read>"},
    {FORM("\25" NUMBER("\3") GREATEST NAME("a")), "a"},
    {FORM("\104" SPAN NAME("a") BLOCK), "if a {\n\n}"},
    {FORM("\105" NOTHING SPAN NAME("a") BLOCK), "else if a {\n\n}"},
    {FORM("\106" NOTHING BLOCK), "else {\n\n}"},
    {FORM("\112" NOTHING "\27\71" BLOCK), "case default {\n\n}"},
    {FORM("\115" NOTHING OPENED_BLOCK NOTHING), "continuing {\n\n}"},
    {FORM("\70" NOTHING NUMBER("\1") NUMBER("\2") NAME("a")), "break if a;"},
    {FORM("\46" TEXT("\1", "T") "\30" NAME("a") "\27" NAME("b")), "T, a | b"},
};

/* Bytes that are no packed form: none; the number of no rule; a rule without what is in it; two
 * forms; a number and a span that end too early; a text that does, and one that is too long; a
 * level less than none. */
static const struct refused_form {
    const char *form;
    size_t size;
} refused_forms[] = {
    {FORM("")},
    {FORM("\137")},
    {FORM("\73")},
    {FORM("\71\71")},
    {FORM("\14\1\0\0\0\0\0\0")},
    {FORM("\25" NUMBER("\0"))},
    {FORM("\14" TEXT("\2", "a"))},
    {FORM("\14" GREATEST "a")},
    {FORM("\77")},
};

#endif
