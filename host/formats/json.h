/*
 * As much of JSON as a list of runs needs: one line is one object, of texts and whole numbers. And
 * of any document the members of one object in it.
 *
 * File names are bytes and JSON is Unicode. A byte that is no part of UTF-8 is written \udcXX, as
 * Python does, and comes back from there.
 */
#ifndef FORMATS_JSON_H
#define FORMATS_JSON_H

#include <stdbool.h>
#include <stddef.h>
#include <stdint.h>
#include <stdio.h>

enum { JSON_MEMBERS = 32 };

struct json_member {
    const char *name, *text; /* the text is NULL for what is none */
    bool whole;              /* a number from 0 on */
    uint64_t number;
};

struct json_object {
    size_t count;
    struct json_member members[JSON_MEMBERS];
};

/* Takes a line apart where it lies: names and texts are in it afterwards. False where it is no such
 * object, has a name twice, or a text with a NUL. */
bool json_take(char *line, struct json_object *object);

/* The text or number of this name; NULL or false where there is none. */
const char *json_text(const struct json_object *object, const char *name);
bool json_number(const struct json_object *object, const char *name, uint64_t *number);

/* How deep values may lie in each other. */
enum { JSON_DEPTH = 64 };

/* A member that is looked for, and what it is. */
struct json_wanted {
    const char *name;
    bool found;
    struct json_member is;
};

/* Takes a document apart where it lies, up to its NUL: one object, with an object of this name in
 * it, of which the members are taken that are wanted. False where it is no such document, or
 * something lies too deep, or that object or one that is wanted is there twice. */
bool json_take_part(char *document, const char *part, struct json_wanted *wanted, size_t count);

/* Prints a text with its quotes. */
void json_print(FILE *to, const char *text);

#endif
