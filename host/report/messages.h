/* What the program says on standard error: complaints, remarks and refusals. */
#ifndef REPORT_MESSAGES_H
#define REPORT_MESSAGES_H

#include <stdbool.h>
#include <stdint.h>
#include <stdio.h>

/* Prints a name or whatever else comes from outside. All but printable ASCII is escaped, as \n, \\
 * or \xE9, so that nothing in a name can pass for a line, move a cursor, or look like another name.
 * Blanks are escaped where fields are told apart by them. */
void print_escaped(FILE *to, const char *text, bool blanks);

/* Says on standard error what failed and why. */
void complain(const char *what, int error);
void complain_text(const char *what, const char *why);

/* The same, with what could not be done and where: `what: step where: error`. */
void complain_at(const char *what, const char *step, const char *where, int error);

/* Says a line of one's own, with what it is about before it unless that is NULL. */
void remark(const char *about, const char *form, ...) __attribute__((format(printf, 2, 3)));

/* Asks, on a line that the answer ends. */
void question(const char *about, const char *what);

/* Says on standard error the number, the place and the sentence of a refusal. The sentence of 8
 * tells of all calls, so there is one for the call at hand; NULL where it gives no 8. */
void say_refusal(uint64_t answer, const char *sentence_of_8);

#endif
