/*
 * The file that an output is written to before it takes its name. It goes when the program fails,
 * and when a signal other than SIGKILL ends it; there is one at a time.
 */
#ifndef SYSTEM_TEMPORARY_H
#define SYSTEM_TEMPORARY_H

#include <stdbool.h>
#include <sys/types.h>

/* Sets what signals do. Comes first: a full pipe and a file size limit are errors of write(2)
 * then, and a signal that ends the program takes the temporary file along and calls `at_end`, which
 * runs in the handler. */
bool watch_signals(void (*at_end)(void));

/* Makes the file in this folder, with this mode less the umask, and opens it for writing; -1 and
 * errno where that fails. The folder stays open as long as the file is there. */
int temporary_make(int folder, mode_t mode);

/* Gives it its name in that folder, in place of a file that has it. On failure (errno) it is still
 * there. */
bool temporary_name(const char *name);

/* Gives it a name that no file has; otherwise EEXIST. */
bool temporary_name_new(const char *name);

/* Removes it, if there is one; errno stays. */
void temporary_remove(void);

#endif
