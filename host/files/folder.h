/* A folder that outputs go to. */
#ifndef FILES_FOLDER_H
#define FILES_FOLDER_H

#include <stdbool.h>

/* Makes it where there is none, and brings its name to the disk; what is wrong has been said. */
bool folder_ready(const char *name);

#endif
