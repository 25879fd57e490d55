/* File names are bytes; XML and JSON want UTF-8. */
#ifndef FORMATS_UTF8_H
#define FORMATS_UTF8_H

#include <stddef.h>

/* Bytes of the character that the text begins with, 1 to 4; 0 where it is none of UTF-8, or the end
 * of the text. */
size_t utf8_length(const char *text);

#endif
