/* Who may do what with a file that takes the place of another. */
#ifndef SYSTEM_ACCESS_H
#define SYSTEM_ACCESS_H

#include <stdbool.h>

/*
 * Gives an open file, which nobody but its owner may use yet, the owner, group, access list and
 * mode of an old one that is open too, as far as the system allows. Whatever is not allowed, nobody
 * may do more with it than with the old one, except its owner, who is whoever made it; `exactly`
 * says whether all of it was kept. False and errno where a mode cannot be set at all.
 */
bool keep_access(int file, int old_file, bool *exactly);

#endif
