#include "files/folder.h"

#include <errno.h>
#include <sys/stat.h>

#include "report/messages.h"
#include "system/appending.h"

bool folder_ready(const char *name) {
    struct stat status;
    const bool made = mkdir(name, 0777) == 0;
    if ((!made && errno != EEXIST) || stat(name, &status) != 0) {
        complain(name, errno);
        return false;
    }
    if (!S_ISDIR(status.st_mode)) {
        complain(name, ENOTDIR);
        return false;
    }
    /* A folder that a scan before this one has made, and which was cut short, may not be there
     * after a power cut; where the folder above cannot be opened, only one that was made here. */
    if (!sync_name(name) && (made || errno != EACCES)) {
        complain(name, errno);
        return false;
    }
    return true;
}
