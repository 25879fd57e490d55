/*
 * mahyrei: writes and reads runs from the command line. Every question about a run is put to the
 * library; here are only files, buffers to lend, and words for the answer.
 */
#include <fcntl.h>

#include "commands/command_line.h"
#include "report/progress.h"
#include "system/temporary.h"

/* A standard file that was handed over closed is opened, input and output so that they fail,
 * messages so that they go nowhere. Else an output could take its number, and get the messages. */
static bool hold_standard_files(void) {
    static const int WAYS[] = {O_WRONLY, O_RDONLY, O_WRONLY};
    for (int file = 0; file < 3; file++) {
        if (fcntl(file, F_GETFD) == -1 && open("/dev/null", WAYS[file]) != file) {
            return false;
        }
    }
    return true;
}

int main(int argc, char *argv[]) {
    if (argc < 1 || !hold_standard_files() || !watch_signals(progress_wipe)) {
        return FAILED;
    }
    return (int)obey(argc, argv);
}
