#include "files/bytes.h"

#include <errno.h>
#include <stdlib.h>

#include "report/messages.h"

bool make_buffer(size_t len, struct bytes *buffer) {
    buffer->len = len;
    buffer->at = len == 0 ? NULL : malloc(len);
    if (len > 0 && buffer->at == NULL) {
        complain("memory", ENOMEM);
        return false;
    }
    return true;
}
