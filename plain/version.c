#include "mahyrei_plain.h"

const char *mahyrei_version(void) {
    return MAHYREI_VERSION;
}
