/* Bound into the archive by tools/archive: the compiler clears the room of arrays by a call of memset, and the archive has to link where there is
 * no C library. */
#include <stddef.h>

void *memset(void *to, int value, size_t count) {
    unsigned char *at = to;

    for (size_t i = 0; i < count; i++) {
        at[i] = (unsigned char)value;
    }
    return to;
}
