#include "fields.h"

#include <string.h>

unsigned char *put_integer(unsigned char *at, uint64_t number) {
    *at++ = INTEGER;
    for (int shift = 56; shift >= 0; shift -= 8) *at++ = (unsigned char)(number >> shift);
    return at;
}

unsigned char *put_varint(unsigned char *at, size_t number) {
    int more = 0;
    while (more < 3 && number >> (7 * (more + 1)) != 0) more++;
    for (; more > 0; more--) *at++ = (unsigned char)(128 | (number >> (7 * more) & 127));
    *at++ = (unsigned char)(number & 127);
    return at;
}

unsigned char *put_bytes(unsigned char *at, int type, size_t len, int fill) {
    *at++ = (unsigned char)type;
    at = put_varint(at, len);
    memset(at, fill, len);
    return at + len;
}
