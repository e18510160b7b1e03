/* The messages between a replica and a source. */
#include "wire.h"
#include <string.h>

void gz_write_request(unsigned char out[GZ_REQUEST_BYTES], const struct gz_request *it) {
    memcpy(out, "gzQ1", 4), gz_put(out + 4, it->wait_ms, 4), memcpy(out + 8, it->id, 16);
    memcpy(out + 24, it->at.name, 16), gz_put(out + 40, it->at.front, 8);
}

bool gz_read_request(const unsigned char in[GZ_REQUEST_BYTES], struct gz_request *it) {
    it->wait_ms = (uint32_t)gz_get(in + 4, 4), memcpy(it->id, in + 8, 16), memcpy(it->at.name, in + 24, 16);
    it->at.front = gz_get(in + 40, 8);
    return !memcmp(in, "gzQ1", 4);
}

void gz_write_answer(unsigned char out[GZ_ANSWER_HEAD], const struct gz_answer *it) {
    memcpy(out, "gzA1", 4), out[4] = (unsigned char)it->kind, out[5] = it->is_foreign, out[6] = out[7] = 0;
    memcpy(out + 8, it->name, 16), gz_put(out + 24, it->first, 8), gz_put(out + 32, it->last, 8);
    gz_put(out + 40, it->front, 8), gz_put(out + 48, it->len, 8), gz_put(out + 56, 0, 8);
}

bool gz_read_answer(const unsigned char in[GZ_ANSWER_HEAD], struct gz_answer *it) {
    it->kind = in[4], it->is_foreign = in[5], memcpy(it->name, in + 8, 16), it->first = gz_get(in + 24, 8);
    it->last = gz_get(in + 32, 8), it->front = gz_get(in + 40, 8), it->len = gz_get(in + 48, 8);
    if (memcmp(in, "gzA1", 4) || in[4] < GZ_ENTRIES || in[4] > GZ_TROUBLE || it->len > GZ_MOST_ANSWER) return false;
    return it->kind != GZ_ENTRIES || (it->first && it->first <= it->last && it->last <= it->front);
}
