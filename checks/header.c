/* Calls the exports as include/changeset.h says: operand order, types and results. checks/header.sh compiles it as C
 * and as C++. */
#include "changeset.h"
#include <stdio.h>
#include <string.h>

/* table t with one key column; INSERT of key 1 with the indirect byte 7, which the canonical text spells as 1 */
static const unsigned char one_change[] = {'T', 1, 1, 't', 0, 18, 7, 1, 0, 0, 0, 0, 0, 0, 0, 1};
static const unsigned char canonical[] = {'T', 1, 1, 't', 0, 18, 1, 1, 0, 0, 0, 0, 0, 0, 0, 1};
/* UPDATE of key 1 in a table `u` of a key and one more column, from 5 to 6; INSERT of its row with 5, and with 6 */
static const unsigned char updated[] = {'T', 2, 1, 0, 'u', 0, 23, 0, 1, 0, 0, 0, 0, 0, 0, 0, 1, 1, 0, 0,
                                        0,   0, 0, 0, 0,   5, 0,  1, 0, 0, 0, 0, 0, 0, 0, 6};
static const unsigned char inserted[] = {'T', 2, 1, 0, 'u', 0, 18, 0, 1, 0, 0, 0, 0, 0,
                                         0,   0, 1, 1, 0,   0, 0,  0, 0, 0, 0, 5};
static const unsigned char inserted_last[] = {'T', 2, 1, 0, 'u', 0, 18, 0, 1, 0, 0, 0, 0, 0,
                                              0,   0, 1, 1, 0,   0, 0,  0, 0, 0, 0, 6};
/* a section of table t without changes, and one of table u with another shape */
static const unsigned char clashing[] = {'T', 1, 1, 't', 0, 'T', 1, 1, 'u', 0};
/* the inverse of the UPDATE */
static const unsigned char back[] = {'T', 2, 1, 0, 'u', 0, 23, 0, 1, 0, 0, 0, 0, 0, 0, 0, 1, 1, 0, 0,
                                     0,   0, 0, 0, 0,   6, 0,  1, 0, 0, 0, 0, 0, 0, 0, 5};
static int bad;

static void holds(const char *name, int is) {
    printf("%s %s\n", is ? "ok" : "FAILED", name);
    bad |= !is;
}

static struct changeset_text text_of(const unsigned char *bytes, size_t len) {
    struct changeset_text text;
    text.bytes = bytes;
    text.len = len;
    return text;
}

static void combines(void) {
    size_t index = 55, at = 99;
    uint32_t kind = 77;
    unsigned char out[64], none = 5;
    const int64_t len = sizeof inserted_last;
    struct changeset_text texts[2];
    texts[0] = text_of(inserted, sizeof inserted);
    texts[1] = text_of(updated, sizeof updated);

    memset(out, 0xee, sizeof out);
    holds("no texts have an empty text", changeset_combine(texts, 0, out, sizeof out, &index, &at, &kind) == 0);
    holds("a room of 0 asks for the combined length",
          changeset_combine(texts, 2, &none, 0, &index, &at, &kind) == len && none == 5);
    holds("less room than that changes nothing",
          changeset_combine(texts, 2, out, sizeof inserted_last - 1, &index, &at, &kind) == len && out[0] == 0xee);
    holds("an INSERT and an UPDATE become one INSERT",
          changeset_combine(texts, 2, out, sizeof out, &index, &at, &kind) == len &&
              !memcmp(out, inserted_last, sizeof inserted_last));
    holds("the bytes after it do not change", out[sizeof inserted_last] == 0xee && out[sizeof out - 1] == 0xee);
    holds("its index, place and kind do not change", index == 55 && at == 99 && kind == 77);

    memset(out, 0xee, sizeof out);
    texts[1] = text_of(clashing, sizeof clashing);
    holds("a table of another shape clashes",
          changeset_combine(texts, 2, out, sizeof out, &index, &at, &kind) == CHANGESET_CLASH && out[0] == 0xee);
    holds("the text and its section are told, and no kind", index == 1 && at == 1 && kind == 77);
    texts[0] = text_of(clashing, sizeof clashing);
    texts[1] = text_of(updated, 12);
    holds("a text that is cut can't be added",
          changeset_combine(texts, 2, out, sizeof out, &index, &at, &kind) == CHANGESET_NONE && out[0] == 0xee);
    holds("the text and its fault are told", index == 1 && at == 12 && kind == CHANGESET_TRUNCATED);
}

static void inverts(void) {
    unsigned char out[64], none = 5;
    const int64_t len = sizeof back;
    memset(out, 0xee, sizeof out);
    holds("a room of 0 asks for the inverse's length", changeset_invert(updated, sizeof updated, &none, 0) == len && none == 5);
    holds("less room than that changes nothing",
          changeset_invert(updated, sizeof updated, out, sizeof back - 1) == len && out[0] == 0xee);
    holds("an UPDATE is inverted",
          changeset_invert(updated, sizeof updated, out, sizeof out) == len && !memcmp(out, back, sizeof back));
    holds("the bytes after it do not change", out[sizeof back] == 0xee && out[sizeof out - 1] == 0xee);
    holds("a faulty text has no inverse", changeset_invert(updated, 12, out, sizeof out) == CHANGESET_NONE);
}

int main(void) {
    size_t at = 99;
    uint32_t kind = 77;
    unsigned char out[32], none = 5;
    holds("a changeset's changes are counted", changeset_check(one_change, sizeof one_change, &at, &kind) == 1);
    holds("its place and kind do not change", at == 99 && kind == 77);
    holds("an empty text has no changes", changeset_check(&none, 0, &at, &kind) == 0);
    holds("a text that is cut has a fault", changeset_check(one_change, 10, &at, &kind) == CHANGESET_NONE);
    holds("at its end", at == 10);
    holds("which is of its kind", kind == CHANGESET_TRUNCATED);

    memset(out, 0xee, sizeof out);
    holds("a room of 0 asks for the length",
          changeset_canonical(one_change, sizeof one_change, &none, 0) == (int64_t)sizeof canonical && none == 5);
    holds("less room than that changes nothing",
          changeset_canonical(one_change, sizeof one_change, out, sizeof canonical - 1) == (int64_t)sizeof canonical &&
              out[0] == 0xee);
    holds("the canonical text is written",
          changeset_canonical(one_change, sizeof one_change, out, sizeof out) == (int64_t)sizeof canonical &&
              !memcmp(out, canonical, sizeof canonical));
    holds("the bytes after it do not change", out[sizeof canonical] == 0xee && out[sizeof out - 1] == 0xee);
    holds("a changeset without changes has an empty text", changeset_canonical(one_change, 5, out, sizeof out) == 0);
    holds("a faulty text has none", changeset_canonical(one_change, 10, out, sizeof out) == CHANGESET_NONE);
    inverts();
    combines();
    return bad;
}
