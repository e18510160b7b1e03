/* Calls the exports on many texts, and checks that as many bytes are in use behind each call as before it: where the
 * text is right, faulty or long, where there is too little room, and wherever an allocation is refused. */
#include "changeset.h"
#include "count.h"

#include <stdio.h>
#include <string.h>

enum { MOST = 16777216, FILL = 0xee };

/* a text and its length, a byte more than a changeset may have */
static unsigned char text[MOST + 1];
static size_t len;
static unsigned char out[MOST];
static long checks, writes, inverts, combines, refusals, told, bad;

static void must(int holds, const char *what) {
    if (!holds && ++bad <= 10) printf("%s, a text of %zu bytes\n", what, len);
}

/* changeset_check's answer */
static int64_t check(void) {
    size_t before = in_use, at = 0;
    unsigned long asked_before = asked;
    uint32_t kind = 0;
    int64_t changes = changeset_check(text, len, &at, &kind);
    must(asked == asked_before, "changeset_check asks for memory");
    must(in_use == before, "changeset_check leaves other bytes in use");
    checks++;
    return changes;
}

/* changeset_canonical and changeset_invert */
typedef int64_t write_call(const unsigned char *, size_t, unsigned char *, size_t);

/* a call's answer where the allocation of this number is refused (0: none), and how many it asked for */
static int64_t write_again(write_call *call, size_t room, unsigned long number, unsigned long *count) {
    memset(out, FILL, room);
    size_t before = in_use;
    unsigned long asked_before = asked;
    refused_at = number ? asked + number : 0;
    int64_t answer = call(text, len, out, room);
    refused_at = 0;
    *count = asked - asked_before;
    must(in_use == before, "a call leaves other bytes in use");
    size_t at = answer >= 0 && (size_t)answer <= room ? (size_t)answer : 0;
    while (at < room && out[at] == FILL) at++;
    must(at == room, "a call writes where it mustn't");
    *(call == changeset_invert ? &inverts : &writes) += 1;
    return answer;
}

/* changeset_combine's answer for the text and itself again */
static int64_t combine_again(size_t room, unsigned long number, unsigned long *count) {
    struct changeset_text texts[] = {{text, len}, {text, len}};
    memset(out, FILL, room);
    size_t before = in_use, which = 7, at = 7;
    uint32_t kind = 99;
    unsigned long asked_before = asked;
    refused_at = number ? asked + number : 0;
    int64_t answer = changeset_combine(texts, 2, out, room, &which, &at, &kind);
    refused_at = 0;
    *count = asked - asked_before;
    must(in_use == before, "changeset_combine leaves other bytes in use");
    must((kind == 99) == (answer != CHANGESET_NONE), "changeset_combine sets a kind for no fault");
    size_t end = answer >= 0 && (size_t)answer <= room ? (size_t)answer : 0;
    while (end < room && out[end] == FILL) end++;
    must(end == room, "changeset_combine writes where it mustn't");
    combines++;
    return answer;
}

/* the text combined with itself, and each of the allocations for that refused */
static void combine(int64_t changes) {
    unsigned long count, ignored;
    int64_t answer = combine_again(len <= MOST ? len : MOST, 0, &count);
    must((changes < 0) == (answer == CHANGESET_NONE), "changeset_combine reads otherwise");
    must(answer != CHANGESET_NO_MEMORY, "changeset_combine is out of memory where none is refused");
    for (unsigned long number = 1; number <= count; number++) {
        int64_t now = combine_again(0, number, &ignored);
        must(now == answer || now == CHANGESET_NO_MEMORY, "changeset_combine answers wrongly without memory");
        refusals++;
        told += now == CHANGESET_NO_MEMORY;
    }
}

/* the call on the text with several rooms, and each of its allocations refused */
static void write_text(write_call *call, int64_t changes) {
    unsigned long count, ignored;
    int64_t answer = write_again(call, 0, 0, &count);
    must((changes < 0) == (answer < 0), "the exports disagree");
    size_t enough = answer > 0 ? (size_t)answer : 0, rooms[] = {0, enough ? enough - 1 : 0, enough, len};
    for (int i = 0; i < 4; i++) {
        size_t room = rooms[i] <= MOST ? rooms[i] : MOST;
        must(write_again(call, room, 0, &count) == answer, "a call answers differently");
        for (unsigned long number = 1; number <= count; number++) {
            int64_t now = write_again(call, room, number, &ignored);
            must(now == answer || (answer >= 0 && now == CHANGESET_NO_MEMORY), "a call answers wrongly without memory");
            refusals++;
            told += now == CHANGESET_NO_MEMORY;
        }
    }
}

/* all calls on the text */
static void call(void) {
    int64_t changes = check();
    write_text(changeset_canonical, changes);
    write_text(changeset_invert, changes);
    combine(changes);
}

static void put(const void *bytes, size_t count) {
    memcpy(text + len, bytes, count);
    len += count;
}

#define PUT(literal) put(literal, sizeof literal - 1)

/* an INSERT of a key and a BLOB of so many bytes, as long as four bytes of a length can say */
static void put_insert(unsigned key, size_t size) {
    unsigned char change[] = {0x12, 0, 1, 0, 0, 0, 0, 0, 0, key >> 8 & 255, key & 255, 4, 128 | size >> 21,
        128 | (size >> 14 & 127), 128 | (size >> 7 & 127), size & 127};
    put(change, sizeof change);
    memset(text + len, 'x', size);
    len += size;
}

int main(void) {
    call(); /* the empty text */

    /* three sections of two tables, every operation, and spellings that aren't the shortest */
    PUT("T\x80\x02\x01\0t\0" "\x12\5\1\0\0\0\0\0\0\0\1\3\x80\1x" "\x17\0\1\0\0\0\0\0\0\0\1\3\1x\0\5");
    PUT("T\1\1u\0" "\x12\0\4\2ab" "T\2\1\0t\0" "\x09\1\1\0\0\0\0\0\0\0\2\1\0\0\0\0\0\0\0\3");
    size_t whole = len;
    must(check() == 4, "changeset_check counts wrongly");
    for (len = 0; len <= whole; len++) call();
    len = whole;
    for (size_t at = 0; at < whole; at++) {
        unsigned char kept = text[at];
        for (int byte = 0; byte < 256; byte++) text[at] = (unsigned char)byte, call();
        text[at] = kept;
    }

    /* many changes */
    len = 0;
    PUT("T\2\1\0t\0");
    for (unsigned key = 0; key < 500; key++) put_insert(key, 40);
    must(check() == 500, "changeset_check counts wrongly");
    call();


    /* the longest text, and a byte more */
    len = 0;
    PUT("T\2\1\0t\0");
    put_insert(1, MOST - len - 16);
    must(check() == 1 && len == MOST, "the longest text is refused");
    call();
    text[len++] = 0x12;
    must(check() == CHANGESET_NONE, "too long a text is taken");
    call();

    must(refusals > 0 && told > 0, "no allocation was seen, so none was refused");
    size_t left = in_use;
    printf("%ld calls of changeset_check, %ld of changeset_canonical, %ld of changeset_invert, %ld of changeset_combine\n",
        checks, writes, inverts, combines);
    printf("an allocation was refused in %ld, of which %ld told it\n", refusals, told);
    printf("in use at the end %zu bytes, at most %zu; %ld faults\n", left, most_in_use, bad);
    return bad != 0;
}
