/* Answers a script by the calls of broker.h, in the words of docs/SCRIPT.md.
 *
 *     ./cases [--cut N] [--batch N] [--window N] [--timeout N] [--capacity N] [--intake N] [--numbers] [--strict] <FILE
 *
 * With `--cut N` it feeds the bytes of each `feed` line in pieces of N. Each piece but the last must be taken, or be
 * refused as the last one is. The status is 3 where `--strict` stops the script, and 1 if a call does what it mustn't.
 *
 * These have no call, and are done here:
 * - `table HEX` adds one table, and broker_open takes all of them. So each such line opens a broker anew, with the
 *   tables before it. Bytes that are no header are refused here. Which headers are tables, broker_open says.
 * - `refused Line` and `refused LineTooLong` say that a line has no form. A call has no lines.
 * - `--numbers` and `--strict` say how answers are printed, and where a script stops. */
#define _POSIX_C_SOURCE 200809L
#include "answers.h"

#include <stdio.h>
#include <stdlib.h>
#include <string.h>
#include <sys/types.h>

enum { LINE_LIMIT = 65536 };
static bool tables_ended, numbered, strict;

/* The lines, and the kinds of the words after the name: `n` a number, `h` bytes, `b` 0 or 1. */
static const struct line {
    const char *name, *kinds;
    answering *answer;
} LINES[] = {
    {"table", "h", add_table},     {"publisher", "", publisher},     {"feed", "nh", feed},
    {"reset", "n", reset},         {"end", "n", end},                {"send", "n", send_staged},
    {"withdraw", "nn", withdraw},  {"turn", "", turn},               {"close", "", close_sequence},
    {"subscribe", "n", subscribe}, {"take", "nn", take},             {"takeany", "n", take_any},
    {"accept", "n", accept},       {"crash", "nb", crash},           {"ack", "n", ack},
    {"nack", "n", nack},           {"nackopen", "n", nack_opened},   {"expire", "n", expire},
    {"reconnect", "nn", reconnect},{"resume", "n", resume},          {"unsubscribe", "n", unsubscribe},
    {"entry", "n", entry},         {"combine", "nn", combine},       {"rows", "n", rows},
    {"left", "", left},
};

static bool read_number(const char *word, size_t len, uint64_t *number) {
    if (len == 0 || (word[0] == '0' && len > 1)) return false;
    *number = 0;
    for (size_t i = 0; i < len; i++) {
        if (word[i] < '0' || word[i] > '9') return false;
        uint64_t digit = (uint64_t)(word[i] - '0');
        if (*number > (UINT64_MAX - digit) / 10) return false;
        *number = *number * 10 + digit;
    }
    return true;
}

static int read_digit(char it) {
    static const char digits[] = "0123456789abcdef0123456789ABCDEF";
    const char *at = it ? strchr(digits, it) : NULL;
    return at ? (int)(at - digits) % 16 : -1;
}

static bool read_bytes(const char *word, size_t len, struct operands *o) {
    if (len == 0 || o->bytes) return false;
    o->bytes = some_memory(malloc(len));
    if (len == 1 && word[0] == '-') return true;
    for (size_t i = 0; i + 1 < len; i += 2) {
        int high = read_digit(word[i]), low = read_digit(word[i + 1]);
        if (high < 0 || low < 0) return false;
        o->bytes[o->len++] = (unsigned char)(16 * high + low);
    }
    return len % 2 == 0;
}

static bool read_operand(char kind, const char *word, size_t len, struct operands *o, int place) {
    if (kind == 'h') return read_bytes(word, len, o);
    return read_number(word, len, &o->number[place]) && (kind == 'n' || o->number[place] < 2);
}

/* reads a line of no more than LINE_LIMIT bytes; NULL if it has no form */
static const struct line *read_line(const char *text, size_t len, struct operands *o) {
    const char *end = text + len, *stop = memchr(text, ' ', len);
    size_t name_len = stop ? (size_t)(stop - text) : len;
    for (size_t i = 0; i < sizeof LINES / sizeof *LINES; i++) {
        const struct line *line = &LINES[i];
        if (strlen(line->name) != name_len || memcmp(line->name, text, name_len)) continue;
        const char *at = text + name_len;
        for (int place = 0; line->kinds[place]; place++) {
            if (at++ == end) return NULL;
            stop = memchr(at, ' ', (size_t)(end - at));
            if (!stop) stop = end;
            if (!read_operand(line->kinds[place], at, (size_t)(stop - at), o, place)) return NULL;
            at = stop;
        }
        return at == end ? line : NULL;
    }
    return NULL;
}

/* answers a line that isn't empty; false if it is refused or faulty */
static bool answer(const char *text, size_t len) {
    struct operands o = {{0, 0}, NULL, 0};
    if (len > LINE_LIMIT) return puts("refused LineTooLong"), false;
    const struct line *line = read_line(text, len, &o);
    int code = 0;
    if (!line) {
        code = -1, puts("refused Line");
    } else if (line->answer != add_table) {
        if (!b) (void)open_anew();
        tables_ended = true;
        code = line->answer(&o);
        if (code < 0) print_refusal(code);
    } else if (tables_ended) {
        code = -1, puts("refused Line");
    } else {
        code = add_table(&o);
    }
    free(o.bytes);
    return code >= 0;
}

static uint64_t *limit_of(const char *option) {
    if (!strcmp(option, "--batch")) return &limits.batch;
    if (!strcmp(option, "--window")) return &limits.window;
    if (!strcmp(option, "--timeout")) return &limits.timeout;
    if (!strcmp(option, "--capacity")) return &limits.capacity;
    if (!strcmp(option, "--intake")) return &limits.intake;
    return NULL;
}

static void read_options(char **words) {
    for (; *words; words++) {
        uint64_t *limit = limit_of(*words), pieces;
        if (!strcmp(*words, "--numbers")) numbered = true;
        else if (!strcmp(*words, "--strict")) strict = true;
        else if (limit && words[1] && read_number(words[1], strlen(words[1]), limit)) words++;
        else if (!strcmp(*words, "--cut") && words[1] && read_number(words[1], strlen(words[1]), &pieces) && pieces)
            cut = pieces, words++;
        else stop("an option is faulty: see the head of cases.c");
    }
}

int main(int count, char **words) {
    char *text = NULL;
    size_t room = 0;
    ssize_t len;
    bool goes_on = true;
    read_options(words + (count > 0));
    for (long number = 1; goes_on && (len = getline(&text, &room, stdin)) >= 0; number++) {
        if (len > 0 && text[len - 1] == '\n') len--;
        if (len == 0) continue;
        if (numbered) printf("%ld ", number);
        goes_on = answer(text, (size_t)len) || !strict;
    }
    free(text);
    end_all();
    return fflush(stdout) || ferror(stdin) ? 1 : goes_on ? 0 : 3;
}
