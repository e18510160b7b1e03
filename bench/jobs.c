#define SQLITE_ENABLE_SESSION
#define SQLITE_ENABLE_PREUPDATE_HOOK
#include <sqlite3.h>

#include "changeset.h"
#include "jobs.h"

#include <stdio.h>
#include <stdlib.h>
#include <string.h>

static void must(int holds, const char *what) {
    if (holds) return;
    fprintf(stderr, "wrong answer: %s\n", what);
    exit(1);
}

void configure_sqlite(int lean) {
    must(sqlite3_shutdown() == SQLITE_OK, "shutdown");
    must(sqlite3_config(SQLITE_CONFIG_MEMSTATUS, !lean) == SQLITE_OK, "statistics");
    must(sqlite3_config(lean ? SQLITE_CONFIG_SINGLETHREAD : SQLITE_CONFIG_SERIALIZED) == SQLITE_OK, "locks");
    must(sqlite3_initialize() == SQLITE_OK, "initialize");
}

void ours_reads(const struct input *input) {
    size_t at = 0;
    uint32_t kind = 0;
    must(changeset_check(input->bytes, input->len, &at, &kind) == input->changes, "ours_reads");
}

void ours_builds(const struct input *input) {
    unsigned char nothing;
    must(changeset_canonical(input->bytes, input->len, &nothing, 0) == (int64_t)input->len, "ours_builds");
}

/* the values of a change, each looked at */
static long values_of(sqlite3_changeset_iter *iter, int columns, int operation) {
    long seen = 0;
    sqlite3_value *value;
    for (int column = 0; column < columns; column++) {
        if (operation != SQLITE_INSERT) {
            must(sqlite3changeset_old(iter, column, &value) == SQLITE_OK, "old");
            seen += value && sqlite3_value_type(value) != SQLITE_NULL;
        }
        if (operation != SQLITE_DELETE) {
            must(sqlite3changeset_new(iter, column, &value) == SQLITE_OK, "new");
            seen += value && sqlite3_value_type(value) != SQLITE_NULL;
        }
    }
    return seen;
}

void sqlite_reads(const struct input *input) {
    sqlite3_changeset_iter *iter;
    must(sqlite3changeset_start(&iter, (int)input->len, input->bytes) == SQLITE_OK, "start");
    long changes = 0;
    while (sqlite3changeset_next(iter) == SQLITE_ROW) {
        const char *table;
        int columns, operation, indirect;
        must(sqlite3changeset_op(iter, &table, &columns, &operation, &indirect) == SQLITE_OK, "op");
        must(values_of(iter, columns, operation) >= columns, "values");
        changes++;
    }
    must(sqlite3changeset_finalize(iter) == SQLITE_OK, "finalize");
    must(changes == input->changes, "sqlite_reads");
}

static void must_be_same(const struct input *input, const void *bytes, size_t len) {
    must(len == input->len && memcmp(bytes, input->bytes, len) == 0, "other bytes");
}

void ours_writes(const struct input *input) {
    unsigned char *out = malloc(input->len);
    must(out != NULL, "memory");
    int64_t len = changeset_canonical(input->bytes, input->len, out, input->len);
    must(len >= 0, "ours_writes");
    must_be_same(input, out, (size_t)len);
    free(out);
}

void sqlite_writes(const struct input *input) {
    void *inverse, *again;
    int inverse_len, len;
    must(sqlite3changeset_invert((int)input->len, input->bytes, &inverse_len, &inverse) == SQLITE_OK, "invert");
    must(sqlite3changeset_invert(inverse_len, inverse, &len, &again) == SQLITE_OK, "invert again");
    must_be_same(input, again, (size_t)len);
    sqlite3_free(inverse);
    sqlite3_free(again);
}

/* the inverse, by ours; the caller frees it */
static unsigned char *inverted(const struct input *input) {
    unsigned char *out = malloc(input->len);
    must(out != NULL, "memory");
    must(changeset_invert(input->bytes, input->len, out, input->len) == (int64_t)input->len, "ours_inverts");
    return out;
}

void ours_inverts(const struct input *input) { free(inverted(input)); }

/* the inverse, by SQLite; the caller frees it by sqlite3_free */
static void *inverted_by_sqlite(const struct input *input) {
    void *inverse;
    int len;
    must(sqlite3changeset_invert((int)input->len, input->bytes, &len, &inverse) == SQLITE_OK, "sqlite_inverts");
    must((size_t)len == input->len, "sqlite_inverts");
    return inverse;
}

void sqlite_inverts(const struct input *input) { sqlite3_free(inverted_by_sqlite(input)); }

void check_inverted(const struct input *input) {
    unsigned char *ours = inverted(input);
    void *sqlites = inverted_by_sqlite(input);
    must(memcmp(ours, sqlites, input->len) == 0, "other bytes");
    free(ours);
    sqlite3_free(sqlites);
}

/* the texts, combined by ours; the caller frees them */
static unsigned char *combined(const struct input *inputs) {
    struct changeset_text texts[COMBINED];
    size_t room = 0, index = 0, at = 0;
    uint32_t kind = 0;
    for (int i = 0; i < COMBINED; i++) {
        texts[i] = (struct changeset_text){inputs[i].bytes, inputs[i].len};
        room += inputs[i].len;
    }
    unsigned char *out = malloc(room);
    must(out != NULL, "memory");
    int64_t len = changeset_combine(texts, COMBINED, out, room, &index, &at, &kind);
    must(len == (int64_t)inputs[COMBINED].len, "ours_combines");
    return out;
}

void ours_combines(const struct input *inputs) { free(combined(inputs)); }

void sqlite_combines(const struct input *inputs) {
    sqlite3_changegroup *group;
    must(sqlite3changegroup_new(&group) == SQLITE_OK, "new");
    for (int i = 0; i < COMBINED; i++)
        must(sqlite3changegroup_add(group, (int)inputs[i].len, inputs[i].bytes) == SQLITE_OK, "add");
    int len;
    void *out;
    must(sqlite3changegroup_output(group, &len, &out) == SQLITE_OK, "output");
    must((size_t)len == inputs[COMBINED].len, "sqlite_combines");
    sqlite3_free(out);
    sqlite3changegroup_delete(group);
}

void check_combined(const struct input *inputs) {
    unsigned char *out = combined(inputs);
    must_be_same(&inputs[COMBINED], out, inputs[COMBINED].len);
    free(out);
    sqlite_combines(inputs);
}
