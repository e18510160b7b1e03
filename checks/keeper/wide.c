/* Checks the widening against changesets that SQLite records: ./wide ROUNDS SEED
 * - Narrowing a widened changeset gives its bytes back, and a change with a REAL in its key is left out and named.
 * - The group of widened changesets, narrowed, is SQLite's group of them, and makes the rows that the source has. So does
 *   the group that a broker makes (with -DWITH_BROKER).
 * - The inverse of a widened changeset, narrowed, is its inverse.
 * - Texts that are cut or changed are refused or read, and never read past their ends (under AddressSanitizer). */
#define SQLITE_ENABLE_SESSION
#define SQLITE_ENABLE_PREUPDATE_HOOK
#include "../../keeper/wide.h"
#include <math.h>
#include <sqlite3.h>
#include <stdio.h>
#include <stdlib.h>
#include <string.h>
#ifdef WITH_BROKER
#include "broker.h"
#endif

#define CHECK(x) \
    do { if (!(x)) { printf("line %d, seed %u, round %d: %s\n", __LINE__, seed, turn, #x); exit(1); } } while (0)

enum { TABLES = 6, MOST = 12 };
static unsigned seed, state;
static int turn, left_out;
static const char SCHEMA[] =
    "CREATE TABLE a (id INTEGER PRIMARY KEY, x, y REAL, z TEXT);"
    "CREATE TABLE b (x, k TEXT PRIMARY KEY, y);"
    "CREATE TABLE c (p, x, q BLOB, y NUMERIC, PRIMARY KEY (q, p));"
    "CREATE TABLE d (k PRIMARY KEY, x) WITHOUT ROWID;"
    "CREATE TABLE e (k PRIMARY KEY);"
    "CREATE TABLE f (x, y, k INTEGER PRIMARY KEY);";
static const struct { const char *name; int columns, key; } TABLE[TABLES] = {
    {"a", 4, 1}, {"b", 3, 2}, {"c", 4, 5}, {"d", 2, 1}, {"e", 1, 1}, {"f", 3, 4}};

static unsigned dice(unsigned sides) {
    state = state * 1664525u + 1013904223u;
    return (state >> 8) % sides;
}

static void bind_value(sqlite3_stmt *it, int at, bool may_be_real) {
    static const double REALS[] = {0.0, -0.0, 1.0, 2.0, 0.1, -1e300, 5e-324, INFINITY, -INFINITY, NAN, 9007199254740993.0};
    switch (dice(may_be_real ? 10 : 5)) {
    case 0: sqlite3_bind_null(it, at); return;
    case 1: case 2: sqlite3_bind_int64(it, at, (sqlite3_int64)dice(4) - 1); return;
    case 3: sqlite3_bind_text(it, at, &"3.5aab"[dice(6)], -1, SQLITE_TRANSIENT); return;
    case 4: sqlite3_bind_blob(it, at, "\0\4\10abcdefgh", (int)dice(11), SQLITE_TRANSIENT); return;
    default: sqlite3_bind_double(it, at, REALS[dice(sizeof REALS / sizeof *REALS)]);
    }
}

static void step(sqlite3 *db, const char *sql, int values, unsigned key, int target, bool real_keys) {
    sqlite3_stmt *it;
    CHECK(!sqlite3_prepare_v2(db, sql, -1, &it, NULL));
    for (int i = 0; i < values; i++) {
        bool is_key = target < 0 ? key >> i & 1 : key >> target & 1;
        if (is_key) real_keys && !dice(9) ? sqlite3_bind_double(it, i + 1, dice(3) + 0.5)
                                          : sqlite3_bind_int64(it, i + 1, dice(6));
        else bind_value(it, i + 1, true);
    }
    sqlite3_step(it), sqlite3_finalize(it);
}

/* A random statement. */
static void write_some(sqlite3 *db, bool real_keys) {
    unsigned t = dice(TABLES), column = dice((unsigned)TABLE[t].columns);
    char sql[200];
    const char *columns[TABLES] = {"id x y z", "x k y", "p x q y", "k x", "k", "x y k"};
    const char *all = columns[t];
    for (unsigned i = 0; i < column; i++) all = strchr(all, ' ') + 1;
    int len = (int)strcspn(all, " ");
    const char *marks[] = {"?1", "?1, ?2", "?1, ?2, ?3", "?1, ?2, ?3, ?4"};
    switch (dice(4)) {
    case 0:
        snprintf(sql, sizeof sql, "DELETE FROM %s WHERE %.*s = ?1", TABLE[t].name, len, all);
        step(db, sql, 1, (unsigned)TABLE[t].key, (int)column, real_keys);
        return;
    case 1: case 2:
        snprintf(sql, sizeof sql, "UPDATE OR IGNORE %s SET %.*s = ?1 WHERE (length(quote(%.*s)) + %u) %% 3 = 0",
            TABLE[t].name, len, all, len, all, dice(3));
        step(db, sql, 1, (unsigned)TABLE[t].key, (int)column, real_keys);
        return;
    default:
        snprintf(sql, sizeof sql, "INSERT OR REPLACE INTO %s VALUES (%s)", TABLE[t].name, marks[TABLE[t].columns - 1]);
        step(db, sql, TABLE[t].columns, (unsigned)TABLE[t].key, -1, real_keys);
    }
}

static void one_value(char *out, sqlite3_value *it) {
    int type = it ? sqlite3_value_type(it) : 0;
    double real = type == SQLITE_FLOAT ? sqlite3_value_double(it) : 0;
    out += sprintf(out, "%d", type);
    if (type == SQLITE_INTEGER) sprintf(out, ":%lld", sqlite3_value_int64(it));
    if (type == SQLITE_FLOAT) sprintf(out, ":%a", real);
    if (type != SQLITE_TEXT && type != SQLITE_BLOB) return;
    const unsigned char *bytes = sqlite3_value_blob(it);
    for (int i = 0; i < sqlite3_value_bytes(it); i++) out += sprintf(out, ":%02x", bytes[i]);
}

static int by_bytes(const void *a, const void *b) { return strcmp(*(char *const *)a, *(char *const *)b); }

/* The changes as sorted lines, without what is equal before and after. */
static char *lines(const void *text, int len) {
    sqlite3_changeset_iter *it;
    char *line[4000], *all;
    int count = 0, op, columns;
    const char *name;
    unsigned char *key;
    CHECK(!sqlite3changeset_start(&it, len, (void *)text));
    while (sqlite3changeset_next(it) == SQLITE_ROW) {
        char out[4000], *to = out;
        bool is_empty = true;
        sqlite3changeset_op(it, &name, &columns, &op, NULL), sqlite3changeset_pk(it, &key, NULL);
        to += sprintf(to, "%s %d", name, op);
        for (int i = 0; i < columns; i++) {
            sqlite3_value *old = NULL, *new = NULL;
            char a[100], b[100];
            if (op != SQLITE_INSERT) sqlite3changeset_old(it, i, &old);
            if (op != SQLITE_DELETE) sqlite3changeset_new(it, i, &new);
            one_value(a, old), one_value(b, new);
            if (op == SQLITE_UPDATE && !key[i] && !strcmp(a, b)) continue;
            is_empty &= op == SQLITE_UPDATE && key[i];
            to += sprintf(to, " %d=%s>%s", i, a, b);
        }
        CHECK(count < 4000);
        if (!is_empty) line[count++] = strdup(out);
    }
    CHECK(!sqlite3changeset_finalize(it));
    qsort(line, (size_t)count, sizeof *line, by_bytes);
    all = calloc(1, 1);
    for (int i = 0; i < count; i++) {
        all = realloc(all, strlen(all) + strlen(line[i]) + 2);
        strcat(all, line[i]), strcat(all, "\n"), free(line[i]);
    }
    return all;
}

static void is_left(void *context, const char *table, const char *key, const char *why) {
    CHECK(strchr(key, '.') && strlen(table) == 1 && !strcmp(why, "a REAL value in the key"));
    (void)context, left_out++;
}

static struct gz_bytes widened(const void *text, int len) {
    struct gz_bytes out = {0};
    char fault[GZ_FAULT_ROOM];
    CHECK(gz_widen(text, (size_t)len, &out, is_left, NULL, fault) == GZ_WIDE_OK);
    return out;
}

static struct gz_bytes narrowed(const void *text, size_t len) {
    struct gz_bytes out = {0};
    CHECK(gz_narrow(text, len, &out, NULL, NULL) == GZ_WIDE_OK);
    return out;
}

static void are_same(const void *a, size_t a_len, const void *b, size_t b_len) {
    char *one = lines(a, (int)a_len), *two = lines(b, (int)b_len);
    if (strcmp(one, two)) printf("-- one\n%s-- two\n%s", one, two);
    CHECK(!strcmp(one, two));
    free(one), free(two);
}

/* all rows, by type and bytes; but -0.0 as 0.0, between which SQLite's sessions see no change */
static char *rows(sqlite3 *db) {
    sqlite3_str *out = sqlite3_str_new(NULL);
    for (int t = 0; t < TABLES; t++) {
        sqlite3_stmt *it;
        char *sql = sqlite3_mprintf("SELECT * FROM %s ORDER BY rowid", TABLE[t].name);
        if (TABLE[t].name[0] != 'a' && TABLE[t].name[0] != 'f')
            sqlite3_free(sql), sql = sqlite3_mprintf("SELECT * FROM %s ORDER BY %s", TABLE[t].name,
                TABLE[t].name[0] == 'c' ? "q, p" : "k");
        CHECK(!sqlite3_prepare_v2(db, sql, -1, &it, NULL));
        while (sqlite3_step(it) == SQLITE_ROW)
            for (int i = 0; i < TABLE[t].columns; i++) {
                char value[100];
                one_value(value, sqlite3_column_value(it, i));
                sqlite3_str_appendf(out, "%s ", strcmp(value, "2:-0x0p+0") ? value : "2:0x0p+0");
            }
        sqlite3_finalize(it), sqlite3_free(sql), sqlite3_str_appendall(out, "\n");
    }
    return sqlite3_str_finish(out);
}

static int no_conflict(void *context, int kind, sqlite3_changeset_iter *it) {
    (void)context, (void)it;
    return printf("conflict %d\n", kind), SQLITE_CHANGESET_ABORT;
}

/* Applies a narrowed group to the rows from before. Afterwards they are the source's. */
static void makes_rows(sqlite3 *source, sqlite3 *before, const void *group, size_t len) {
    sqlite3 *copy;
    CHECK(!sqlite3_open(":memory:", &copy));
    sqlite3_backup *backup = sqlite3_backup_init(copy, "main", before, "main");
    CHECK(sqlite3_backup_step(backup, -1) == SQLITE_DONE && !sqlite3_backup_finish(backup));
    CHECK(!sqlite3changeset_apply(copy, (int)len, (void *)group, NULL, no_conflict, NULL));
    char *one = rows(source), *two = rows(copy);
    if (strcmp(one, two)) printf("-- source\n%s-- copy\n%s", one, two);
    CHECK(!strcmp(one, two));
    sqlite3_free(one), sqlite3_free(two), sqlite3_close(copy);
}

static void ignored(void *context, const char *table, const char *key, const char *why) {
    (void)context, (void)table, (void)key, (void)why;
}

/* Changes and cuts a text. Nothing may crash. */
static void harm(const struct gz_bytes *it) {
    for (int i = 0; i < 20; i++) {
        struct gz_bytes out = {0}, in = {0};
        char fault[GZ_FAULT_ROOM];
        size_t len = dice(2) ? it->len : dice((unsigned)it->len + 1);
        unsigned char *text = malloc(len ? len : 1);
        if (len) memcpy(text, it->at, len);
        for (unsigned n = dice(3); len && n; n--) text[dice((unsigned)len)] = (unsigned char)dice(256);
        gz_narrow(text, len, &out, NULL, NULL);
        gz_widen(text, len, &in, ignored, NULL, fault);
        free(text), gz_free_bytes(&out), gz_free_bytes(&in);
    }
}

#ifdef WITH_BROKER
static broker *held;
static uint64_t publisher;

static void open_broker(void) {
    static const unsigned char keys[TABLES][7] = {{1, 0, 0, 0, 0, 0, 0}, {0, 0, 1, 0, 0}, {2, 0, 0, 1, 0, 0}, {1, 0, 0}, {1},
                                                 {0, 0, 0, 0, 1}};
    static const size_t columns[TABLES] = {7, 5, 6, 3, 1, 5};
    struct broker_limits limits = BROKER_LIMITS;
    struct broker_table table[TABLES];
    struct broker_numbers why;
    for (int t = 0; t < TABLES; t++)
        table[t] = (struct broker_table){(const unsigned char *)TABLE[t].name, 1, keys[t], columns[t]};
    CHECK(!broker_open(&held, &limits, table, TABLES, &why) && !broker_publisher(held, &publisher));
}

static void group_of_broker(sqlite3 *source, sqlite3 *before, const struct gz_bytes *texts, int count) {
    uint64_t last = 0;
    unsigned char none;
    open_broker();
    for (int i = 0; i < count; i++)
        CHECK(!broker_place(held, publisher, texts[i].at ? texts[i].at : &none, texts[i].len, &last));
    int64_t len = broker_combined(held, 1, last, &none, 0);
    unsigned char *text = malloc((size_t)len + 1);
    CHECK(len >= 0 && text && broker_combined(held, 1, last, text, (size_t)len) == len);
    struct gz_bytes group = narrowed(text, (size_t)len);
    makes_rows(source, before, group.at, group.len);
    free(text), gz_free_bytes(&group), broker_free(held);
}
#endif

/* Some transactions, with everything that holds of their changesets. */
static void one_round(sqlite3 *db, sqlite3 *before, bool real_keys) {
    struct gz_bytes wide[MOST] = {{0}}, raw[MOST] = {{0}};
    int count = 1 + (int)dice(MOST);
    void *group = NULL, *plain = NULL, *inverse = NULL, *other = NULL;
    int group_len = 0, plain_len = 0, len, inverse_len, other_len;
    for (int i = 0; i < count; i++) {
        sqlite3_session *session;
        void *text;
        CHECK(!sqlite3session_create(db, "main", &session) && !sqlite3session_attach(session, NULL));
        for (unsigned n = dice(5); n < 5; n++) write_some(db, real_keys);
        CHECK(!sqlite3session_changeset(session, &len, &text));
        sqlite3session_delete(session), left_out = 0;
        wide[i] = widened(text, len), gz_append(&raw[i], text, (size_t)len);
        struct gz_bytes back = narrowed(wide[i].at, wide[i].len);
        if (!left_out) CHECK(back.len == (size_t)len && (!len || !memcmp(back.at, text, back.len)));
        else CHECK(real_keys && back.len < (size_t)len);
        CHECK(!sqlite3changeset_invert((int)wide[i].len, wide[i].at, &inverse_len, &inverse));
        CHECK(!sqlite3changeset_invert((int)back.len, back.at, &other_len, &other));
        struct gz_bytes inverted = narrowed(inverse, (size_t)inverse_len);
        are_same(inverted.at, inverted.len, other, (size_t)other_len);
        gz_free_bytes(&inverted), gz_free_bytes(&back), sqlite3_free(inverse), sqlite3_free(other), sqlite3_free(text);
        void *more, *rest;
        CHECK(!sqlite3changeset_concat(group_len, group, (int)wide[i].len, wide[i].at, &len, &more));
        sqlite3_free(group), group = more, group_len = len;
        CHECK(!sqlite3changeset_concat(plain_len, plain, (int)raw[i].len, raw[i].at, &len, &rest));
        sqlite3_free(plain), plain = rest, plain_len = len;
        harm(&wide[i]);
    }
    struct gz_bytes all = narrowed(group, (size_t)group_len);
    if (!real_keys) are_same(all.at, all.len, plain, (size_t)plain_len), makes_rows(db, before, all.at, all.len);
#ifdef WITH_BROKER
    if (!real_keys) group_of_broker(db, before, wide, count);
#endif
    for (int i = 0; i < count; i++) gz_free_bytes(&wide[i]), gz_free_bytes(&raw[i]);
    gz_free_bytes(&all), sqlite3_free(group), sqlite3_free(plain);
}

int main(int count, char **words) {
    int rounds = count > 1 ? atoi(words[1]) : 500;
    seed = state = count > 2 ? (unsigned)atoi(words[2]) : 1;
    for (turn = 0; turn < rounds; turn++) {
        sqlite3 *db, *before;
        CHECK(!sqlite3_open(":memory:", &db) && !sqlite3_open(":memory:", &before));
        CHECK(!sqlite3_exec(db, SCHEMA, NULL, NULL, NULL));
        for (int i = 0; i < 30; i++) write_some(db, turn % 4 == 0);
        sqlite3_backup *backup = sqlite3_backup_init(before, "main", db, "main");
        CHECK(sqlite3_backup_step(backup, -1) == SQLITE_DONE && !sqlite3_backup_finish(backup));
        one_round(db, before, turn % 4 == 0);
        sqlite3_close(db), sqlite3_close(before);
    }
    return printf("%d rounds of transactions are widened and narrowed\n", rounds), 0;
}
