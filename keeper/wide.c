/* Widening: changesets with REAL values as changesets without them, and back. */
#include "wide.h"
#include <stdio.h>
#include <string.h>

enum { UNDEFINED = 0, INTEGER = 1, REAL = 2, TEXT = 3, BLOB = 4, NOTHING = 5 };
enum { DELETE = 9, INSERT = 18, UPDATE = 23 };

/* Bytes that are read, from `at` up to `end`. */
struct reader {
    const unsigned char *at, *end;
};

/* A value with its type byte. */
struct field {
    const unsigned char *at;
    size_t len;
};

/* A table's header. `key` has a byte for each column. */
struct header {
    const unsigned char *key;
    const char *name;
    int columns;
};

/* A change: an INSERT or a DELETE has one record, and an UPDATE has two. */
struct change {
    unsigned char op, indirect;
    int records;
    struct field field[2][GZ_MOST_COLUMNS];
};

static bool read_varint(struct reader *from, uint32_t *number) {
    uint64_t found = 0;
    for (int i = 0; i < 5 && from->at < from->end; i++) {
        unsigned char byte = *from->at++;
        found = found << 7 | (byte & 127);
        if (byte < 128) return *number = (uint32_t)found, found < 1u << 31;
    }
    return false;
}

static bool read_field(struct reader *from, struct field *it) {
    uint32_t len = 0;
    it->at = from->at;
    if (from->at == from->end) return false;
    switch (*from->at++) {
    case UNDEFINED: case NOTHING: break;
    case INTEGER: case REAL: len = 8; break;
    case TEXT: case BLOB:
        if (!read_varint(from, &len)) return false;
        break;
    default: return false;
    }
    if ((size_t)(from->end - from->at) < len) return false;
    from->at += len, it->len = (size_t)(from->at - it->at);
    return true;
}

static bool read_header(struct reader *from, struct header *it) {
    uint32_t columns;
    from->at++;
    if (!read_varint(from, &columns) || !columns || columns > GZ_MOST_COLUMNS) return false;
    if ((size_t)(from->end - from->at) < columns) return false;
    it->key = from->at, it->columns = (int)columns, from->at += columns, it->name = (const char *)from->at;
    const unsigned char *end = memchr(from->at, 0, (size_t)(from->end - from->at));
    if (end) from->at = end + 1;
    return end;
}

static bool read_change(struct reader *from, const struct header *table, struct change *it) {
    if (from->end - from->at < 2) return false;
    it->op = *from->at++, it->indirect = *from->at++, it->records = it->op == UPDATE ? 2 : 1;
    if (it->op != INSERT && it->op != DELETE && it->op != UPDATE) return false;
    for (int r = 0; r < it->records; r++)
        for (int i = 0; i < table->columns; i++)
            if (!read_field(from, &it->field[r][i])) return false;
    return true;
}

static int type(const struct field *it) { return *it->at; }

/* The eight bytes of a REAL, or the bytes of a TEXT or a BLOB. */
static const unsigned char *body(const struct field *it, size_t *len) {
    struct reader from = {it->at + 1, it->at + it->len};
    uint32_t unused;
    if (type(it) == TEXT || type(it) == BLOB) read_varint(&from, &unused);
    *len = (size_t)(from.end - from.at);
    return from.at;
}

/* Writes a value as an SQL literal. `out` has `room` bytes, and gets a zero byte. Returns its length. */
static size_t literal(const struct field *it, char *out, size_t room) {
    size_t len, at = 0;
    const unsigned char *bytes = body(it, &len);
    double real;
    uint64_t bits = len == 8 ? gz_get(bytes, 8) : 0;
    memcpy(&real, &bits, sizeof real);
    if (type(it) == INTEGER) return (size_t)snprintf(out, room, "%lld", (long long)bits);
    if (type(it) == REAL) return (size_t)snprintf(out, room, "%.17g", real);
    if (type(it) != TEXT && type(it) != BLOB) return (size_t)snprintf(out, room, "NULL");
    if (type(it) == BLOB) out[at++] = 'x';
    out[at++] = '\'';
    for (size_t i = 0; i < len && at + 6 < room; i++) {
        if (type(it) == BLOB) at += (size_t)snprintf(out + at, 3, "%02x", bytes[i]);
        else if (bytes[i] == '\'') out[at++] = '\'', out[at++] = '\'';
        else out[at++] = (char)bytes[i];
    }
    out[at++] = '\'', out[at] = 0;
    return at;
}

/* Writes the key of a change as SQL literals. */
static void key_of(const struct header *table, const struct change *it, char out[200]) {
    size_t at = 0;
    *out = 0;
    for (int i = 0; i < table->columns; i++) {
        if (!table->key[i]) continue;
        if (at > 150) {
            strcpy(out + at, ", ..");
            return;
        }
        if (at) strcpy(out + at, ", "), at += 2;
        at += literal(&it->field[0][i], out + at, 200 - at - 8);
    }
}

static void append_header(struct gz_bytes *out, const struct header *table) {
    int columns = 0;
    for (int i = 0; i < table->columns; i++) columns += table->key[i] ? 1 : 2;
    gz_append_byte(out, 'T'), gz_append_varint(out, (uint32_t)columns);
    for (int i = 0; i < table->columns; i++) gz_append(out, "\0", 1 - !!table->key[i]), gz_append(out, &table->key[i], 1);
    gz_append(out, table->name, strlen(table->name) + 1);
}

static void append_wide(struct gz_bytes *out, const struct header *table, const struct change *it) {
    gz_append_byte(out, it->op), gz_append_byte(out, it->indirect);
    for (int r = 0; r < it->records; r++)
        for (int i = 0; i < table->columns; i++) {
            const struct field *field = &it->field[r][i];
            bool is_real = type(field) == REAL;
            if (is_real) gz_append(out, "\5\4\10", 3), gz_append(out, field->at + 1, 8);
            else gz_append(out, field->at, field->len);
            if (!is_real && !table->key[i]) gz_append_byte(out, type(field) ? NOTHING : UNDEFINED);
        }
}

enum gz_wide gz_widen(const unsigned char *text, size_t len, struct gz_bytes *out, gz_left_out *left, void *context,
                      char fault[GZ_FAULT_ROOM]) {
    struct reader from = {text, text + len};
    struct header table = {0};
    struct change it;
    bool has_header = false;
    char key[200];
    while (from.at < from.end) {
        bool is_left = false, is_moved = false;
        snprintf(fault, GZ_FAULT_ROOM, "the changeset can't be read");
        if (*from.at == 'T') {
            if (!read_header(&from, &table)) return GZ_WIDE_FAULT;
            has_header = false;
            continue;
        }
        if (!table.columns || !read_change(&from, &table, &it)) return GZ_WIDE_FAULT;
        for (int i = 0; i < table.columns; i++) {
            if (!table.key[i]) continue;
            is_left |= type(&it.field[0][i]) == REAL;
            is_moved |= it.records == 2 && type(&it.field[1][i]) != UNDEFINED;
        }
        if (is_left || is_moved) key_of(&table, &it, key);
        if (is_moved && !is_left) {
            snprintf(fault, GZ_FAULT_ROOM, "table %.100s, key %s: another key that SQLite takes for equal", table.name,
                key);
            return GZ_WIDE_FAULT;
        }
        if (is_left) {
            left(context, table.name, key, "a REAL value in the key");
            continue;
        }
        if (!has_header) append_header(out, &table);
        has_header = true, append_wide(out, &table, &it);
    }
    return *fault = 0, out->failed ? GZ_WIDE_NO_MEMORY : GZ_WIDE_OK;
}

/* Narrows the header, whose columns outside the key must come in twos. */
static bool append_narrow_header(struct gz_bytes *out, const struct header *wide, gz_has_shape *has_shape,
                                 void *context) {
    unsigned char key[GZ_MOST_COLUMNS];
    int columns = 0;
    for (int i = 0; i < wide->columns; i++) {
        if (!wide->key[i] && (++i == wide->columns || wide->key[i])) return false;
        key[columns++] = wide->key[i];
    }
    if (has_shape && !has_shape(context, wide->name, key, columns)) return false;
    gz_append_byte(out, 'T'), gz_append_varint(out, (uint32_t)columns), gz_append(out, key, (size_t)columns);
    gz_append(out, wide->name, strlen(wide->name) + 1);
    return true;
}

/* Narrows a column of one record. A group leaves out of an UPDATE what is equal before and after. If only the bytes are
 * there, a REAL stands on one side or on both, where the value is NULL; so it is NULL on the other side, too. If only the
 * value is there, one side has a value that isn't NULL, so the bytes are NULL on both sides. */
static bool append_narrow(struct gz_bytes *out, const struct field *value, const struct field *bytes) {
    size_t len;
    if (type(bytes) == BLOB) {
        const unsigned char *real = body(bytes, &len);
        if (len != 8 || (type(value) != UNDEFINED && type(value) != NOTHING)) return false;
        gz_append_byte(out, REAL), gz_append(out, real, 8);
        return true;
    }
    if (type(bytes) != UNDEFINED && type(bytes) != NOTHING) return false;
    if (type(value) != UNDEFINED) gz_append(out, value->at, value->len);
    else gz_append_byte(out, type(bytes) == NOTHING ? NOTHING : UNDEFINED);
    return true;
}

static bool append_narrow_change(struct gz_bytes *out, const struct header *wide, const struct change *it) {
    gz_append_byte(out, it->op), gz_append_byte(out, it->indirect);
    for (int r = 0; r < it->records; r++)
        for (int i = 0; i < wide->columns; i++) {
            const struct field *field = &it->field[r][i];
            if (wide->key[i]) gz_append(out, field->at, field->len);
            else if (!append_narrow(out, field, field + 1)) return false;
            else i++;
        }
    return true;
}

enum gz_wide gz_narrow(const unsigned char *text, size_t len, struct gz_bytes *out, gz_has_shape *has_shape,
                       void *context) {
    struct reader from = {text, text + len};
    struct header wide = {0};
    struct change it;
    while (from.at < from.end) {
        if (*from.at == 'T') {
            if (!read_header(&from, &wide) || !append_narrow_header(out, &wide, has_shape, context)) return GZ_WIDE_FAULT;
        } else if (!wide.columns || !read_change(&from, &wide, &it) || !append_narrow_change(out, &wide, &it)) {
            return GZ_WIDE_FAULT;
        }
    }
    return out->failed ? GZ_WIDE_NO_MEMORY : GZ_WIDE_OK;
}
