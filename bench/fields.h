/* Fields as a changeset spells them, for those who make inputs. */
#ifndef FIELDS_H
#define FIELDS_H

#include <stddef.h>
#include <stdint.h>

/* the bytes of operations */
enum { INSERT = 18, UPDATE = 23, DELETE = 9 };
/* the types of fields */
enum { UNDEFINED = 0, INTEGER = 1, TEXT = 3, BLOB = 4 };

/* An INTEGER. This and the next two write at a place that has room, and give the place behind what they wrote. */
unsigned char *put_integer(unsigned char *at, uint64_t number);

/* The shortest varint of a number below 268,435,456. */
unsigned char *put_varint(unsigned char *at, size_t number);

/* A TEXT or a BLOB of so many bytes, fewer than 268,435,456, each of which is `fill`. */
unsigned char *put_bytes(unsigned char *at, int type, size_t len, int fill);

#endif
