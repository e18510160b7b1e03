/* What the calls of broker.h answer, in the words of a script: a function for each line. */
#ifndef ANSWERS_H
#define ANSWERS_H

#include "broker.h"

/* what the words after a line's name are: numbers in their order, and bytes */
struct operands {
    uint64_t number[2];
    unsigned char *bytes;
    size_t len;
};

/* Makes a line's calls, and prints its answer unless the result is negative. Returns the code. */
typedef int answering(struct operands *o);
answering publisher, feed, reset, end, send_staged, withdraw, turn, close_sequence, left, subscribe, take, take_any,
    accept, crash, ack, nack, nack_opened, expire, reconnect, resume, unsubscribe, entry, combine, rows;

/* The same of a `table` line, which prints its refusal too. It keeps the bytes of a table that is added. */
answering add_table;

/* prints the refusal or the fault of a code, with the numbers that the handle tells */
void print_refusal(int code);

/* opens a broker with the tables so far, in place of the one before */
int open_anew(void);

/* frees the broker and its tables */
void end_all(void);

/* ends the program */
void stop(const char *why);

/* the memory, or the end of the program if there is none */
void *some_memory(void *given);

extern broker *b;
extern struct broker_limits limits;
/* how many bytes of a `feed` line go into one call */
extern size_t cut;

#endif
