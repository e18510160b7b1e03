/* Refuses allocations of the keeper, of the broker and of SQLite (memory.c). */
#ifndef MEMORY_H
#define MEMORY_H

#include <stdbool.h>

/* The threads that are told apart: the one that calls memory_begin, and all others. */
enum memory_thread { MEMORY_CALLER, MEMORY_SERVICE };

/* Takes over SQLite's allocations. It is called once, before any other call of SQLite, by the thread of the scene. */
void memory_begin(void);

/* Refuses the allocation `number` of these threads, from 1, or with `lasts` all allocations from that one on, of all
 * threads. With a number of 0 it counts, and refuses nothing. */
void memory_refuse(enum memory_thread thread, long number, bool lasts);

/* Refuses nothing more, and goes on counting. */
void memory_comes_back(void);

/* Refuses and counts nothing for a while, and goes on after that. */
void memory_pause(void);
void memory_go_on(void);

/* How many allocations these threads have asked for since memory_refuse, and whether one was refused. */
long memory_asked(enum memory_thread thread);
bool memory_was_refused(void);

/* How many blocks are in use. */
long memory_blocks(void);

#endif
