/* Counts what malloc gives. Bytes are those of malloc_usable_size. */
#ifndef COUNT_H
#define COUNT_H

#include <stddef.h>

/* bytes in use, and the most that ever were */
extern size_t in_use, most_in_use;
/* how many allocations were asked for, and the number of one that is refused (0: none) */
extern unsigned long asked, refused_at;

#endif
