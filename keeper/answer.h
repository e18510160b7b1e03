/* What a source answers to a replica. */
#ifndef GZ_ANSWER_H
#define GZ_ANSWER_H

#include "source.h"
#include "wire.h"

/* Sets the answer to a request, and appends its text. It holds the lock, and does no input or output. Returns whether it
 * is known if others wrote: it isn't for a moment while a commit is made. The next one wakes the thread. */
bool gz_decide_answer(struct gz_source *s, const struct gz_request *asked, struct gz_answer *answer, struct gz_bytes *text);

#endif
