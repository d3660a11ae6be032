/* The library's readers: they give what the reference reads, into arrays that are long enough, and write nothing else. */
#ifndef READERS_H
#define READERS_H

#include "reference.h"

/* The job frame lent, of which the reference says this. */
void check_read_job(int refusal, const struct job *job);
/* The answer frame lent, judged with this word; its contents, if that is yes. */
void check_read_answer(int32_t word, size_t links, const struct answer *answer);

#endif
