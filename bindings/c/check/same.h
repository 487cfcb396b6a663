/* Comparing builders. */
#ifndef SAME_H
#define SAME_H

#include "dnsnames.h"
#include <string.h>

/* Field by field, since what lies between fields is nobody's. */
static inline int same_states(const dnsnames_builder_state *a, const dnsnames_builder_state *b)
{
    return a->limit == b->limit && a->len == b->len && a->id == b->id && a->flags == b->flags &&
           a->questions == b->questions && a->answers == b->answers && a->authority == b->authority &&
           a->additional == b->additional && a->answer_start == b->answer_start &&
           a->authority_start == b->authority_start && a->additional_start == b->additional_start &&
           a->table_len == b->table_len && memcmp(a->table, b->table, sizeof a->table) == 0;
}

#endif
