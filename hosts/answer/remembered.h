/* What a batch remembers (docs/CASES.md). */
#ifndef REMEMBERED_H
#define REMEMBERED_H

#include "fenced.h"

extern struct session remembered;

/* Before the first request. */
void remember_nothing(void);

/* TABLES: the counts and every lent number. */
void say_tables(void);
void say_tables_with_counts(gorrindatz_size seen_count, gorrindatz_size kept_count);

/* The answer of an event or a row: `taken` and the number of reports, or the refusal; then TABLES. The counts answered are
   remembered; a refusal answers those that it was given. */
void say_step(gorrindatz_answered answered);

/* Copies a session, and of its tables what is lent. */
void copy_session(struct session *to, struct session *from);

#endif
