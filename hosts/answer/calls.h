/* The calls of docs/CASES.md by their words. Each reads the items of its request, does nothing if they are not of the form, and
   else writes its answer. */
#ifndef CALLS_H
#define CALLS_H

#include "items.h"

/* texts.c */
void answer_classes(struct items *items);
void answer_declarations(struct items *items);
void answer_header(struct items *items);
void answer_field(struct items *items);
void answer_rowat(struct items *items);
void answer_rows(struct items *items);
void answer_namebynumber(struct items *items);
void answer_namebyoffset(struct items *items);
void answer_numberofname(struct items *items);

/* properties.c */
void answer_translate(struct items *items);
void answer_verdicts(struct items *items);
void answer_check(struct items *items);

/* remembered.c */
void answer_property(struct items *items);
void answer_declare(struct items *items);
void answer_pattern(struct items *items);
void answer_seen(struct items *items);
void answer_kept(struct items *items);
void answer_reports(struct items *items);
void answer_fill(struct items *items);
void answer_tables(struct items *items);
void answer_digest(struct items *items);

/* sessions.c */
void answer_start(struct items *items);
void answer_event(struct items *items);
void answer_lookup(struct items *items);
void answer_grow(struct items *items);

/* logs.c */
void answer_row(struct items *items);
void answer_run(struct items *items);
void answer_lines(struct items *items);

/* watch.c */
void answer_watch(struct items *items);

#endif
