/* Reading requests (docs/CASES.md, "The form"). A reader that meets what is not of the form is stuck from there on, and every
   item that it reads is then 0 or empty. So a call reads all its items, asks once by `request_ends` whether they were of the
   form, and does nothing before. */
#ifndef ITEMS_H
#define ITEMS_H

#include "plain.h"

struct items {
    struct bytes batch;
    gorrindatz_size at; /* the place of the byte that is read next */
    gorrindatz_bool stuck;
};

/* The lowercase letters that begin a request. */
struct bytes read_word(struct items *items);

gorrindatz_u32 read_number(struct items *items);

gorrindatz_u64 read_long(struct items *items);

struct bytes read_bytes(struct items *items);

void read_values(struct items *items, gorrindatz_u32 values[GORRINDATZ_WIDTH]);

/* Puts the numbers of a list at the start of `into`, and answers how many; more than `most` are not of the form. */
gorrindatz_size read_list(struct items *items, gorrindatz_u32 *into, gorrindatz_size most);

gorrindatz_property read_property(struct items *items);

/* Passes the line end of a request, and answers whether all of it was of the form. */
gorrindatz_bool request_ends(struct items *items);

#endif
