/* Slices that are lent to the library, each between two fences: bytes of a fixed pattern directly before its first element and
   directly behind its last. After a call, `take_back` looks at the fences of every slice that was lent, and compares those that
   were lent to be read with what they held. If the library touched a fence, or wrote where it was to read, the host says at
   which slice and exits with status 3. */
#ifndef LENT_H
#define LENT_H

#include "plain.h"

/* What a slice is to a call. Each has a place of its own, and is lent once at a time. */
enum role { DECLARATIONS, PATTERN, ROW, LOG, TEXT, VALUES, SEEN, KEPT, REPORTS, ROLES };

enum {
    MOST_NUMBERS = 65536, /* that are lent of a table */
    FENCE_BYTES = 64,
    FENCE_NUMBERS = FENCE_BYTES / sizeof(gorrindatz_u32)
};

/* A table that is lent in place, its first `length` numbers. */
struct table {
    gorrindatz_size length;
    gorrindatz_u32 cells[FENCE_NUMBERS + MOST_NUMBERS + FENCE_NUMBERS];
};

gorrindatz_u32 *numbers_of(struct table *table);

/* Lends a copy, to be read. */
const gorrindatz_u8 *lend_text(enum role role, struct bytes text);
const gorrindatz_u32 *lend_values(const gorrindatz_u32 values[GORRINDATZ_WIDTH]);

/* Lends a text of so many bytes, to be written. */
gorrindatz_u8 *lend_text_room(gorrindatz_size size);

/* Lends the numbers of a table, to be written or to be read. */
gorrindatz_u32 *lend_table(enum role role, struct table *table);
const gorrindatz_u32 *lend_table_to_read(enum role role, struct table *table);

/* To be called after each call of the library. */
void take_back(void);

#endif
