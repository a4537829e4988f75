/* The library's calls, on bytes and sessions of this host: every slice is lent between fences and taken back at once, and
   nothing that is answered is used as a place before it is looked at. No other file calls the library with a slice. */
#ifndef FENCED_H
#define FENCED_H

#include "lent.h"

/* All that the calls of a session are given. They change the tables; the counts are for the caller to take over. */
struct session {
    gorrindatz_property property;
    struct bytes declarations;
    gorrindatz_size seen_count;
    gorrindatz_size kept_count;
    struct table seen;
    struct table kept;
    struct table reports;
};

/* A row of a text, without its line end, and the place of the next one; where no row begins, both are empty. */
struct row {
    gorrindatz_bool there;
    struct bytes bytes;
    gorrindatz_size next;
};

gorrindatz_declared fenced_declarations(struct bytes text);
gorrindatz_u8 fenced_header(struct bytes declarations, struct bytes row);
struct bytes fenced_field(struct bytes row, gorrindatz_size number);
struct bytes fenced_event_name(struct bytes declarations, gorrindatz_size event);
struct bytes fenced_pattern_name(struct bytes pattern, gorrindatz_size at);
struct row fenced_row_at(struct bytes text, gorrindatz_size at);

gorrindatz_translated fenced_translate(struct bytes declarations, struct bytes pattern);

gorrindatz_answered fenced_start(struct session *session);
gorrindatz_answered fenced_event(struct session *session, gorrindatz_size event, const gorrindatz_u32 values[GORRINDATZ_WIDTH]);
gorrindatz_looked fenced_lookup(struct session *session, const gorrindatz_u32 combination[GORRINDATZ_WIDTH]);

gorrindatz_answered fenced_row(struct session *session, struct bytes row);
gorrindatz_ran fenced_run(struct session *session, struct bytes log, gorrindatz_size at, gorrindatz_size budget);

/* Prints into a text of `room` bytes, and adds what was printed to `printed`. */
gorrindatz_printed fenced_print(struct session *session, struct bytes log, gorrindatz_size at, gorrindatz_size number,
                                gorrindatz_size room, struct growing *printed);

#endif
