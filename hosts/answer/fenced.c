/* The library's calls, every slice of them between fences. The order in which the arguments of a call are lent is no matter. */
#include "fenced.h"

/* Texts ------------------------------------------------------------------------------------------------------------------- */

gorrindatz_declared fenced_declarations(struct bytes text)
{
    gorrindatz_declared declared = gorrindatz_declarations(lend_text(DECLARATIONS, text), text.size);
    take_back();
    if (declared.events > GORRINDATZ_MOST_EVENTS)
        give_up(LIBRARY_FAILED, "the library answered too many", "events");
    return declared;
}

gorrindatz_u8 fenced_header(struct bytes declarations, struct bytes row)
{
    gorrindatz_u8 refusal =
        gorrindatz_header(lend_text(DECLARATIONS, declarations), declarations.size, lend_text(ROW, row), row.size);
    take_back();
    return refusal;
}

struct bytes fenced_field(struct bytes row, gorrindatz_size number)
{
    gorrindatz_part part = gorrindatz_field(lend_text(ROW, row), row.size, number);
    take_back();
    return part_of(row, part.start, part.size);
}

struct bytes fenced_event_name(struct bytes declarations, gorrindatz_size event)
{
    gorrindatz_part part = gorrindatz_event_name(lend_text(DECLARATIONS, declarations), declarations.size, event);
    take_back();
    return part_of(declarations, part.start, part.size);
}

struct bytes fenced_pattern_name(struct bytes pattern, gorrindatz_size at)
{
    gorrindatz_part part = gorrindatz_pattern_name(lend_text(PATTERN, pattern), pattern.size, at);
    take_back();
    return part_of(pattern, part.start, part.size);
}

struct row fenced_row_at(struct bytes text, gorrindatz_size at)
{
    gorrindatz_place place = gorrindatz_row_at(lend_text(LOG, text), text.size, at);
    take_back();
    struct row row = {place.there, bytes_of(""), 0};
    if (!place.there)
        return row;
    if (place.end < at || place.next <= at)
        give_up(LIBRARY_FAILED, "the library answered a row before", "its offset");
    row.bytes = part_of(text, at, place.end - at);
    row.next = at + part_of(text, at, place.next - at).size;
    return row;
}

/* Properties --------------------------------------------------------------------------------------------------------------- */

gorrindatz_translated fenced_translate(struct bytes declarations, struct bytes pattern)
{
    gorrindatz_translated translated = gorrindatz_translate(lend_text(DECLARATIONS, declarations), declarations.size,
                                                            lend_text(PATTERN, pattern), pattern.size);
    take_back();
    return translated;
}

/* Sessions ----------------------------------------------------------------------------------------------------------------- */

gorrindatz_answered fenced_start(struct session *session)
{
    gorrindatz_answered answered = gorrindatz_start(session->property, lend_table(SEEN, &session->seen), session->seen.length,
                                                    lend_table(KEPT, &session->kept), session->kept.length);
    take_back();
    return answered;
}

gorrindatz_answered fenced_event(struct session *session, gorrindatz_size event, const gorrindatz_u32 values[GORRINDATZ_WIDTH])
{
    gorrindatz_answered answered =
        gorrindatz_event(session->property, lend_table(SEEN, &session->seen), session->seen.length, session->seen_count,
                         lend_table(KEPT, &session->kept), session->kept.length, session->kept_count,
                         lend_table(REPORTS, &session->reports), session->reports.length, event, lend_values(values));
    take_back();
    return answered;
}

gorrindatz_looked fenced_lookup(struct session *session, const gorrindatz_u32 combination[GORRINDATZ_WIDTH])
{
    gorrindatz_looked looked =
        gorrindatz_lookup(session->property, lend_table_to_read(SEEN, &session->seen), session->seen.length,
                          session->seen_count, lend_table_to_read(KEPT, &session->kept), session->kept.length,
                          session->kept_count, lend_values(combination));
    take_back();
    return looked;
}

/* Logs --------------------------------------------------------------------------------------------------------------------- */

gorrindatz_answered fenced_row(struct session *session, struct bytes row)
{
    gorrindatz_answered answered =
        gorrindatz_row(lend_text(DECLARATIONS, session->declarations), session->declarations.size, session->property,
                       lend_table(SEEN, &session->seen), session->seen.length, session->seen_count,
                       lend_table(KEPT, &session->kept), session->kept.length, session->kept_count,
                       lend_table(REPORTS, &session->reports), session->reports.length, lend_text(ROW, row), row.size);
    take_back();
    return answered;
}

gorrindatz_ran fenced_run(struct session *session, struct bytes log, gorrindatz_size at, gorrindatz_size budget)
{
    gorrindatz_ran ran =
        gorrindatz_run(lend_text(DECLARATIONS, session->declarations), session->declarations.size, session->property,
                       lend_table(SEEN, &session->seen), session->seen.length, session->seen_count,
                       lend_table(KEPT, &session->kept), session->kept.length, session->kept_count,
                       lend_table(REPORTS, &session->reports), session->reports.length,
                       lend_text(LOG, log), log.size, at, budget);
    take_back();
    return ran;
}

gorrindatz_printed fenced_print(struct session *session, struct bytes log, gorrindatz_size at, gorrindatz_size number,
                                gorrindatz_size room, struct growing *printed)
{
    gorrindatz_u8 *text = lend_text_room(room);
    struct bytes whole_text = {text, room};
    gorrindatz_printed answered =
        gorrindatz_print(lend_text(DECLARATIONS, session->declarations), session->declarations.size, session->property,
                         lend_table(SEEN, &session->seen), session->seen.length, session->seen_count,
                         lend_table(KEPT, &session->kept), session->kept.length, session->kept_count,
                         lend_table(REPORTS, &session->reports), session->reports.length,
                         lend_text(LOG, log), log.size, at, number, text, room);
    take_back();
    add_bytes(printed, part_of(whole_text, 0, answered.filled));
    return answered;
}
