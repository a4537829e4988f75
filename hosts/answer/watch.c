/* `watch`: what the watch program prints for its three files (document 01, "The program and its example"). */
#include "answers.h"
#include "calls.h"
#include "fenced.h"

static struct growing printed;

static void print(struct bytes text)
{
    add_bytes(&printed, text);
}

/* The only line of files that are refused. */
static void print_refusal(gorrindatz_u8 refusal)
{
    gorrindatz_u8 room[MOST_DIGITS];
    print(bytes_of("refused "));
    print(decimal(refusal, room));
    print(bytes_of("\r\n"));
}

static void print_heading(struct bytes declarations, gorrindatz_size parameters)
{
    struct bytes header = fenced_row_at(declarations, 0).bytes;
    print(bytes_of("row,verdict"));
    for (gorrindatz_size number = 1; number <= parameters; number++) {
        print(bytes_of(","));
        print(fenced_field(header, number));
    }
    print(bytes_of("\r\n"));
}

/* A text that the next row's lines are sure to fit in, and few more: so a long output takes many calls. */
static gorrindatz_size text_room(gorrindatz_size kept_count)
{
    gorrindatz_size lines = 2 * kept_count + 1;
    return (lines < GORRINDATZ_MOST_KEPT + 1 ? lines : GORRINDATZ_MOST_KEPT + 1) * GORRINDATZ_MOST_LINE;
}

/* The rows from an offset on, into a session that has started. */
static void print_rows(struct session *session, struct bytes log, gorrindatz_size at)
{
    gorrindatz_size number = 1;
    while (at < log.size) {
        gorrindatz_printed more = fenced_print(session, log, at, number, text_room(session->kept_count), &printed);
        if (more.refusal != GORRINDATZ_TAKEN || more.next <= at)
            give_up(LIBRARY_FAILED, "the library does not go on in", "the log");
        session->seen_count = more.seen;
        session->kept_count = more.kept;
        number = more.number;
        at = more.next;
    }
}

/* The program's session: the rooms for seen and kept are the largest that are used, that for reports is 3,000 rows. */
static void print_log(struct bytes declarations, gorrindatz_property property, struct bytes log, gorrindatz_size at)
{
    static struct session session;
    session.property = property;
    session.declarations = declarations;
    session.seen.length = GORRINDATZ_MOST_SEEN * GORRINDATZ_SEEN_STRIDE;
    session.kept.length = GORRINDATZ_MOST_KEPT * GORRINDATZ_KEPT_STRIDE;
    session.reports.length = 3000 * GORRINDATZ_REPORT_STRIDE;
    gorrindatz_answered started = fenced_start(&session);
    if (started.refusal != GORRINDATZ_TAKEN)
        give_up(LIBRARY_FAILED, "the library refuses", "to start");
    session.seen_count = started.seen;
    session.kept_count = started.kept;
    print_rows(&session, log, at);
}

static void print_all(struct bytes declarations, struct bytes pattern, struct bytes log)
{
    gorrindatz_translated translated = fenced_translate(declarations, pattern);
    if (translated.refusal != GORRINDATZ_TAKEN) {
        print_refusal(translated.refusal);
        return;
    }
    struct row header = fenced_row_at(log, 0);
    gorrindatz_u8 refusal = fenced_header(declarations, header.bytes);
    if (refusal != GORRINDATZ_TAKEN) {
        print_refusal(refusal);
        return;
    }
    print_heading(declarations, translated.property.parameters);
    print_log(declarations, translated.property, log, header.next);
}

void answer_watch(struct items *items)
{
    struct bytes declarations = read_bytes(items);
    struct bytes pattern = read_bytes(items);
    struct bytes log = read_bytes(items);
    if (!request_ends(items))
        return;
    printed.size = 0;
    print_all(declarations, pattern, log);
    say_bytes(held_by(&printed));
}
