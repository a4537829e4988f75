/* The calls on logs: a row, a run, and the lines that the watch program prints for the last row. */
#include "answers.h"
#include "calls.h"
#include "remembered.h"

/* What was remembered before the last row, and its bytes, which stay in the batch. */
static gorrindatz_bool row_came;
static struct session before_row;
static struct bytes last_row;

void answer_row(struct items *items)
{
    struct bytes row = read_bytes(items);
    if (!request_ends(items))
        return;
    copy_session(&before_row, &remembered);
    last_row = row;
    row_came = 1;
    say_step(fenced_row(&remembered, row));
}

void answer_run(struct items *items)
{
    gorrindatz_size offset = read_long(items);
    gorrindatz_size budget = read_long(items);
    struct bytes log = read_bytes(items);
    if (!request_ends(items))
        return;
    gorrindatz_ran ran = fenced_run(&remembered, log, offset, budget);
    remembered.seen_count = ran.seen;
    remembered.kept_count = ran.kept;
    say_word("run");
    say_number(ran.taken);
    say_number(ran.next);
    say_number(ran.reported);
    say_number(ran.refusal);
    say_tables();
}

static gorrindatz_bool has_line_end(struct bytes row)
{
    for (gorrindatz_size i = 1; i < row.size; i++)
        if (row.first[i - 1] == '\r' && row.first[i] == '\n')
            return 1;
    return 0;
}

/* A log of one row. A row with a CR LF inside cannot stand in a log as one row; it is refused 18 whatever else it holds, and so
   is a lone LF, which is put in its place. */
static struct bytes log_of(struct bytes row)
{
    static struct growing log;
    log.size = 0;
    add_bytes(&log, has_line_end(row) ? bytes_of("\n") : row);
    add_bytes(&log, bytes_of("\r\n"));
    return held_by(&log);
}

/* Room for the lines of one row. Of a session with more kept rows than there can be, none is printed. */
static gorrindatz_size room_for_row(gorrindatz_size kept_count)
{
    if (kept_count == 0 || kept_count > GORRINDATZ_MOST_KEPT)
        return GORRINDATZ_MOST_LINE;
    return kept_count * GORRINDATZ_MOST_LINE;
}

/* Prints the last row over again, from what was remembered before it. A call that is refused prints nothing. */
void answer_lines(struct items *items)
{
    static struct session again;
    static struct growing printed;
    gorrindatz_size number = read_long(items);
    if (!request_ends(items))
        return;
    printed.size = 0;
    if (row_came) {
        copy_session(&again, &before_row);
        (void)fenced_print(&again, log_of(last_row), 0, number, room_for_row(again.kept_count), &printed);
    }
    say_bytes(held_by(&printed));
}
