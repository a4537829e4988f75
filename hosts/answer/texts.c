/* The calls on texts: bytes and their classes, declarations and names, rows and fields. */
#include "answers.h"
#include "calls.h"
#include "fenced.h"

enum { BYTE_VALUES = 256 };

void answer_classes(struct items *items)
{
    if (!request_ends(items))
        return;
    say_word("classes");
    begin_list(BYTE_VALUES);
    for (int byte = 0; byte < BYTE_VALUES; byte++)
        add_to_list(gorrindatz_class_of((gorrindatz_u8)byte));
    end_list();
}

void answer_declarations(struct items *items)
{
    struct bytes text = read_bytes(items);
    if (!request_ends(items))
        return;
    gorrindatz_declared declared = fenced_declarations(text);
    if (declared.refusal != GORRINDATZ_TAKEN) {
        say_refused(declared.refusal, 0);
        return;
    }
    say_word("declared");
    say_number(declared.parameters);
    say_small_list(declared.sets, declared.events);
}

void answer_header(struct items *items)
{
    struct bytes declarations = read_bytes(items);
    struct bytes row = read_bytes(items);
    if (!request_ends(items))
        return;
    gorrindatz_u8 refusal = fenced_header(declarations, row);
    if (refusal != GORRINDATZ_TAKEN)
        say_refused(refusal, 0);
    else
        say_word("taken");
}

void answer_field(struct items *items)
{
    gorrindatz_size number = read_long(items);
    struct bytes row = read_bytes(items);
    if (request_ends(items))
        say_bytes(fenced_field(row, number));
}

void answer_rowat(struct items *items)
{
    gorrindatz_size offset = read_long(items);
    struct bytes text = read_bytes(items);
    if (!request_ends(items))
        return;
    struct row row = fenced_row_at(text, offset);
    if (row.there) {
        say_word("row");
        say_bytes(row.bytes);
        say_number(row.next);
    } else if (offset == text.size) {
        say_word("end");
    } else {
        say_refused(GORRINDATZ_OFFSET_PAST_LOG, 0);
    }
}

void answer_rows(struct items *items)
{
    struct bytes text = read_bytes(items);
    if (!request_ends(items))
        return;
    gorrindatz_size count = 0;
    for (struct row row = fenced_row_at(text, 0); row.there; row = fenced_row_at(text, row.next))
        count++;
    say_word("rows");
    say_number(count);
    for (struct row row = fenced_row_at(text, 0); row.there; row = fenced_row_at(text, row.next))
        say_bytes(row.bytes);
}

void answer_namebynumber(struct items *items)
{
    gorrindatz_size event = read_long(items);
    struct bytes declarations = read_bytes(items);
    (void)read_bytes(items); /* the pattern, which has no part in it */
    if (request_ends(items))
        say_bytes(fenced_event_name(declarations, event));
}

void answer_namebyoffset(struct items *items)
{
    gorrindatz_size offset = read_long(items);
    (void)read_bytes(items); /* the declarations, which have no part in it */
    struct bytes pattern = read_bytes(items);
    if (request_ends(items))
        say_bytes(fenced_pattern_name(pattern, offset));
}

static gorrindatz_bool same(struct bytes one, struct bytes other)
{
    return one.size == other.size && memcmp(one.first, other.first, one.size) == 0;
}

void answer_numberofname(struct items *items)
{
    struct bytes declarations = read_bytes(items);
    struct bytes name = read_bytes(items);
    if (!request_ends(items))
        return;
    gorrindatz_size events = fenced_declarations(declarations).events; /* 0 where they are refused */
    gorrindatz_size event = 0;
    while (event < events && !same(fenced_event_name(declarations, event), name))
        event++;
    if (event == events) {
        say_word("none");
        return;
    }
    say_word("event");
    say_number(event);
}
