/* The calls on patterns and property tables. */
#include "answers.h"
#include "calls.h"
#include "fenced.h"

/* The states of a set, bit s for state s, ascending. */
static void say_states(gorrindatz_u64 set)
{
    gorrindatz_u32 states[GORRINDATZ_MOST_STATES];
    gorrindatz_size count = 0;
    for (gorrindatz_u32 state = 0; state < GORRINDATZ_MOST_STATES; state++)
        if (set >> state & 1)
            states[count++] = state;
    say_list(states, count);
}

static void say_table(gorrindatz_property property)
{
    say_word("table");
    say_number(property.parameters);
    say_number(property.events);
    say_number(property.states);
    say_number(property.asked);
    say_word("sets");
    say_small_list(property.sets, sizeof property.sets);
    say_word("next");
    say_small_list(property.next, sizeof property.next);
    say_word("verdicts");
    say_small_list(property.verdicts, sizeof property.verdicts);
    say_word("hopeful");
    say_states(gorrindatz_check(property).hopeful);
}

void answer_translate(struct items *items)
{
    struct bytes declarations = read_bytes(items);
    struct bytes pattern = read_bytes(items);
    if (!request_ends(items))
        return;
    gorrindatz_translated translated = fenced_translate(declarations, pattern);
    if (translated.refusal != GORRINDATZ_TAKEN)
        say_refused(translated.refusal, translated.at);
    else
        say_table(translated.property);
}

/* The state that an event leads to; both numbers are looked at before they are used as places. */
static gorrindatz_u8 state_after(const gorrindatz_property *property, gorrindatz_u8 state, gorrindatz_u32 event)
{
    if (state >= GORRINDATZ_MOST_STATES || event >= GORRINDATZ_MOST_EVENTS)
        give_up(LIBRARY_FAILED, "the library answered a table outside", "its ranges");
    return property->next[state * GORRINDATZ_MOST_EVENTS + event];
}

/* The verdict of each beginning of a sequence, the empty one first. */
static void say_verdicts(const gorrindatz_property *property, struct items sequence)
{
    gorrindatz_u8 state = 0;
    gorrindatz_u64 count = read_long(&sequence);
    say_word("verdicts");
    begin_list(count + 1);
    add_to_list(property->verdicts[state]);
    for (gorrindatz_u64 i = 0; i < count; i++) {
        state = state_after(property, state, read_number(&sequence));
        add_to_list(property->verdicts[state]);
    }
    end_list();
}

/* Reads a sequence of events of any length; answers a number that is larger than all of them. */
static gorrindatz_u64 read_sequence(struct items *items)
{
    gorrindatz_u64 above = 0;
    gorrindatz_u64 count = read_long(items);
    for (gorrindatz_u64 i = 0; i < count && !items->stuck; i++) {
        gorrindatz_u32 event = read_number(items);
        if (event >= above)
            above = (gorrindatz_u64)event + 1;
    }
    return above;
}

void answer_verdicts(struct items *items)
{
    struct bytes declarations = read_bytes(items);
    struct bytes pattern = read_bytes(items);
    struct items sequence = *items; /* the same items once more, to be followed when they are known to be of the form */
    gorrindatz_u64 above = read_sequence(items);
    if (!request_ends(items))
        return;
    gorrindatz_translated translated = fenced_translate(declarations, pattern);
    if (translated.refusal != GORRINDATZ_TAKEN)
        say_refused(translated.refusal, translated.at);
    else if (above > translated.property.events)
        say_refused(GORRINDATZ_NO_SUCH_EVENT, 0);
    else
        say_verdicts(&translated.property, sequence);
}

void answer_check(struct items *items)
{
    gorrindatz_property property = read_property(items);
    if (!request_ends(items))
        return;
    gorrindatz_checked checked = gorrindatz_check(property);
    if (checked.refusal != GORRINDATZ_TAKEN) {
        say_refused(checked.refusal, 0);
        return;
    }
    say_word("taken");
    say_states(checked.hopeful);
}
