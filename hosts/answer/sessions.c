/* The calls of a session. */
#include "answers.h"
#include "calls.h"
#include "remembered.h"

/* Start is given no counts: where it is refused it answers both as 0, and those remembered stay. */
void answer_start(struct items *items)
{
    if (!request_ends(items))
        return;
    gorrindatz_answered answered = fenced_start(&remembered);
    if (answered.refusal != GORRINDATZ_TAKEN) {
        say_refused(answered.refusal, 0);
        say_tables_with_counts(answered.seen, answered.kept);
        return;
    }
    remembered.seen_count = answered.seen;
    remembered.kept_count = answered.kept;
    say_word("taken");
    say_tables();
}

void answer_event(struct items *items)
{
    gorrindatz_u32 values[GORRINDATZ_WIDTH];
    gorrindatz_u32 event = read_number(items);
    read_values(items, values);
    if (request_ends(items))
        say_step(fenced_event(&remembered, event, values));
}

void answer_lookup(struct items *items)
{
    gorrindatz_u32 combination[GORRINDATZ_WIDTH];
    read_values(items, combination);
    if (!request_ends(items))
        return;
    gorrindatz_looked looked = fenced_lookup(&remembered, combination);
    if (looked.refusal != GORRINDATZ_TAKEN) {
        say_refused(looked.refusal, 0);
    } else if (!looked.held) {
        say_word("hopeless");
    } else {
        say_word("found");
        say_number(looked.state);
        say_number(looked.verdict);
    }
    say_tables();
}

/* Does an event again and again, until one is refused; answers that refusal, or 0. */
static gorrindatz_u8 grow(gorrindatz_u64 times, gorrindatz_u32 event, gorrindatz_u32 values[GORRINDATZ_WIDTH],
                          const gorrindatz_u32 steps[GORRINDATZ_WIDTH], gorrindatz_u64 *taken, gorrindatz_u64 *reported)
{
    for (*taken = 0, *reported = 0; *taken < times; (*taken)++) {
        gorrindatz_answered answered = fenced_event(&remembered, event, values);
        remembered.seen_count = answered.seen;
        remembered.kept_count = answered.kept;
        if (answered.refusal != GORRINDATZ_TAKEN)
            return answered.refusal;
        *reported += answered.reported;
        for (int k = 0; k < GORRINDATZ_WIDTH; k++)
            values[k] += steps[k];
    }
    return GORRINDATZ_TAKEN;
}

void answer_grow(struct items *items)
{
    gorrindatz_u32 values[GORRINDATZ_WIDTH];
    gorrindatz_u32 steps[GORRINDATZ_WIDTH];
    gorrindatz_u64 times = read_long(items);
    gorrindatz_u32 event = read_number(items);
    read_values(items, values);
    read_values(items, steps);
    if (!request_ends(items))
        return;
    gorrindatz_u64 taken;
    gorrindatz_u64 reported;
    gorrindatz_u8 refusal = grow(times, event, values, steps, &taken, &reported);
    say_word("grown");
    say_number(taken);
    say_number(reported);
    say_number(refusal);
    say_number(remembered.seen_count);
    say_number(remembered.kept_count);
}
