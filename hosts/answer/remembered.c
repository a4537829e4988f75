/* What a batch remembers: the requests that set it, and those that show it. */
#include "remembered.h"
#include "answers.h"
#include "calls.h"

struct session remembered;

void remember_nothing(void)
{
    remembered.declarations = bytes_of(""); /* all else is 0 */
}

static void copy_table(struct table *to, struct table *from)
{
    to->length = from->length;
    memcpy(numbers_of(to), numbers_of(from), from->length * sizeof *from->cells);
}

void copy_session(struct session *to, struct session *from)
{
    to->property = from->property;
    to->declarations = from->declarations;
    to->seen_count = from->seen_count;
    to->kept_count = from->kept_count;
    copy_table(&to->seen, &from->seen);
    copy_table(&to->kept, &from->kept);
    copy_table(&to->reports, &from->reports);
}

/* Requests that set it ----------------------------------------------------------------------------------------------------- */

static void say_ok_at_end(struct items *items)
{
    if (request_ends(items))
        say_word("ok");
}

void answer_property(struct items *items)
{
    remembered.property = read_property(items);
    say_ok_at_end(items);
}

/* The batch is in memory as long as the host runs, so the bytes may stay where they are. */
void answer_declare(struct items *items)
{
    remembered.declarations = read_bytes(items);
    say_ok_at_end(items);
}

void answer_pattern(struct items *items)
{
    struct bytes pattern = read_bytes(items);
    if (!request_ends(items))
        return;
    gorrindatz_translated translated = fenced_translate(remembered.declarations, pattern);
    if (translated.refusal != GORRINDATZ_TAKEN) {
        say_refused(translated.refusal, translated.at);
        return;
    }
    remembered.property = translated.property;
    say_word("ok");
}

static void read_table(struct items *items, struct table *table)
{
    table->length = read_list(items, numbers_of(table), MOST_NUMBERS);
}

void answer_seen(struct items *items)
{
    remembered.seen_count = read_long(items);
    read_table(items, &remembered.seen);
    say_ok_at_end(items);
}

void answer_kept(struct items *items)
{
    remembered.kept_count = read_long(items);
    read_table(items, &remembered.kept);
    say_ok_at_end(items);
}

void answer_reports(struct items *items)
{
    read_table(items, &remembered.reports);
    say_ok_at_end(items);
}

/* A length and a value: that many numbers, all of that value. */
static void fill_table(struct items *items, struct table *table)
{
    gorrindatz_size length = read_long(items);
    gorrindatz_u32 value = read_number(items);
    if (length > MOST_NUMBERS) {
        items->stuck = 1;
        return;
    }
    table->length = length;
    for (gorrindatz_size i = 0; i < length; i++)
        numbers_of(table)[i] = value;
}

void answer_fill(struct items *items)
{
    fill_table(items, &remembered.seen);
    fill_table(items, &remembered.kept);
    fill_table(items, &remembered.reports);
    remembered.seen_count = 0;
    remembered.kept_count = 0;
    say_ok_at_end(items);
}

/* Requests that show it ---------------------------------------------------------------------------------------------------- */

static void say_table_numbers(struct table *table)
{
    say_list(numbers_of(table), table->length);
}

void say_tables_with_counts(gorrindatz_size seen_count, gorrindatz_size kept_count)
{
    say_word("seen");
    say_number(seen_count);
    say_table_numbers(&remembered.seen);
    say_word("kept");
    say_number(kept_count);
    say_table_numbers(&remembered.kept);
    say_word("reports");
    say_table_numbers(&remembered.reports);
}

void say_tables(void)
{
    say_tables_with_counts(remembered.seen_count, remembered.kept_count);
}

void say_step(gorrindatz_answered answered)
{
    remembered.seen_count = answered.seen;
    remembered.kept_count = answered.kept;
    if (answered.refusal != GORRINDATZ_TAKEN) {
        say_refused(answered.refusal, 0);
    } else {
        say_word("taken");
        say_number(answered.reported);
    }
    say_tables();
}

void answer_tables(struct items *items)
{
    if (!request_ends(items))
        return;
    say_word("tables");
    say_tables();
}

static gorrindatz_u64 digested(gorrindatz_u64 digest, struct table *table)
{
    const gorrindatz_u64 modulus = 4294967291; /* the largest prime below 2 to the 32nd */
    for (gorrindatz_size i = 0; i < table->length; i++)
        digest = (digest * 31 + numbers_of(table)[i] + 1) % modulus;
    return digest;
}

void answer_digest(struct items *items)
{
    if (!request_ends(items))
        return;
    gorrindatz_u64 digest = digested(digested(digested(0, &remembered.seen), &remembered.kept), &remembered.reports);
    say_word("digest");
    say_number(remembered.seen_count);
    say_number(remembered.kept_count);
    say_number(digest);
}
