/* Answers the batch of requests on standard input (docs/CASES.md) by calling the library, so that its answers can be compared
   byte for byte with those of the second program. Exit status: 0, also for a batch that is not of the form; 1 if memory, input
   or output failed the host; 3 if the library touched what it must not, or answered what cannot be. */
#include "answers.h"
#include "calls.h"
#include "remembered.h"

struct call {
    const char *word;
    void (*answer)(struct items *items);
};

static const struct call calls[] = {
    {"classes", answer_classes},
    {"declarations", answer_declarations},
    {"header", answer_header},
    {"field", answer_field},
    {"rowat", answer_rowat},
    {"rows", answer_rows},
    {"namebynumber", answer_namebynumber},
    {"namebyoffset", answer_namebyoffset},
    {"numberofname", answer_numberofname},
    {"translate", answer_translate},
    {"verdicts", answer_verdicts},
    {"check", answer_check},
    {"watch", answer_watch},
    {"property", answer_property},
    {"declare", answer_declare},
    {"pattern", answer_pattern},
    {"seen", answer_seen},
    {"kept", answer_kept},
    {"reports", answer_reports},
    {"fill", answer_fill},
    {"start", answer_start},
    {"event", answer_event},
    {"lookup", answer_lookup},
    {"row", answer_row},
    {"run", answer_run},
    {"lines", answer_lines},
    {"grow", answer_grow},
    {"tables", answer_tables},
    {"digest", answer_digest},
};

/* The call of a word, or null. */
static const struct call *call_of(struct bytes word)
{
    for (gorrindatz_size i = 0; i < sizeof calls / sizeof *calls; i++)
        if (word.size == strlen(calls[i].word) && memcmp(word.first, calls[i].word, word.size) == 0)
            return &calls[i];
    return 0;
}

/* Answers the next request; a word that is none of a call is not of the form. */
static void answer_request(struct items *items)
{
    const struct call *call = call_of(read_word(items));
    if (call)
        call->answer(items);
    else
        items->stuck = 1;
    if (items->stuck)
        say_word("malformed");
    end_answer();
}

static void read_batch(struct growing *batch)
{
    long more;
    do {
        have_room(batch, batch->size + 1);
        more = read(STANDARD_INPUT, batch->first + batch->size, batch->room - batch->size);
        if (more < 0)
            give_up(HOST_FAILED, "cannot read", "standard input");
        batch->size += (gorrindatz_size)more;
    } while (more > 0);
}

int main(void)
{
    static struct growing batch;
    read_batch(&batch);
    struct items items = {held_by(&batch), 0, 0};
    remember_nothing();
    while (items.at < items.batch.size && !items.stuck)
        answer_request(&items);
    flush_answers();
    return 0;
}
