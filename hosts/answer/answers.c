/* Writing answers (docs/CASES.md, "The form"). */
#include "answers.h"

enum {
    BUFFER_BYTES = 65536,
    LEAST_RUN = 4 /* equal numbers of a list that are written once */
};

static gorrindatz_u8 buffer[BUFFER_BYTES];
static gorrindatz_size filled;

/* Whether the line that is written has an item. */
static gorrindatz_bool line_begun;

/* The last number of a list that is not ended, and how often it stands there; these are not written yet. */
static gorrindatz_u32 run_number;
static gorrindatz_size run_length;

void flush_answers(void)
{
    struct bytes held = {buffer, filled};
    if (!write_whole(STANDARD_OUTPUT, held))
        give_up(HOST_FAILED, "cannot write to", "standard output");
    filled = 0;
}

static void put_byte(gorrindatz_u8 byte)
{
    if (filled == BUFFER_BYTES)
        flush_answers();
    buffer[filled++] = byte;
}

static void put_bytes(struct bytes bytes)
{
    for (gorrindatz_size i = 0; i < bytes.size; i++)
        put_byte(bytes.first[i]);
}

static void put_number(gorrindatz_u64 number)
{
    gorrindatz_u8 room[MOST_DIGITS];
    put_bytes(decimal(number, room));
}

static void begin_item(void)
{
    if (line_begun)
        put_byte(' ');
    line_begun = 1;
}

void say_word(const char *word)
{
    begin_item();
    put_bytes(bytes_of(word));
}

void say_number(gorrindatz_u64 number)
{
    begin_item();
    put_number(number);
}

void say_bytes(struct bytes bytes)
{
    say_number(bytes.size);
    put_byte(':');
    put_bytes(bytes);
}

void say_refused(gorrindatz_u8 refusal, gorrindatz_size offset)
{
    say_word("refused");
    say_number(refusal);
    say_number(offset);
}

void begin_list(gorrindatz_size count)
{
    say_number(count);
    run_length = 0;
}

void add_to_list(gorrindatz_u32 number)
{
    if (number != run_number)
        end_list();
    run_number = number;
    run_length++;
}

void end_list(void)
{
    if (run_length >= LEAST_RUN) {
        say_number(run_number);
        put_byte('*');
        put_number(run_length);
        run_length = 0;
    }
    for (; run_length > 0; run_length--)
        say_number(run_number);
}

void say_list(const gorrindatz_u32 *numbers, gorrindatz_size count)
{
    begin_list(count);
    for (gorrindatz_size i = 0; i < count; i++)
        add_to_list(numbers[i]);
    end_list();
}

void say_small_list(const gorrindatz_u8 *numbers, gorrindatz_size count)
{
    begin_list(count);
    for (gorrindatz_size i = 0; i < count; i++)
        add_to_list(numbers[i]);
    end_list();
}

void end_answer(void)
{
    put_byte('\n');
    line_begun = 0;
}
