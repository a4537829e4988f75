/* Slices that are lent to the library, each between two fences. */
#include "lent.h"

static const char *const names[ROLES] = {
    [DECLARATIONS] = "the declarations",
    [PATTERN] = "the pattern",
    [ROW] = "the row",
    [LOG] = "the log",
    [TEXT] = "the text that is printed into",
    [VALUES] = "the values",
    [SEEN] = "the seen table",
    [KEPT] = "the kept table",
    [REPORTS] = "the reports",
};

/* No byte of it is 0, the likeliest to be written astray. */
static const char fence[] = "|This fence has sixty-four bytes, and no call touches any of it|";
_Static_assert(sizeof fence == FENCE_BYTES + 1, "the bytes of a fence, and the zero that ends the literal");

/* A slice that is lent now; `original` is what it must still hold, or null if it is lent to be written. */
struct lent {
    gorrindatz_u8 *first;
    gorrindatz_size bytes;
    const void *original;
};

static struct lent lent_now[ROLES];

/* Where copies lie, one place for each role. */
static struct growing places[ROLES];

static void lend(enum role role, void *first, gorrindatz_size bytes, const void *original)
{
    struct lent slice = {first, bytes, original};
    memcpy(slice.first - FENCE_BYTES, fence, FENCE_BYTES);
    memcpy(slice.first + bytes, fence, FENCE_BYTES);
    lent_now[role] = slice;
}

/* A place for so many bytes between two fences, aligned for numbers. */
static void *place_for(enum role role, gorrindatz_size bytes)
{
    have_room(&places[role], FENCE_BYTES + bytes + FENCE_BYTES);
    return places[role].first + FENCE_BYTES;
}

static void *lend_copy(enum role role, const void *original, gorrindatz_size bytes)
{
    void *copy = place_for(role, bytes);
    memcpy(copy, original, bytes);
    lend(role, copy, bytes, original);
    return copy;
}

const gorrindatz_u8 *lend_text(enum role role, struct bytes text)
{
    return lend_copy(role, text.first, text.size);
}

const gorrindatz_u32 *lend_values(const gorrindatz_u32 values[GORRINDATZ_WIDTH])
{
    return lend_copy(VALUES, values, GORRINDATZ_WIDTH * sizeof *values);
}

gorrindatz_u8 *lend_text_room(gorrindatz_size size)
{
    void *room = place_for(TEXT, size);
    lend(TEXT, room, size, 0);
    return room;
}

gorrindatz_u32 *numbers_of(struct table *table)
{
    return table->cells + FENCE_NUMBERS;
}

gorrindatz_u32 *lend_table(enum role role, struct table *table)
{
    lend(role, numbers_of(table), table->length * sizeof *table->cells, 0);
    return numbers_of(table);
}

const gorrindatz_u32 *lend_table_to_read(enum role role, struct table *table)
{
    gorrindatz_size bytes = table->length * sizeof *table->cells;
    void *as_it_was = place_for(role, bytes);
    memcpy(as_it_was, numbers_of(table), bytes);
    lend(role, numbers_of(table), bytes, as_it_was);
    return numbers_of(table);
}

void take_back(void)
{
    for (int role = 0; role < ROLES; role++) {
        struct lent slice = lent_now[role];
        if (!slice.first)
            continue;
        if (memcmp(slice.first - FENCE_BYTES, fence, FENCE_BYTES) != 0)
            give_up(LIBRARY_FAILED, "the library wrote before", names[role]);
        if (memcmp(slice.first + slice.bytes, fence, FENCE_BYTES) != 0)
            give_up(LIBRARY_FAILED, "the library wrote behind", names[role]);
        if (slice.original && memcmp(slice.first, slice.original, slice.bytes) != 0)
            give_up(LIBRARY_FAILED, "the library was to read, but changed,", names[role]);
        lent_now[role].first = 0;
    }
}
