/* Reading requests (docs/CASES.md, "The form"). */
#include "items.h"

enum { NO_BYTE = -1, LARGEST_BYTE = 255 };

static const gorrindatz_u64 LARGEST_NUMBER = 0xffffffff;
static const gorrindatz_u64 LARGEST_LONG = 0xffffffffffffffff;

static int next_byte(const struct items *items)
{
    if (items->stuck || items->at == items->batch.size)
        return NO_BYTE;
    return items->batch.first[items->at];
}

static void pass(struct items *items, int byte)
{
    if (next_byte(items) == byte)
        items->at++;
    else
        items->stuck = 1;
}

struct bytes read_word(struct items *items)
{
    gorrindatz_size start = items->at;
    while (next_byte(items) >= 'a' && next_byte(items) <= 'z')
        items->at++;
    struct bytes word = {items->batch.first + start, items->at - start};
    return word;
}

static gorrindatz_bool is_digit(int byte)
{
    return byte >= '0' && byte <= '9';
}

/* Decimal digits, of which the first is not 0 unless it is the only one. */
static gorrindatz_u64 read_digits(struct items *items)
{
    gorrindatz_size start = items->at;
    gorrindatz_u64 value = 0;
    while (is_digit(next_byte(items))) {
        gorrindatz_u64 digit = (gorrindatz_u64)(next_byte(items) - '0');
        if (value > (LARGEST_LONG - digit) / 10)
            items->stuck = 1;
        value = value * 10 + digit;
        items->at++;
    }
    gorrindatz_size digits = items->at - start;
    if (digits == 0 || (digits > 1 && items->batch.first[start] == '0'))
        items->stuck = 1;
    return value;
}

gorrindatz_u64 read_long(struct items *items)
{
    pass(items, ' ');
    gorrindatz_u64 value = read_digits(items);
    return items->stuck ? 0 : value;
}

gorrindatz_u32 read_number(struct items *items)
{
    gorrindatz_u64 value = read_long(items);
    if (value > LARGEST_NUMBER)
        items->stuck = 1;
    return items->stuck ? 0 : (gorrindatz_u32)value;
}

struct bytes read_bytes(struct items *items)
{
    gorrindatz_u64 size = read_long(items);
    pass(items, ':');
    if (size > items->batch.size - items->at)
        items->stuck = 1;
    struct bytes bytes = {items->batch.first + items->at, items->stuck ? 0 : size};
    items->at += bytes.size;
    return bytes;
}

void read_values(struct items *items, gorrindatz_u32 values[GORRINDATZ_WIDTH])
{
    for (int k = 0; k < GORRINDATZ_WIDTH; k++)
        values[k] = read_number(items);
}

gorrindatz_size read_list(struct items *items, gorrindatz_u32 *into, gorrindatz_size most)
{
    gorrindatz_size count = read_long(items);
    if (count > most) {
        items->stuck = 1;
        return 0;
    }
    for (gorrindatz_size i = 0; i < count; i++)
        into[i] = read_number(items);
    return count;
}

/* A number past 255 is held as 255: in a property table both are outside of every range. */
static gorrindatz_u8 as_byte(gorrindatz_u32 number)
{
    return number > LARGEST_BYTE ? LARGEST_BYTE : (gorrindatz_u8)number;
}

/* A list of at most so many numbers, which are held as bytes. */
static void read_small_list(struct items *items, gorrindatz_u8 *into, gorrindatz_size most)
{
    gorrindatz_u32 numbers[GORRINDATZ_MOST_STATES * GORRINDATZ_MOST_EVENTS];
    gorrindatz_size count = read_list(items, numbers, most);
    for (gorrindatz_size i = 0; i < count; i++)
        into[i] = as_byte(numbers[i]);
}

gorrindatz_property read_property(struct items *items)
{
    gorrindatz_property property = {0};
    property.parameters = read_number(items);
    property.events = read_number(items);
    property.states = read_number(items);
    property.asked = as_byte(read_number(items));
    read_small_list(items, property.sets, sizeof property.sets);
    read_small_list(items, property.next, sizeof property.next);
    read_small_list(items, property.verdicts, sizeof property.verdicts);
    return property;
}

gorrindatz_bool request_ends(struct items *items)
{
    pass(items, '\n');
    return !items->stuck;
}
