/* Parts of bytes, bytes that grow, decimal digits, and giving up. */
#include "plain.h"

enum { LEAST_ROOM = 65536 };

struct bytes bytes_of(const char *text)
{
    struct bytes bytes = {(const gorrindatz_u8 *)text, strlen(text)};
    return bytes;
}

struct bytes part_of(struct bytes whole, gorrindatz_size start, gorrindatz_size size)
{
    if (start > whole.size || size > whole.size - start)
        give_up(LIBRARY_FAILED, "the library answered a part outside", "its text");
    struct bytes part = {whole.first + start, size};
    return part;
}

void have_room(struct growing *growing, gorrindatz_size room)
{
    if (growing->first && room <= growing->room)
        return;
    gorrindatz_size larger = LEAST_ROOM;
    while (larger < room)
        larger *= 2;
    growing->first = realloc(growing->first, larger);
    if (!growing->first)
        give_up(HOST_FAILED, "out of", "memory");
    growing->room = larger;
}

void add_bytes(struct growing *growing, struct bytes more)
{
    have_room(growing, growing->size + more.size);
    memcpy(growing->first + growing->size, more.first, more.size);
    growing->size += more.size;
}

struct bytes held_by(const struct growing *growing)
{
    if (growing->size == 0)
        return bytes_of("");
    struct bytes held = {growing->first, growing->size};
    return held;
}

struct bytes decimal(gorrindatz_u64 number, gorrindatz_u8 room[MOST_DIGITS])
{
    gorrindatz_size at = MOST_DIGITS;
    do {
        room[--at] = (gorrindatz_u8)('0' + number % 10);
        number /= 10;
    } while (number > 0);
    struct bytes digits = {room + at, MOST_DIGITS - at};
    return digits;
}

gorrindatz_bool write_whole(int descriptor, struct bytes bytes)
{
    gorrindatz_size written = 0;
    while (written < bytes.size) {
        long more = write(descriptor, bytes.first + written, bytes.size - written);
        if (more <= 0)
            return 0;
        written += (gorrindatz_size)more;
    }
    return 1;
}

_Noreturn void give_up(int status, const char *what, const char *with)
{
    const char *line[] = {"answer: ", what, " ", with, "\n"};
    for (gorrindatz_size i = 0; i < sizeof line / sizeof *line; i++)
        (void)write_whole(STANDARD_ERROR, bytes_of(line[i]));
    exit(status);
}
