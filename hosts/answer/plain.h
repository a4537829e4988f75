/* What every file of this host stands on: the functions of the C library that it calls, declared by hand because the
   toolchain's compiler brings no headers; parts of bytes, bytes that grow, decimal digits; and giving up. */
#ifndef PLAIN_H
#define PLAIN_H

#include "gorrindatz.h"

void *memcpy(void *to, const void *from, gorrindatz_size bytes);
int memcmp(const void *one, const void *other, gorrindatz_size bytes);
gorrindatz_size strlen(const char *text);
void *realloc(void *old, gorrindatz_size bytes);
long read(int descriptor, void *to, gorrindatz_size bytes);
long write(int descriptor, const void *from, gorrindatz_size bytes);
_Noreturn void exit(int status);

enum { STANDARD_INPUT = 0, STANDARD_OUTPUT = 1, STANDARD_ERROR = 2 };

/* Exit statuses. */
enum { HOST_FAILED = 1, LIBRARY_FAILED = 3 };

/* Bytes that lie elsewhere; `first` is never null. */
struct bytes {
    const gorrindatz_u8 *first;
    gorrindatz_size size;
};

/* Bytes that grow at their end; all zero is the empty one. */
struct growing {
    gorrindatz_u8 *first;
    gorrindatz_size size;
    gorrindatz_size room;
};

struct bytes bytes_of(const char *text);

/* A part of bytes, where the library says that it lies. Gives up on the library if it lies outside. */
struct bytes part_of(struct bytes whole, gorrindatz_size start, gorrindatz_size size);

/* Room for so many bytes in all; `first` is then not null. */
void have_room(struct growing *growing, gorrindatz_size room);

void add_bytes(struct growing *growing, struct bytes more);

/* What it holds, until it grows. */
struct bytes held_by(const struct growing *growing);

/* A number in decimal digits, at the end of the room that is given. */
enum { MOST_DIGITS = 20 };
struct bytes decimal(gorrindatz_u64 number, gorrindatz_u8 room[MOST_DIGITS]);

/* Whether all bytes could be written. */
gorrindatz_bool write_whole(int descriptor, struct bytes bytes);

/* Says on standard error what went wrong, and with what, and exits. */
_Noreturn void give_up(int status, const char *what, const char *with);

#endif
