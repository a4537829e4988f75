/* Writing answers (docs/CASES.md, "The form"): the items of a line, with one space between two, through one buffer to standard
   output. */
#ifndef ANSWERS_H
#define ANSWERS_H

#include "plain.h"

void say_word(const char *word);

void say_number(gorrindatz_u64 number);

void say_bytes(struct bytes bytes);

/* `refused`, the number of the refusal and its offset. */
void say_refused(gorrindatz_u8 refusal, gorrindatz_size offset);

void say_list(const gorrindatz_u32 *numbers, gorrindatz_size count);

void say_small_list(const gorrindatz_u8 *numbers, gorrindatz_size count);

/* A list whose numbers come one by one: its length, each number, and its end. */
void begin_list(gorrindatz_size count);
void add_to_list(gorrindatz_u32 number);
void end_list(void);

void end_answer(void);

/* Writes out what the buffer holds. */
void flush_answers(void);

#endif
