/* Gorrindatz for hosts in C and C++ on x86-64 Linux: the calls of the library libgorrindatz.a (crates/gorrindatz_c).

   Every call takes every input, allocates nothing and keeps nothing: what it knows of a session lies in the tables that you lend.
   A refusal is a number (below), and leaves every lent number and byte as it was; only a run keeps what its rows before the
   refused one did. docs/PROMISES.md says what is proved of each call.

   What you owe, since nothing can check it: each pointer is aligned for its type, not null, and valid for its length, also where
   the length is 0; lengths count elements, not bytes, and no slice is longer than 2^63 - 1 bytes; what is lent to be written
   overlaps nothing else that is lent, and no other thread touches it during the call; and the stack has room (README.md).

   A part of a text is answered by its place: the bytes from `start` on, `size` of them. No header is included here. */
#ifndef GORRINDATZ_H
#define GORRINDATZ_H

#ifdef __cplusplus
#define GORRINDATZ_ASSERT(holds, says) static_assert(holds, says)
typedef bool gorrindatz_bool;
extern "C" {
#else
#define GORRINDATZ_ASSERT(holds, says) _Static_assert(holds, says)
typedef _Bool gorrindatz_bool;
#endif

typedef __UINT8_TYPE__ gorrindatz_u8;
typedef __UINT32_TYPE__ gorrindatz_u32;
typedef __UINT64_TYPE__ gorrindatz_u64;
typedef __SIZE_TYPE__ gorrindatz_size;

/* Limits (document 01). A value is 1 to 4,294,967,295; 0 stands for unbound. */
enum {
    GORRINDATZ_WIDTH = 4,                            /* parameters, and numbers of a combination */
    GORRINDATZ_SEEN_STRIDE = GORRINDATZ_WIDTH,       /* numbers of a row of the seen table */
    GORRINDATZ_KEPT_STRIDE = GORRINDATZ_WIDTH + 1,   /* of the kept table: a combination and its state */
    GORRINDATZ_REPORT_STRIDE = GORRINDATZ_WIDTH + 1, /* of the reports: a combination and its verdict */
    GORRINDATZ_MOST_EVENTS = 16,
    GORRINDATZ_MOST_STATES = 64,
    GORRINDATZ_MOST_SEEN = 1024,      /* rows of the seen table that are used; more may be lent */
    GORRINDATZ_MOST_KEPT = 3000,      /* rows of the kept table that are used; more may be lent */
    GORRINDATZ_TEXT_BYTES = 4096,     /* the longest declarations, and the longest pattern */
    GORRINDATZ_ROW_BYTES = 128,       /* the longest row of a log, its line end not counted */
    GORRINDATZ_MOST_LINE = 72         /* the longest line that is printed for a row, its line end counted */
};

/* Verdicts, and the set of those that a property asks for. */
enum { GORRINDATZ_UNDECIDED = 0, GORRINDATZ_MATCH = 1, GORRINDATZ_FAIL = 2 };
enum { GORRINDATZ_ASKS_MATCH = 1, GORRINDATZ_ASKS_FAIL = 2, GORRINDATZ_ASKS_BOTH = 3 };

/* Refusals: what `refusal` says in an answer. README.md says what to do about each. */
enum {
    GORRINDATZ_TAKEN = 0,
    GORRINDATZ_TEXT_TOO_LONG = 1,        /* declarations or pattern longer than 4,096 bytes */
    GORRINDATZ_BAD_SHAPE = 2,            /* declarations: a row of the wrong shape */
    GORRINDATZ_BAD_NAME = 3,             /* a bad name */
    GORRINDATZ_NAME_TWICE = 4,           /* a name twice */
    GORRINDATZ_OVER_LIMITS = 5,          /* over 4 parameters, over 16 events, or no event */
    GORRINDATZ_NOT_OF_GRAMMAR = 6,       /* the pattern is not of the grammar, at an offset */
    GORRINDATZ_UNDECLARED_EVENT = 7,     /* the pattern names an undeclared event, at an offset */
    GORRINDATZ_TOO_MANY_NAMES = 8,       /* a 32nd event name in the pattern, at an offset */
    GORRINDATZ_TOO_DEEP = 9,             /* a parenthesis opened while 16 are open, at an offset */
    GORRINDATZ_TOO_MANY_STATES = 10,     /* more than 64 states */
    GORRINDATZ_BAD_PROPERTY = 11,        /* a number of the property table outside its range, or no verdict asked for */
    GORRINDATZ_BAD_SESSION = 12,         /* counts or tables that no session leaves */
    GORRINDATZ_NO_SUCH_EVENT = 13,       /* event number not declared */
    GORRINDATZ_WRONG_VALUES = 14,        /* values other than exactly those that the event binds */
    GORRINDATZ_NO_ROOM_FOR_SEEN = 15,    /* no room for another seen binding */
    GORRINDATZ_NO_ROOM_FOR_KEPT = 16,    /* no room for the kept combinations after the event, or at the start */
    GORRINDATZ_NO_ROOM_FOR_REPORTS = 17, /* no room for the reports of the event */
    GORRINDATZ_BAD_ROW = 18,             /* a row over 128 bytes, with a CR, LF or quote, or a wrong number of fields */
    GORRINDATZ_UNKNOWN_EVENT = 19,       /* a row's event is not declared */
    GORRINDATZ_BAD_VALUE = 20,           /* a field that is neither empty nor a value */
    GORRINDATZ_WRONG_FIELDS = 21,        /* filled fields other than those that the event binds */
    GORRINDATZ_HEADER_DIFFERS = 22,      /* the log's header is not that of the declarations */
    GORRINDATZ_BAD_LOOKUP = 23,          /* lookup: a number past the parameters is not 0 */
    GORRINDATZ_OFFSET_PAST_LOG = 24,     /* an offset past the log */
    GORRINDATZ_TABLE_DIFFERS = 25        /* declarations and property table differ in counts or sets */
};

/* What declarations say; where they are refused, all else is 0. */
typedef struct gorrindatz_declared {
    gorrindatz_u8 refusal;
    gorrindatz_size parameters;
    gorrindatz_size events;
    gorrindatz_u8 sets[GORRINDATZ_MOST_EVENTS]; /* of each event the parameters that it binds: bit k for parameter k */
} gorrindatz_declared;

/* A part of a text that was lent. */
typedef struct gorrindatz_part {
    gorrindatz_size start;
    gorrindatz_size size;
} gorrindatz_part;

/* A row of a log: whether one begins there, where it ends (its line end not counted), and where the next one begins. */
typedef struct gorrindatz_place {
    gorrindatz_bool there;
    gorrindatz_size end;
    gorrindatz_size next;
} gorrindatz_place;

/* A property table. Any numbers may be handed over; those outside their ranges are refused 11. */
typedef struct gorrindatz_property {
    gorrindatz_size parameters;
    gorrindatz_size events;
    gorrindatz_size states;
    gorrindatz_u8 asked; /* GORRINDATZ_ASKS_.. */
    gorrindatz_u8 sets[GORRINDATZ_MOST_EVENTS];
    gorrindatz_u8 next[GORRINDATZ_MOST_STATES * GORRINDATZ_MOST_EVENTS]; /* event e leads from state s to next[s * 16 + e] */
    gorrindatz_u8 verdicts[GORRINDATZ_MOST_STATES];
} gorrindatz_property;

/* A translated pattern; where it is refused, the offset for 6 to 9, and a table of zeros. */
typedef struct gorrindatz_translated {
    gorrindatz_u8 refusal;
    gorrindatz_size at;
    gorrindatz_property property;
} gorrindatz_translated;

/* What the check of a property table says: 0 or 11, and its hopeful states (bit s for state s), none where it is refused. */
typedef struct gorrindatz_checked {
    gorrindatz_u8 refusal;
    gorrindatz_u64 hopeful;
} gorrindatz_checked;

/* What a start, an event or a row leaves: how many rows of seen and kept count now, and how many reports were written.
   Hand the counts to the next call. A refusal gives them as they were handed over (a start: 0). */
typedef struct gorrindatz_answered {
    gorrindatz_u8 refusal;
    gorrindatz_size seen;
    gorrindatz_size kept;
    gorrindatz_size reported;
} gorrindatz_answered;

/* What a lookup finds; where nothing is held, the combination can never be reported again. */
typedef struct gorrindatz_looked {
    gorrindatz_u8 refusal;
    gorrindatz_bool held;
    gorrindatz_u32 state;
    gorrindatz_u8 verdict;
} gorrindatz_looked;

/* What a run leaves: rows taken, the offset of the row after them, counts and reports; `refusal` is what stopped it. */
typedef struct gorrindatz_ran {
    gorrindatz_u8 refusal;
    gorrindatz_size taken;
    gorrindatz_size next;
    gorrindatz_size seen;
    gorrindatz_size kept;
    gorrindatz_size reported;
} gorrindatz_ran;

/* What printing leaves: offset and number of the row that comes next, counts, and the bytes of the text that are filled. */
typedef struct gorrindatz_printed {
    gorrindatz_u8 refusal;
    gorrindatz_size next;
    gorrindatz_size number;
    gorrindatz_size seen;
    gorrindatz_size kept;
    gorrindatz_size filled;
} gorrindatz_printed;

/* The layouts that the library was compiled with; crates/gorrindatz asserts the same sums. */
#define GORRINDATZ_LAYOUT(type, bytes) GORRINDATZ_ASSERT(sizeof(gorrindatz_##type) == (bytes), #type)
#define GORRINDATZ_FIELD(type, field, place) \
    GORRINDATZ_ASSERT(__builtin_offsetof(gorrindatz_##type, field) == (place), #type "." #field)
GORRINDATZ_LAYOUT(u8, 1);
GORRINDATZ_LAYOUT(u32, 4);
GORRINDATZ_LAYOUT(u64, 8);
GORRINDATZ_LAYOUT(size, 8);
GORRINDATZ_LAYOUT(bool, 1);
GORRINDATZ_LAYOUT(declared, 40);
GORRINDATZ_FIELD(declared, refusal, 0);
GORRINDATZ_FIELD(declared, parameters, 8);
GORRINDATZ_FIELD(declared, events, 16);
GORRINDATZ_FIELD(declared, sets, 24);
GORRINDATZ_LAYOUT(part, 16);
GORRINDATZ_FIELD(part, start, 0);
GORRINDATZ_FIELD(part, size, 8);
GORRINDATZ_LAYOUT(place, 24);
GORRINDATZ_FIELD(place, there, 0);
GORRINDATZ_FIELD(place, end, 8);
GORRINDATZ_FIELD(place, next, 16);
GORRINDATZ_LAYOUT(property, 1136);
GORRINDATZ_FIELD(property, parameters, 0);
GORRINDATZ_FIELD(property, events, 8);
GORRINDATZ_FIELD(property, states, 16);
GORRINDATZ_FIELD(property, asked, 24);
GORRINDATZ_FIELD(property, sets, 25);
GORRINDATZ_FIELD(property, next, 41);
GORRINDATZ_FIELD(property, verdicts, 1065);
GORRINDATZ_LAYOUT(translated, 1152);
GORRINDATZ_FIELD(translated, refusal, 0);
GORRINDATZ_FIELD(translated, at, 8);
GORRINDATZ_FIELD(translated, property, 16);
GORRINDATZ_LAYOUT(checked, 16);
GORRINDATZ_FIELD(checked, refusal, 0);
GORRINDATZ_FIELD(checked, hopeful, 8);
GORRINDATZ_LAYOUT(answered, 32);
GORRINDATZ_FIELD(answered, refusal, 0);
GORRINDATZ_FIELD(answered, seen, 8);
GORRINDATZ_FIELD(answered, kept, 16);
GORRINDATZ_FIELD(answered, reported, 24);
GORRINDATZ_LAYOUT(looked, 12);
GORRINDATZ_FIELD(looked, refusal, 0);
GORRINDATZ_FIELD(looked, held, 1);
GORRINDATZ_FIELD(looked, state, 4);
GORRINDATZ_FIELD(looked, verdict, 8);
GORRINDATZ_LAYOUT(ran, 48);
GORRINDATZ_FIELD(ran, refusal, 0);
GORRINDATZ_FIELD(ran, taken, 8);
GORRINDATZ_FIELD(ran, next, 16);
GORRINDATZ_FIELD(ran, seen, 24);
GORRINDATZ_FIELD(ran, kept, 32);
GORRINDATZ_FIELD(ran, reported, 40);
GORRINDATZ_LAYOUT(printed, 48);
GORRINDATZ_FIELD(printed, refusal, 0);
GORRINDATZ_FIELD(printed, next, 8);
GORRINDATZ_FIELD(printed, number, 16);
GORRINDATZ_FIELD(printed, seen, 24);
GORRINDATZ_FIELD(printed, kept, 32);
GORRINDATZ_FIELD(printed, filled, 40);

/* Texts ------------------------------------------------------------------------------------------------------------------- */

/* The class of a byte: 0 letter, 1 digit, 2 underscore, 3 blank, 4 to 10 the marks ( ) : | * + @, 11 other. */
gorrindatz_u8 gorrindatz_class_of(gorrindatz_u8 byte);

/* What declarations say; refused 1 to 5. */
gorrindatz_declared gorrindatz_declarations(const gorrindatz_u8 *text, gorrindatz_size text_length);

/* Whether a row, without its line end, is the header that a log of these declarations has: 0, or refused 1 to 5, 22. */
gorrindatz_u8 gorrindatz_header(const gorrindatz_u8 *declarations, gorrindatz_size declarations_length,
                                const gorrindatz_u8 *row, gorrindatz_size row_length);

/* Where a field of a row lies, field 0 the event's name; where there is none, the empty part at the start. */
gorrindatz_part gorrindatz_field(const gorrindatz_u8 *row, gorrindatz_size row_length, gorrindatz_size number);

/* Where an event's name lies in the declarations; where there is none, the empty part at the start. */
gorrindatz_part gorrindatz_event_name(const gorrindatz_u8 *declarations, gorrindatz_size declarations_length, gorrindatz_size event);

/* Where the name at an offset of a pattern text lies; where there is none, the empty part at the start. */
gorrindatz_part gorrindatz_pattern_name(const gorrindatz_u8 *pattern, gorrindatz_size pattern_length, gorrindatz_size at);

/* The row of a log that begins at an offset, any offset. */
gorrindatz_place gorrindatz_row_at(const gorrindatz_u8 *log, gorrindatz_size log_length, gorrindatz_size at);

/* Properties --------------------------------------------------------------------------------------------------------------- */

/* The property table of a pattern over declared events; refused 1 to 10. */
gorrindatz_translated gorrindatz_translate(const gorrindatz_u8 *declarations, gorrindatz_size declarations_length,
                                           const gorrindatz_u8 *pattern, gorrindatz_size pattern_length);

/* Whether a property table is taken, and its hopeful states; refused 11. */
gorrindatz_checked gorrindatz_check(gorrindatz_property property);

/* Sessions: `seen` and `kept` are the lent tables, `seen_count` and `kept_count` the rows of them that count ------------------ */

/* A fresh session; refused 11, 16. */
gorrindatz_answered gorrindatz_start(gorrindatz_property property, gorrindatz_u32 *seen, gorrindatz_size seen_length,
                                     gorrindatz_u32 *kept, gorrindatz_size kept_length);

/* One event with its values; refused 11, 12, 13, 14, 15 to 17. */
gorrindatz_answered gorrindatz_event(gorrindatz_property property, gorrindatz_u32 *seen, gorrindatz_size seen_length,
                                     gorrindatz_size seen_count, gorrindatz_u32 *kept, gorrindatz_size kept_length,
                                     gorrindatz_size kept_count, gorrindatz_u32 *reports, gorrindatz_size reports_length,
                                     gorrindatz_size event, const gorrindatz_u32 values[GORRINDATZ_WIDTH]);

/* The kept state that a combination's rows have led to; refused 11, 12, 23. */
gorrindatz_looked gorrindatz_lookup(gorrindatz_property property, const gorrindatz_u32 *seen, gorrindatz_size seen_length,
                                    gorrindatz_size seen_count, const gorrindatz_u32 *kept, gorrindatz_size kept_length,
                                    gorrindatz_size kept_count, const gorrindatz_u32 combination[GORRINDATZ_WIDTH]);

/* Logs --------------------------------------------------------------------------------------------------------------------- */

/* One row, without its line end; refused 1 to 5, 11, 25, 12, 18 to 21, 15 to 17. */
gorrindatz_answered gorrindatz_row(const gorrindatz_u8 *declarations, gorrindatz_size declarations_length,
                                   gorrindatz_property property, gorrindatz_u32 *seen, gorrindatz_size seen_length,
                                   gorrindatz_size seen_count, gorrindatz_u32 *kept, gorrindatz_size kept_length,
                                   gorrindatz_size kept_count, gorrindatz_u32 *reports, gorrindatz_size reports_length,
                                   const gorrindatz_u8 *row, gorrindatz_size row_length);

/* Rows of a log from an offset on, at most `budget`; refused 1 to 5, 11, 25, 12, 24, or stopped by the refusal of a row. */
gorrindatz_ran gorrindatz_run(const gorrindatz_u8 *declarations, gorrindatz_size declarations_length, gorrindatz_property property,
                              gorrindatz_u32 *seen, gorrindatz_size seen_length, gorrindatz_size seen_count, gorrindatz_u32 *kept,
                              gorrindatz_size kept_length, gorrindatz_size kept_count, gorrindatz_u32 *reports,
                              gorrindatz_size reports_length, const gorrindatz_u8 *log, gorrindatz_size log_length,
                              gorrindatz_size at, gorrindatz_size budget);

/* Rows of a log from an offset on, and the lines that the watch program prints for them; `number` is that of the first row. It
   stops before a row whose lines might not fit in the text: write the text away and call again with what was answered. A text
   that has room for one line of GORRINDATZ_MOST_LINE bytes for each kept row, and for one at least, always goes on. Refused 1 to
   5, 11, 25, 12, 24. */
gorrindatz_printed gorrindatz_print(const gorrindatz_u8 *declarations, gorrindatz_size declarations_length,
                                    gorrindatz_property property, gorrindatz_u32 *seen, gorrindatz_size seen_length,
                                    gorrindatz_size seen_count, gorrindatz_u32 *kept, gorrindatz_size kept_length,
                                    gorrindatz_size kept_count, gorrindatz_u32 *reports, gorrindatz_size reports_length,
                                    const gorrindatz_u8 *log, gorrindatz_size log_length, gorrindatz_size at,
                                    gorrindatz_size number, gorrindatz_u8 *text, gorrindatz_size text_length);

#ifdef __cplusplus
}
#endif
#endif
