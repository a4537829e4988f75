/* A host in C: the rows of the README's example, one after another, as a gateway would hand them over. */
#include "gorrindatz.h"
int printf(const char *format, ...); /* as in <stdio.h> and <string.h>; the kit's compiler has no headers */
gorrindatz_size strlen(const char *text);

#define LENGTH(array) (sizeof(array) / sizeof((array)[0]))
#define TEXT(literal) (const gorrindatz_u8 *)(literal), sizeof(literal) - 1
#define EVENTS "event,bay,batch\r\nmix,0,1\r\nfeed,1,1\r\ndrain,1,0\r\n"

/* rooms for 64 seen bindings, 64 kept combinations, and 64 reports of one row */
static gorrindatz_u32 seen[64 * GORRINDATZ_SEEN_STRIDE], kept[64 * GORRINDATZ_KEPT_STRIDE];
static gorrindatz_u32 reports[64 * GORRINDATZ_REPORT_STRIDE];

int main(void) {
    static const char *const rows[] = {"mix,,7", "feed,1,7", "drain,2,", "feed,2,7", "drain,1,", "drain,2,"};
    gorrindatz_translated t = gorrindatz_translate(TEXT(EVENTS), TEXT("ere : mix feed+ drain @match"));
    gorrindatz_answered a = gorrindatz_start(t.property, seen, LENGTH(seen), kept, LENGTH(kept));
    if (a.refusal != GORRINDATZ_TAKEN) { /* a refused pattern gives a table of zeros, which start refuses */
        printf("refused %d at %lu\n", t.refusal, t.at);
        return 1;
    }
    for (unsigned i = 0; i < LENGTH(rows); i++) {
        a = gorrindatz_row(TEXT(EVENTS), t.property, seen, LENGTH(seen), a.seen, kept, LENGTH(kept), a.kept, reports,
                           LENGTH(reports), (const gorrindatz_u8 *)rows[i], strlen(rows[i]));
        if (a.refusal != GORRINDATZ_TAKEN) printf("row %u: refused %d\n", i + 1, a.refusal);
        for (gorrindatz_size k = 0; k < a.reported; k++) {
            const gorrindatz_u32 *r = reports + k * GORRINDATZ_REPORT_STRIDE;
            printf("row %u: bay %u, batch %u: %s\n", i + 1, r[0], r[1], r[GORRINDATZ_WIDTH] == GORRINDATZ_MATCH ? "match" : "fail");
        }
    }
    return 0;
}
