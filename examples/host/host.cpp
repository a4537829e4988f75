// The same library from C++: what a pattern is translated to, and which of its states are hopeful.
#include "gorrindatz.h"
extern "C" int printf(const char *format, ...); // as in <cstdio>; the kit's compiler has no headers

template <gorrindatz_size N> gorrindatz_translated translated(const char (&events)[N], const char *pattern) {
    return gorrindatz_translate(reinterpret_cast<const gorrindatz_u8 *>(events), N - 1,
                                reinterpret_cast<const gorrindatz_u8 *>(pattern), __builtin_strlen(pattern));
}

int main() {
    const auto t = translated("event,bay,batch\r\nmix,0,1\r\nfeed,1,1\r\ndrain,1,0\r\n", "ere : mix feed+ drain @match");
    const auto checked = gorrindatz_check(t.property);
    for (gorrindatz_size s = 0; s < t.property.states; s++)
        printf("state %u: verdict %d%s\n", static_cast<unsigned>(s), t.property.verdicts[s], checked.hopeful >> s & 1 ? ", hopeful" : "");
    return t.refusal;
}
