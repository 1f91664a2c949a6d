/* The words of refusals as include/drasumira.h has them: numbers 0 to 40 at five places, each text whole and cut at every room. ./test holds what it writes to
   what the Rust package's Display says (oracle/link/refusals.rs). */
#include "drasumira.h"

#include <stdio.h>

int main(void) {
    static const uint32_t places[] = {0, 1, 7, 10, 4294967295u};
    char whole[DRASUMIRA_REFUSAL_ROOM], part[DRASUMIRA_REFUSAL_ROOM];
    uint32_t number;
    size_t p, i, length, room;
    for (number = 0; number <= 40; number++) {
        for (p = 0; p < sizeof places / sizeof *places; p++) {
            length = drasumira_refusal_text(number, places[p], whole, sizeof whole);
            if (length >= sizeof whole || whole[length] != '\0') return printf("refusal %lu: the text has no room\n", (unsigned long)number), 1;
            for (room = 0; room <= length + 1; room++) {
                for (i = 0; i < sizeof part; i++) part[i] = '?';
                if (drasumira_refusal_text(number, places[p], part, room) != length) return printf("another length at room %lu\n", (unsigned long)room), 1;
                for (i = 0; i < sizeof part; i++) {
                    char wanted = i >= room ? '?' : i + 1 == room ? '\0' : whole[i];
                    if (part[i] != wanted) return printf("another text at room %lu\n", (unsigned long)room), 1;
                }
            }
            printf("%s\n", whole);
        }
    }
    return 0;
}
