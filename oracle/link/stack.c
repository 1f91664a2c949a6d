/* How many bytes of stack each entry of the library takes, its callees among them: `oracle/link/run-x86 oracle/link/stack.c build/library/libhost.a OUT`
   after `oracle/link/library`. It is also a C host: it calls every entry that include/drasumira.h declares.
   The stack below the caller is painted before a call, and looked through for the first word that is no longer the paint. Tables: no class
   record, or to be packed and unpacked 8,192 of them with letters of their own, no suspicious pair, one language, a page without an unused entry. Texts: small letters; of the second engine a letter and a space in turn, which nests its readers deepest. Rankings: each entry a language of its own.
   Each call must be accepted: the status is 1 where one is refused. */
#include "drasumira.h"

#include <stdio.h>

typedef uint8_t u8;
typedef uint16_t u16;
typedef uint32_t u32;
typedef size_t usize;

enum { LONGEST = 65536, RANKED = 8192, WORK = 8, RANKINGS = 64, RANKING_LONGEST = 63, MERGED = RANKINGS * RANKING_LONGEST, DEPTH = 1 << 21, SECOND_LONGEST = 4096, CLASSES = 8192, SLACK = 256 };

static u32 spaced[SECOND_LONGEST], text[LONGEST], out[LONGEST], work[WORK * RANKED], each[RANKINGS];
static u8 bytes[LONGEST], back[LONGEST], pairs[32768], language[1032], ring[LONGEST], flushed[LONGEST];
static u8 classes[24 * CLASSES], records[16 * CLASSES], letters[8 * CLASSES], unpacked[24 * CLASSES];
static u16 page[128];
static DrasumiraCoherenceMatch matches[1], list[MERGED], merged[MERGED];
static DrasumiraScore told;
static DrasumiraOpened opened;
static usize n;
static u32 number; /* of the last answer */

#define LENT 0, 0, pairs, sizeof pairs
#define COMPACT records, sizeof records, letters, sizeof letters, pairs, sizeof pairs
#define RANKING LENT, language, sizeof language, 0, 0, work, WORK * n, matches, 1
static void check_classes(void) { number = drasumira_check_classes(0, 0).number; }
static void read_bytes(void) { number = drasumira_read(bytes, n, out, n).number; }
static void read_page(void) { number = drasumira_read_page(page, 128, bytes, n, out, n).number; }
static void write_page(void) { number = drasumira_write_page(page, 128, text, n, back, n).number; }
static void score(void) { number = drasumira_score(&told, text, n, 9, LENT)->number; }
static void second_score(void) { number = drasumira_second_score(&told, spaced, n, 9, LENT)->number; }
static void score_default(void) { number = drasumira_score_default(&told, text, n, LENT)->number; }
static void score_utf8(void) { number = drasumira_score_utf8(&told, bytes, n, 9, LENT)->number; }
static void score_utf8_default(void) { number = drasumira_score_utf8_default(&told, bytes, n, LENT)->number; }
static void score_lines(void) { number = drasumira_score_lines(bytes, n, 9, LENT, out, LONGEST).number; }
static void pack(void) { number = drasumira_pack(classes, sizeof classes, records, sizeof records, letters, sizeof letters).number; }
static void unpack(void) { number = drasumira_unpack(records, sizeof records, letters, sizeof letters, unpacked, sizeof unpacked).number; }
static void score_compact(void) { number = drasumira_score_compact(&told, text, n, 9, COMPACT)->number; }
static void score_compact_default(void) { number = drasumira_score_compact_default(&told, text, n, COMPACT)->number; }
static void score_utf8_compact(void) { number = drasumira_score_utf8_compact(&told, bytes, n, 9, COMPACT)->number; }
static void score_utf8_compact_default(void) { number = drasumira_score_utf8_compact_default(&told, bytes, n, COMPACT)->number; }
static void score_lines_compact(void) { number = drasumira_score_lines_compact(bytes, n, 9, COMPACT, out, LONGEST).number; }
static void verdict(void) { number = drasumira_verdict(text, n, text, n, LENT).number; }
static void choose(void) { number = drasumira_choose(text, n, text, n, LENT).number; }
static void coherence(void) { number = drasumira_coherence(text, n, 0, 32, RANKING).number; }
static void coherence_default(void) { number = drasumira_coherence_default(text, n, 32, RANKING).number; }
static void write_utf8(void) { number = drasumira_write_utf8(text, n, flushed, LONGEST).number; }
static void merge(void) {
    for (usize i = 0; i < RANKINGS; i++) {
        usize before = i * RANKING_LONGEST, left = n > before ? n - before : 0;
        each[i] = left < RANKING_LONGEST ? left : RANKING_LONGEST;
    }
    number = drasumira_merge(list, 2 * n, each, RANKINGS, merged, 2 * n).number;
}
static void report(void) { number = drasumira_report(text, n, flushed, LONGEST).number; }
static void open_line(void) { number = drasumira_open(&opened, n, 9, LENT)->number; }
static void feed(void) { open_line(), number = drasumira_feed(&opened.state, 'a', LENT).number; }
static void feed_all(void) { open_line(), number = drasumira_feed_all(&opened.state, text, n, LENT).number; }
static void close_line(void) { feed_all(), number = drasumira_close(&told, &opened.state)->number; }
static void reason(void) { number = drasumira_reason(text, n, 9, LENT, out, LONGEST).number; }
static void reason_utf8(void) { number = drasumira_reason_utf8(bytes, n, 9, LENT, out, LONGEST).number; }
static void class(void) { number = drasumira_class('a', 0, 0).number; }
static void ring_open(void) { number = drasumira_ring_open(ring, LONGEST).number; }
static void ring_put(void) { number = drasumira_ring_put(ring, LONGEST, 0, 0, n, 0, 1, 0, 0).number; }
static void ring_flush(void) { number = drasumira_ring_flush(ring, LONGEST, 0, 1, 1, flushed, LONGEST).number; }

#define PAINT 0xA5A5A5A5A5A5A5A5ul
static __attribute__((noinline)) usize used(void (*call)(void)) {
    usize top = (usize)__builtin_frame_address(0) - SLACK, bottom = (top - DEPTH) & ~7ul;
    for (volatile usize *at = (usize *)bottom; (usize)at < top; at++) *at = PAINT;
    call();
    volatile usize *at = (usize *)bottom;
    while ((usize)at < top && *at == PAINT) at++;
    return top + SLACK - (usize)at;
}

/* U+10000 and so on, each with letters of its own */
static void put_class(usize i) {
    u8 *record = classes + 24 * i;
    for (usize at = 0; at < 24; at += 4) {
        u32 word = at < 8 ? 0x10000 + i : at == 16 ? 0x100 + i : 0;
        for (usize k = 0; k < 4; k++) record[at + k] = word >> 8 * k;
    }
}

int main(void) {
    static const struct { const char *name; void (*call)(void); usize most; } entries[] = {
        {"check_classes", check_classes, LONGEST}, {"read", read_bytes, LONGEST},
        {"read_page", read_page, LONGEST}, {"write_page", write_page, LONGEST}, {"score", score, LONGEST},
        {"score_default", score_default, LONGEST}, {"second_score", second_score, SECOND_LONGEST}, {"score_utf8", score_utf8, LONGEST}, {"score_utf8_default", score_utf8_default, LONGEST},
        {"score_lines", score_lines, LONGEST}, {"pack", pack, LONGEST}, {"unpack", unpack, LONGEST}, {"score_compact", score_compact, LONGEST},
        {"score_compact_default", score_compact_default, LONGEST}, {"score_utf8_compact", score_utf8_compact, LONGEST},
        {"score_utf8_compact_default", score_utf8_compact_default, LONGEST}, {"score_lines_compact", score_lines_compact, LONGEST}, {"verdict", verdict, LONGEST}, {"choose", choose, LONGEST},
        {"coherence", coherence, RANKED}, {"coherence_default", coherence_default, RANKED},
        {"write_utf8", write_utf8, LONGEST}, {"merge", merge, MERGED}, {"report", report, LONGEST},
        {"open", open_line, LONGEST}, {"feed", feed, LONGEST}, {"feed_all", feed_all, LONGEST}, {"close", close_line, LONGEST},
        {"reason", reason, LONGEST}, {"reason_utf8", reason_utf8, LONGEST}, {"class", class, LONGEST},
        {"ring_open", ring_open, LONGEST}, {"ring_put", ring_put, LONGEST}, {"ring_flush", ring_flush, LONGEST},
    };
    static const usize lengths[] = {80, 256, 257, MERGED, 4096, 4097, RANKED, LONGEST};
    for (usize i = 0; i < LONGEST; i++) text[i] = bytes[i] = 'a' + i * 7 % 26;
    for (usize i = 0; i < SECOND_LONGEST; i++) spaced[i] = i % 2 ? ' ' : 'a';
    for (usize i = 0; i < 128; i++) page[i] = 0x400 + i;
    for (usize i = 0; i < MERGED; i++) list[i] = (DrasumiraCoherenceMatch){i, 0.5f};
    for (usize i = 0; i < CLASSES; i++) put_class(i);
    language[0] = 1, language[4] = 1, language[8] = 'a';
    for (usize e = 0; e < sizeof entries / sizeof *entries; e++) {
        printf("drasumira_%s", entries[e].name);
        for (usize i = 0; i < sizeof lengths / sizeof *lengths; i++) {
            n = lengths[i];
            if (n > entries[e].most) continue;
            printf(" %lu:%lu", n, used(entries[e].call));
            if (number) { printf("\ndrasumira_%s: refused with %u\n", entries[e].name, number); return 1; }
        }
        printf("\n");
    }
    return 0;
}
