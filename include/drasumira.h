/* Drasumira: how much a text looks like noise, and why, and which languages it may be in.

   The entries of libdrasumira.a, for C99 and C++ on 64-bit Linux. docs/HOST.md has all that a host must see to, and the stack that each entry takes; what each
   answers for every input is proved (docs/PROMISES.md). The library allocates nothing, keeps nothing between calls, makes no system call and asks for memcpy and
   memset alone. Any thread may call it, and as many at once as one likes.

   - A slice is two arguments: a pointer to its first element and the number of its elements. Of no elements the pointer may be anything, NULL too.
     What has no const is written: it overlaps no other slice of the call. No pointer and no length is checked: they must be true.
   - A text is code points, a uint32_t each. The entries with utf8 in their name, drasumira_read and drasumira_score_lines take UTF-8 bytes.
   - An answer has a number, 0 where the call was accepted and else the refusal's (DRASUMIRA_TOO_LONG and its fellows), and its place, in the
     units that the refusal says. In a refusal every other member is 0, but for which of two texts was refused, and nothing that was lent has changed.
     Of several causes the one that stands first in the entry's comment is told. drasumira_refusal_text has the words.
   - An answer of more than 16 bytes is written through the first argument, told, which is never NULL and is returned.
   - classes, pairs and languages are the bytes of tables/classes.bin, pairs.bin and languages.bin, or a table of the host's own in the same form; records and
     letters are those of tables/compact, the class table in its smaller form. They are checked in every call, and a bad one is refused. A threshold is any finite float; where the sum of a text reaches it, the text counts as noise.

   house/header.py holds this file to the library's own declarations. */
#ifndef DRASUMIRA_H
#define DRASUMIRA_H

#include <stddef.h>
#include <stdint.h>

#define DRASUMIRA_VERSION "0.3.0"

/* ---- refusals */

#define DRASUMIRA_ACCEPTED 0
#define DRASUMIRA_TOO_LONG 1       /* over 262,144 bytes or 65,536 code points; under a page 65,536 bytes; a ranking 8,192 code points; lines 16,777,216 bytes */
#define DRASUMIRA_ILL_FORMED 2     /* bytes that are not UTF-8, place the first byte of the bad sequence; under a page an unused byte, place its index */
#define DRASUMIRA_NO_ROOM 3        /* a lent output or work area is too short */
#define DRASUMIRA_NOT_FINITE 4     /* the threshold is no finite number; in merging a score not from 0 to 1, place its entry */
#define DRASUMIRA_BAD_CLASSES 5    /* the class table: place its first bad record, or 0 for its length or number; then a compact one's letters, in the same way */
#define DRASUMIRA_UNCLASSED 6      /* a code point in no class record: place its index in the text */
#define DRASUMIRA_BAD_PAIRS 7      /* the pair table is not 32,768 bytes */
#define DRASUMIRA_BAD_LANGUAGES 8  /* the language table: place as for 5 */
#define DRASUMIRA_BAD_INCLUDED 9   /* over 64 included numbers, place 0, or one that is not in the table, place its index */
#define DRASUMIRA_BAD_PAGE 10      /* the code page: place its first bad entry, or 0 where it has not 128 */
#define DRASUMIRA_NOT_ON_PAGE 11   /* the page has no byte for a code point: place its index in the text */
#define DRASUMIRA_NOT_SCALAR 12    /* a number that is no scalar value, in a text to write as UTF-8: place its index */
#define DRASUMIRA_LINE_FULL 13     /* a character past the length that was declared for a line */
#define DRASUMIRA_LINE_SHORT 14    /* a line closed with fewer characters than were declared */
#define DRASUMIRA_BAD_RING 15      /* a ring that is not 1 to 2,048 records of 32 bytes, a head not below its size or a count above it */
#define DRASUMIRA_RING_FULL 16     /* a ring that holds as many records as it has slots */
#define DRASUMIRA_MANY_LINES 17    /* more than 65,535 lines in a report */
#define DRASUMIRA_BAD_LENGTHS 18   /* over 64 rankings to merge, one of over 63 entries, or lengths that do not add up to the list */
#define DRASUMIRA_BAD_STATE 19     /* a running state that cannot be gone on with */

/* The words of a refusal, with # where its place stands; NULL for a number that has none. The Rust package says the same: ./test holds the two together. */
static inline const char *drasumira_refusal_words(uint32_t number, uint32_t place) {
    switch (number) {
    case DRASUMIRA_TOO_LONG:
        return "the text is over 262,144 bytes or 65,536 code points, in a ranking over 8,192 code points, or many lines are over 16,777,216 bytes";
    case DRASUMIRA_ILL_FORMED: return "the bytes are not UTF-8, or not of the code page, from byte # on";
    case DRASUMIRA_NO_ROOM: return "a lent output or work area is too short";
    case DRASUMIRA_NOT_FINITE: return "the threshold is not a finite number, or the score of entry # to merge is not from 0 to 1";
    case DRASUMIRA_BAD_CLASSES:
        return place == 0 ? "the class table is not good: its length, its number of records, or record 0; or of a compact one the letters' length, or letters 0"
                          : "the class table is not good: record #, counted from 0, is the first bad one; or of a compact one letters # are";
    case DRASUMIRA_UNCLASSED:
        return "the code point at index # of the text, or in a ranking its lower case, is in no record of the class table";
    case DRASUMIRA_BAD_PAIRS: return "the pair table is not 32,768 bytes";
    case DRASUMIRA_BAD_LANGUAGES:
        return place == 0 ? "the language table is not good: its length, its number of records, or record 0"
                          : "the language table is not good: record #, counted from 0, is the first bad one";
    case DRASUMIRA_BAD_INCLUDED:
        return place == 0 ? "over 64 numbers are included, or the one at index 0 is in no record of the language table"
                          : "the included number at index # is in no record of the language table";
    case DRASUMIRA_BAD_PAGE:
        return place == 0 ? "the code page is not good: its number of entries, or entry 0"
                          : "the code page is not good: entry #, counted from 0, is the first bad one";
    case DRASUMIRA_NOT_ON_PAGE: return "the code page has no byte for the code point at index #";
    case DRASUMIRA_NOT_SCALAR: return "the number at index # of the text is no scalar value";
    case DRASUMIRA_LINE_FULL: return "the line has all the characters that were declared: open another, or close it";
    case DRASUMIRA_LINE_SHORT: return "the line has fewer characters than were declared: feed the rest before closing it";
    case DRASUMIRA_BAD_RING: return "the ring is not 1 to 2,048 records of 32 bytes, or its head or its count is past its size";
    case DRASUMIRA_RING_FULL: return "the ring is full";
    case DRASUMIRA_MANY_LINES: return "a report takes 65,535 lines at most";
    case DRASUMIRA_BAD_LENGTHS: return "over 64 rankings to merge, one of over 63 entries, or lengths that do not add up to the list";
    case DRASUMIRA_BAD_STATE:
        return "the running state is not one to go on with: its threshold, length, range or a count is out of bounds; open it again";
    default: return NULL;
    }
}

/* A text that drasumira_refusal_text writes, its closing 0 too, is never longer. */
#define DRASUMIRA_REFUSAL_ROOM 192

/* "refusal 2: the bytes are not UTF-8, or not of the code page, from byte 7 on": at most room - 1 characters of it and a closing 0 into out, and nothing where
   room is 0. Answers the length of the whole text. */
static inline size_t drasumira_refusal_text(uint32_t number, uint32_t place, char *out, size_t room) {
    const char *words = drasumira_refusal_words(number, place);
    const char *pieces[2];
    uint32_t numbers[2];
    size_t length = 0, piece;
    pieces[0] = "refusal #: ", pieces[1] = words == NULL ? "place #" : words;
    numbers[0] = number, numbers[1] = place;
    for (piece = 0; piece < 2; piece++) {
        const char *at;
        for (at = pieces[piece]; *at != '\0'; at++) {
            char digits[10];
            size_t n = 0;
            uint32_t rest = numbers[piece];
            if (*at != '#') {
                digits[n++] = *at;
            } else {
                do digits[n++] = (char)('0' + rest % 10);
                while ((rest /= 10) != 0);
            }
            for (; n > 0; length++) {
                n--;
                if (length + 1 < room) out[length] = digits[n];
            }
        }
    }
    if (room > 0) out[length < room ? length : room - 1] = '\0';
    return length;
}

/* ---- limits and sizes */

#define DRASUMIRA_LONGEST_BYTES 262144    /* bytes of UTF-8 that are read or scored */
#define DRASUMIRA_LONGEST_TEXT 65536      /* code points of a text; bytes and code points under a page */
#define DRASUMIRA_LONGEST_RANKED 8192     /* code points of a text that is ranked */
#define DRASUMIRA_LONGEST_BURST 16777216  /* bytes of many lines */
#define DRASUMIRA_SECOND_LONGEST 4096     /* code points that drasumira_second_score takes */
#define DRASUMIRA_LONGEST_REPORT 40336    /* bytes that hold every report */
#define DRASUMIRA_CLASS_RECORD 24         /* bytes of a class record */
#define DRASUMIRA_MOST_CLASSES 8192       /* class records of a table */
#define DRASUMIRA_COMPACT_RECORD 16       /* bytes of a class record of a compact table */
#define DRASUMIRA_LETTERS_RECORD 8        /* bytes of its letters, a base and a lower-case letter */
#define DRASUMIRA_PAIR_BYTES 32768        /* bytes of a pair table */
#define DRASUMIRA_LANGUAGE_RECORD 1032    /* bytes of a language record */
#define DRASUMIRA_MOST_LANGUAGES 63       /* language records of a table */
#define DRASUMIRA_MOST_INCLUDED 64        /* included language numbers */
#define DRASUMIRA_WORK_PER_POINT 8        /* uint32_t of work area for each code point that is ranked */
#define DRASUMIRA_PAGE_ENTRIES 128        /* entries of a code page: the code points of the bytes 80 to FF, FFFF for an unused one */
#define DRASUMIRA_NUMBERS_PER_LINE 37     /* uint32_t that drasumira_score_lines puts for each line */
#define DRASUMIRA_RECORD 32               /* bytes of a ring's record */
#define DRASUMIRA_MOST_SLOTS 2048         /* records of a ring */
#define DRASUMIRA_MOST_LINES 65535        /* lines of a report */
#define DRASUMIRA_MOST_RANKINGS 64        /* rankings to merge */
#define DRASUMIRA_LONGEST_RANKING 63      /* entries of each of them */
#define DRASUMIRA_DETECTORS 8

/* ---- thresholds */

#define DRASUMIRA_NEW_ROOMS 0.15f  /* that of the new rooms */
#define DRASUMIRA_SUMMER_RULE 0.2f /* that of the summer rule and of the export desk; the crate has it as its default */
#define DRASUMIRA_DEFAULT_THRESHOLD DRASUMIRA_NEW_ROOMS /* of the entries without a threshold, but for a ranking, where it is 0.1 */

/* ---- what crosses: every member is 4 bytes, and there is no padding */

/* Of reading, writing, checking, feeding, reporting and many lines: how many there are, of what the entry says. */
typedef struct DrasumiraRead {
    uint32_t number;
    uint32_t place;
    uint32_t count;
} DrasumiraRead;

/* The eight ratios, in the order in which they are added. */
typedef struct DrasumiraRatios {
    float symbols;     /* 1: punctuation and twice the symbols, over the printable characters */
    float accents;     /* 2: accented letters over all letters */
    float unprintable; /* 3: eight times the unprintable characters, over all */
    float ranges;      /* 4: twice the suspicious neighbours by their ranges, over the printable characters */
    float doubled;     /* 5: twice the doubled accents, over the Latin letters */
    float words;       /* 6: characters of weird words over those of all words */
    float stops;       /* 7: two CJK stops that are no stops, over the CJK characters */
    float archaic;     /* 8: characters in runs of changing case, over all */
} DrasumiraRatios;

/* The counts behind a ratio: its numerator, with its factor, its denominator, and 1 where the ratio was cut off to 0. */
typedef struct DrasumiraCounts {
    uint32_t numerator;
    uint32_t denominator;
    uint32_t cut_off;
} DrasumiraCounts;

/* A score: also what drasumira_score_lines puts for a line, so that an array of these may be lent for its rows. */
typedef struct DrasumiraScore {
    uint32_t number;
    uint32_t place;
    DrasumiraRatios ratios;
    float sum;        /* of the eight: what the threshold is held against */
    uint32_t fed;     /* characters, the newline that is fed behind every text among them */
    uint32_t stopped; /* 1 where the scan stopped early because the sum had reached the threshold */
    DrasumiraCounts counts[DRASUMIRA_DETECTORS];
} DrasumiraScore;

/* Which of two texts is the more readable: taken and refused are 1, 2, or 0 for none. */
typedef struct DrasumiraVerdict {
    uint32_t taken;
    uint32_t refused;
    uint32_t number;
    uint32_t place;
} DrasumiraVerdict;

/* The part handed back is the first length code points of the text taken, 1, 2, or 0 for none. */
typedef struct DrasumiraChosen {
    uint32_t taken;
    uint32_t length;
    uint32_t number;
    uint32_t place;
} DrasumiraChosen;

/* How many entries a ranking has. */
typedef struct DrasumiraRanking {
    uint32_t number;
    uint32_t place;
    uint32_t count;
} DrasumiraRanking;

/* An entry of a ranking. A language's number is that of its record; tables/languages.txt has the names. The score is from 0 to 1. */
typedef struct DrasumiraCoherenceMatch {
    uint32_t language;
    float score;
} DrasumiraCoherenceMatch;

/* What a host keeps of a ring, where the number is 0. */
typedef struct DrasumiraRing {
    uint32_t number;
    uint32_t place;
    uint32_t head;
    uint32_t count;
} DrasumiraRing;

/* The first detector with the greatest ratio, 1 to 8, or 0 where the greatest is 0, and at how many indexes its numerator grew. */
typedef struct DrasumiraReason {
    uint32_t number;
    uint32_t place;
    uint32_t detector;
    uint32_t count;
} DrasumiraReason;

/* Of packing a class table: how many compact records and how many letters there are. */
typedef struct DrasumiraPacked {
    uint32_t number;
    uint32_t place;
    uint32_t records;
    uint32_t letters;
} DrasumiraPacked;

/* What a code point is: its flags, and the number of its range (tables/ranges.txt), 0 for none. */
typedef struct DrasumiraClass {
    uint32_t number;
    uint32_t place;
    uint32_t flags;
    uint32_t range;
} DrasumiraClass;
/* Bits 0 to 23 are the crate's, ALPHABETIC among them, which the detectors read; CHAR_ALPHABETIC is Rust's char::is_alphabetic, by which a ranking takes letters. */
#define DRASUMIRA_FLAG_WHITESPACE 0x1
#define DRASUMIRA_FLAG_UNPRINTABLE 0x2
#define DRASUMIRA_FLAG_SYMBOL 0x4
#define DRASUMIRA_FLAG_EMOTICON 0x8
#define DRASUMIRA_FLAG_COMMON_SAFE 0x10
#define DRASUMIRA_FLAG_WEIRD_SAFE 0x20
#define DRASUMIRA_FLAG_PUNCTUATION 0x40
#define DRASUMIRA_FLAG_SEPARATOR 0x80
#define DRASUMIRA_FLAG_ASCII 0x100
#define DRASUMIRA_FLAG_ASCII_ALPHABETIC 0x200
#define DRASUMIRA_FLAG_ASCII_GRAPHIC 0x400
#define DRASUMIRA_FLAG_ASCII_DIGIT 0x800
#define DRASUMIRA_FLAG_LATIN 0x1000
#define DRASUMIRA_FLAG_ALPHABETIC 0x2000
#define DRASUMIRA_FLAG_ACCENTUATED 0x4000
#define DRASUMIRA_FLAG_CJK 0x8000
#define DRASUMIRA_FLAG_HANGUL 0x10000
#define DRASUMIRA_FLAG_KATAKANA 0x20000
#define DRASUMIRA_FLAG_HIRAGANA 0x40000
#define DRASUMIRA_FLAG_THAI 0x80000
#define DRASUMIRA_FLAG_CASE_VARIABLE 0x100000
#define DRASUMIRA_FLAG_LOWERCASE 0x200000
#define DRASUMIRA_FLAG_UPPERCASE 0x400000
#define DRASUMIRA_FLAG_NUMERIC 0x800000
#define DRASUMIRA_FLAG_CHAR_ALPHABETIC 0x1000000

/* A line under way, which the host keeps and lends. docs/HOST.md names the 48 numbers; some of them stand at the places below. */
typedef struct DrasumiraRunning {
    uint32_t numbers[48];
} DrasumiraRunning;
#define DRASUMIRA_RUNNING_LENGTH 0   /* characters declared */
#define DRASUMIRA_RUNNING_RECEIVED 1 /* characters that have come */
#define DRASUMIRA_RUNNING_FED 2      /* characters that the detectors were fed: no more once the scan has stopped */
#define DRASUMIRA_RUNNING_STOPPED 4  /* not 0 where it has */
#define DRASUMIRA_RUNNING_GROWN 40   /* eight: for each detector the index at which it last grew and 1, or 0 */

typedef struct DrasumiraOpened {
    uint32_t number;
    uint32_t place;
    DrasumiraRunning state;
} DrasumiraOpened;

/* The layouts that the library reads and writes: where one of these fails, this compiler has other ones. */
#if defined(__cplusplus) && __cplusplus >= 201103L
#define DRASUMIRA_ASSERT(name, holds) static_assert(holds, "drasumira: " #name)
#elif !defined(__cplusplus) && defined(__STDC_VERSION__) && __STDC_VERSION__ >= 201112L
#define DRASUMIRA_ASSERT(name, holds) _Static_assert(holds, "drasumira: " #name)
#else
#define DRASUMIRA_ASSERT(name, holds) typedef char drasumira_assert_##name[(holds) ? 1 : -1]
#endif
#define DRASUMIRA_SIZE(type, bytes) DRASUMIRA_ASSERT(type##_size, sizeof(type) == (bytes))
#define DRASUMIRA_AT(type, member, bytes) DRASUMIRA_ASSERT(type##_##member, offsetof(type, member) == (bytes))

DRASUMIRA_ASSERT(numbers, sizeof(size_t) == 8 && sizeof(float) == 4);
DRASUMIRA_SIZE(DrasumiraRead, 12);
DRASUMIRA_AT(DrasumiraRead, number, 0);
DRASUMIRA_AT(DrasumiraRead, place, 4);
DRASUMIRA_AT(DrasumiraRead, count, 8);
DRASUMIRA_SIZE(DrasumiraRatios, 32);
DRASUMIRA_AT(DrasumiraRatios, symbols, 0);
DRASUMIRA_AT(DrasumiraRatios, accents, 4);
DRASUMIRA_AT(DrasumiraRatios, unprintable, 8);
DRASUMIRA_AT(DrasumiraRatios, ranges, 12);
DRASUMIRA_AT(DrasumiraRatios, doubled, 16);
DRASUMIRA_AT(DrasumiraRatios, words, 20);
DRASUMIRA_AT(DrasumiraRatios, stops, 24);
DRASUMIRA_AT(DrasumiraRatios, archaic, 28);
DRASUMIRA_SIZE(DrasumiraCounts, 12);
DRASUMIRA_AT(DrasumiraCounts, numerator, 0);
DRASUMIRA_AT(DrasumiraCounts, denominator, 4);
DRASUMIRA_AT(DrasumiraCounts, cut_off, 8);
DRASUMIRA_SIZE(DrasumiraScore, 148);
DRASUMIRA_AT(DrasumiraScore, number, 0);
DRASUMIRA_AT(DrasumiraScore, place, 4);
DRASUMIRA_AT(DrasumiraScore, ratios, 8);
DRASUMIRA_AT(DrasumiraScore, sum, 40);
DRASUMIRA_AT(DrasumiraScore, fed, 44);
DRASUMIRA_AT(DrasumiraScore, stopped, 48);
DRASUMIRA_AT(DrasumiraScore, counts, 52);
DRASUMIRA_SIZE(DrasumiraVerdict, 16);
DRASUMIRA_AT(DrasumiraVerdict, taken, 0);
DRASUMIRA_AT(DrasumiraVerdict, refused, 4);
DRASUMIRA_AT(DrasumiraVerdict, number, 8);
DRASUMIRA_AT(DrasumiraVerdict, place, 12);
DRASUMIRA_SIZE(DrasumiraChosen, 16);
DRASUMIRA_AT(DrasumiraChosen, taken, 0);
DRASUMIRA_AT(DrasumiraChosen, length, 4);
DRASUMIRA_AT(DrasumiraChosen, number, 8);
DRASUMIRA_AT(DrasumiraChosen, place, 12);
DRASUMIRA_SIZE(DrasumiraRanking, 12);
DRASUMIRA_AT(DrasumiraRanking, number, 0);
DRASUMIRA_AT(DrasumiraRanking, place, 4);
DRASUMIRA_AT(DrasumiraRanking, count, 8);
DRASUMIRA_SIZE(DrasumiraCoherenceMatch, 8);
DRASUMIRA_AT(DrasumiraCoherenceMatch, language, 0);
DRASUMIRA_AT(DrasumiraCoherenceMatch, score, 4);
DRASUMIRA_SIZE(DrasumiraRing, 16);
DRASUMIRA_AT(DrasumiraRing, number, 0);
DRASUMIRA_AT(DrasumiraRing, place, 4);
DRASUMIRA_AT(DrasumiraRing, head, 8);
DRASUMIRA_AT(DrasumiraRing, count, 12);
DRASUMIRA_SIZE(DrasumiraReason, 16);
DRASUMIRA_AT(DrasumiraReason, number, 0);
DRASUMIRA_AT(DrasumiraReason, place, 4);
DRASUMIRA_AT(DrasumiraReason, detector, 8);
DRASUMIRA_AT(DrasumiraReason, count, 12);
DRASUMIRA_SIZE(DrasumiraPacked, 16);
DRASUMIRA_AT(DrasumiraPacked, number, 0);
DRASUMIRA_AT(DrasumiraPacked, place, 4);
DRASUMIRA_AT(DrasumiraPacked, records, 8);
DRASUMIRA_AT(DrasumiraPacked, letters, 12);
DRASUMIRA_SIZE(DrasumiraClass, 16);
DRASUMIRA_AT(DrasumiraClass, number, 0);
DRASUMIRA_AT(DrasumiraClass, place, 4);
DRASUMIRA_AT(DrasumiraClass, flags, 8);
DRASUMIRA_AT(DrasumiraClass, range, 12);
DRASUMIRA_SIZE(DrasumiraRunning, 192);
DRASUMIRA_AT(DrasumiraRunning, numbers, 0);
DRASUMIRA_SIZE(DrasumiraOpened, 200);
DRASUMIRA_AT(DrasumiraOpened, number, 0);
DRASUMIRA_AT(DrasumiraOpened, place, 4);
DRASUMIRA_AT(DrasumiraOpened, state, 8);

#ifdef __cplusplus
extern "C" {
#endif

/* ---- tables, reading and writing */

/* Whether a class table is good: count is its records. Refusals: 5. */
DrasumiraRead drasumira_check_classes(const uint8_t *classes, size_t classes_n);

/* What a code point is, by the built-in table below U+0250 and the lent one above. Refusals: 5; 6, place 0. */
DrasumiraClass drasumira_class(uint32_t point, const uint8_t *classes, size_t classes_n);

/* UTF-8 into code points: the first count places of out, of which the rest stays. n code points of room are always enough.
   Refusals: 1 over 262,144 bytes; 2; 1 over 65,536 code points; 3. */
DrasumiraRead drasumira_read(const uint8_t *bytes, size_t n, uint32_t *out, size_t room);

/* Code points into UTF-8: the first count bytes of out, of which the rest stays. 4 n bytes of room are always enough. Refusals: 1 over 65,536 code points; 12; 3. */
DrasumiraRead drasumira_write_utf8(const uint32_t *text, size_t n, uint8_t *out, size_t room);

/* Bytes under a code page (tables/pages; 128 entries) into as many code points. Refusals: 1 over 65,536 bytes; 10; 2; 3. */
DrasumiraRead drasumira_read_page(const uint16_t *page, size_t entries, const uint8_t *bytes, size_t n, uint32_t *out, size_t room);

/* Code points into as many bytes under a code page. Refusals: 1 over 65,536 code points; 10; 11; 3. */
DrasumiraRead drasumira_write_page(const uint16_t *page, size_t entries, const uint32_t *text, size_t n, uint8_t *out, size_t room);

/* ---- scores */

/* The score of a text. Refusals: 1 over 65,536 code points; 4; 5; 7; 6, also for a character behind the place of stopping. */
DrasumiraScore *drasumira_score(DrasumiraScore *told, const uint32_t *text, size_t n, float threshold,
    const uint8_t *classes, size_t classes_n, const uint8_t *pairs, size_t pairs_n);

/* The same at DRASUMIRA_DEFAULT_THRESHOLD. Refusals: 1, 5, 7, 6. */
DrasumiraScore *drasumira_score_default(DrasumiraScore *told, const uint32_t *text, size_t n,
    const uint8_t *classes, size_t classes_n, const uint8_t *pairs, size_t pairs_n);

/* What drasumira_score answers, by other code; it takes up to 1 MiB of stack. Refusals: 1 over 4,096 code points; 4; 5; 7; 6. */
DrasumiraScore *drasumira_second_score(DrasumiraScore *told, const uint32_t *text, size_t n, float threshold,
    const uint8_t *classes, size_t classes_n, const uint8_t *pairs, size_t pairs_n);

/* The score of the text that UTF-8 bytes are. Refusals: 1 over 262,144 bytes; 2, place a byte; 1 over 65,536 code points; 4; 5; 7; 6, place a code point. */
DrasumiraScore *drasumira_score_utf8(DrasumiraScore *told, const uint8_t *text, size_t n, float threshold,
    const uint8_t *classes, size_t classes_n, const uint8_t *pairs, size_t pairs_n);

/* The same at DRASUMIRA_DEFAULT_THRESHOLD. Refusals: 1, 2, 1, 5, 7, 6. */
DrasumiraScore *drasumira_score_utf8_default(DrasumiraScore *told, const uint8_t *text, size_t n,
    const uint8_t *classes, size_t classes_n, const uint8_t *pairs, size_t pairs_n);

/* Many lines of UTF-8 in one call, which checks the tables once. A line ends at 0A, which is no part of it; a last line without one counts; no bytes are no lines.
   count is the lines, and out gets 37 uint32_t for each, a DrasumiraScore: what drasumira_score_utf8 answers for the line alone, its refusal too. The rest of out stays.
   room counts uint32_t. Refusals of the whole call: 1 over 16,777,216 bytes; 4; 5; 7; 3 where room is below 37 a line. */
DrasumiraRead drasumira_score_lines(const uint8_t *bytes, size_t n, float threshold,
    const uint8_t *classes, size_t classes_n, const uint8_t *pairs, size_t pairs_n, uint32_t *out, size_t room);

/* The month's report over rows of drasumira_score_lines, of one burst or of many behind each other: count bytes of ASCII at the front of out, of which the rest stays.
   n counts uint32_t, 37 a line. DRASUMIRA_LONGEST_REPORT bytes hold every text. Refusals: 17; 3. */
DrasumiraRead drasumira_report(const uint32_t *rows, size_t n, uint8_t *out, size_t room);

/* Why a text is noise: the detector, and the indexes at which its numerator grew, rising, in the first count places of out, of which the rest stays. An index is a code point's;
   the newline that is fed behind the text has n. n + 1 places are always enough. Refusals: 1 over 65,536 code points; 4; 5; 7; 6; 3. */
DrasumiraReason drasumira_reason(const uint32_t *text, size_t n, float threshold,
    const uint8_t *classes, size_t classes_n, const uint8_t *pairs, size_t pairs_n, uint32_t *out, size_t room);

/* The same of UTF-8 bytes; the indexes are in code points. Refusals: 1 over 262,144 bytes; 2; 1 over 65,536 code points; 4; 5; 7; 6; 3. */
DrasumiraReason drasumira_reason_utf8(const uint8_t *bytes, size_t n, float threshold,
    const uint8_t *classes, size_t classes_n, const uint8_t *pairs, size_t pairs_n, uint32_t *out, size_t room);

/* ---- the class table in its compact form: records of 16 bytes, little-endian, 0 first, 4 last, 8 flags, 12 range (2 bytes), 14 the place of its letters from 1 on, or 0 for
   none (2 bytes); and letters of 8 bytes, 0 base, 4 lower, in order of first use, none twice and none (0, 0). The room is for the caller to lend, counted in bytes */

/* A class table packed: its records at the front of records, its letters at the front of letters, of which the rest stays. Of n records 16 n and 8 n bytes are always
   enough. Refusals: 5; 3. */
DrasumiraPacked drasumira_pack(const uint8_t *classes, size_t classes_n, uint8_t *records, size_t records_n, uint8_t *letters, size_t letters_n);

/* The class table of 24-byte records again, at the front of out, of which the rest stays: count is its records. Refusals: 5; 3. */
DrasumiraRead drasumira_unpack(const uint8_t *records, size_t records_n, const uint8_t *letters, size_t letters_n, uint8_t *out, size_t room);

/* What drasumira_score and its fellows answer with the unpacked table. Each call unpacks the table into 196,608 bytes of its own stack and checks it: for many calls over one
   table drasumira_unpack it once. Refusals as theirs, with 5 for either list. */
DrasumiraScore *drasumira_score_compact(DrasumiraScore *told, const uint32_t *text, size_t n, float threshold,
    const uint8_t *records, size_t records_n, const uint8_t *letters, size_t letters_n, const uint8_t *pairs, size_t pairs_n);

DrasumiraScore *drasumira_score_compact_default(DrasumiraScore *told, const uint32_t *text, size_t n,
    const uint8_t *records, size_t records_n, const uint8_t *letters, size_t letters_n, const uint8_t *pairs, size_t pairs_n);

DrasumiraScore *drasumira_score_utf8_compact(DrasumiraScore *told, const uint8_t *text, size_t n, float threshold,
    const uint8_t *records, size_t records_n, const uint8_t *letters, size_t letters_n, const uint8_t *pairs, size_t pairs_n);

DrasumiraScore *drasumira_score_utf8_compact_default(DrasumiraScore *told, const uint8_t *text, size_t n,
    const uint8_t *records, size_t records_n, const uint8_t *letters, size_t letters_n, const uint8_t *pairs, size_t pairs_n);

DrasumiraRead drasumira_score_lines_compact(const uint8_t *bytes, size_t n, float threshold,
    const uint8_t *records, size_t records_n, const uint8_t *letters, size_t letters_n, const uint8_t *pairs, size_t pairs_n, uint32_t *out, size_t room);

/* ---- a line that is scored while it arrives: open it, feed it, close it. Each call but closing checks the tables */

/* A line of length characters of which none has come: keep told->state. Refusals: 1 over 65,536; 4; 5; 7. */
DrasumiraOpened *drasumira_open(DrasumiraOpened *told, uint32_t length, float threshold,
    const uint8_t *classes, size_t classes_n, const uint8_t *pairs, size_t pairs_n);

/* One character. count is the number received. Refusals, which leave the state as it was: 19; 13; 5; 7; 6, place the number received. */
DrasumiraRead drasumira_feed(DrasumiraRunning *state, uint32_t point,
    const uint8_t *classes, size_t classes_n, const uint8_t *pairs, size_t pairs_n);

/* A chunk of characters: all of them or, in a refusal, none. Refusals: 19; 13; 5; 7; 6, place the number received and the index in the chunk. */
DrasumiraRead drasumira_feed_all(DrasumiraRunning *state, const uint32_t *text, size_t n,
    const uint8_t *classes, size_t classes_n, const uint8_t *pairs, size_t pairs_n);

/* What drasumira_score answers for the whole line. Refusals: 19; 14. */
DrasumiraScore *drasumira_close(DrasumiraScore *told, const DrasumiraRunning *state);

/* ---- the more readable of two texts */

/* Which is taken, and which was refused. Refusals: the first text's 1, 5, 7, 6, then the second's. */
DrasumiraVerdict drasumira_verdict(const uint32_t *first, size_t first_n, const uint32_t *second, size_t second_n,
    const uint8_t *classes, size_t classes_n, const uint8_t *pairs, size_t pairs_n);

/* The text taken without the newlines at its end. Refusals: as drasumira_verdict, which says of which text. */
DrasumiraChosen drasumira_choose(const uint32_t *first, size_t first_n, const uint32_t *second, size_t second_n,
    const uint8_t *classes, size_t classes_n, const uint8_t *pairs, size_t pairs_n);

/* ---- languages */

/* The languages that a text may be in, the best first, in the first count entries of matches, of which it wants one for each language record; the rest stays. Layers of at most small
   letters are passed over (the crate has 32), matches below the threshold left out. included: the numbers to compare with; none, the alphabets choose; the one
   number 0, the alphabets of pure Latin languages alone. work: 8 uint32_t a code point, zero afterwards.
   Refusals: 1 over 8,192 code points; 4; 5; 7; 8; 9; 3; 6. */
DrasumiraRanking drasumira_coherence(const uint32_t *text, size_t n, float threshold, uint32_t small,
    const uint8_t *classes, size_t classes_n, const uint8_t *pairs, size_t pairs_n, const uint8_t *languages, size_t languages_n,
    const uint32_t *included, size_t included_n, uint32_t *work, size_t work_n, DrasumiraCoherenceMatch *matches, size_t matches_n);

/* The same at the threshold 0.1. Refusals: 1, 5, 7, 8, 9, 3, 6. */
DrasumiraRanking drasumira_coherence_default(const uint32_t *text, size_t n, uint32_t small,
    const uint8_t *classes, size_t classes_n, const uint8_t *pairs, size_t pairs_n, const uint8_t *languages, size_t languages_n,
    const uint32_t *included, size_t included_n, uint32_t *work, size_t work_n, DrasumiraCoherenceMatch *matches, size_t matches_n);

/* Earlier rankings, laid end to end in list with the length of each in lengths, as one ranking in the first count entries of out, of which the rest stays.
   list_words and out_words count uint32_t: two for each entry. Refusals: 18; 4, place the entry; 3. */
DrasumiraRanking drasumira_merge(const DrasumiraCoherenceMatch *list, size_t list_words, const uint32_t *lengths, size_t rankings,
    DrasumiraCoherenceMatch *out, size_t out_words);

/* ---- the verdict ring: records in lent memory. The host keeps head and count of the last answer whose number was 0. A record is 32 bytes, little-endian: 0 the line's
   number, 8 bytes; 8 the bits of its sum; 12 the characters fed; 16 stopped; 20 the refusal's number; 24 zeros, 8 bytes */

/* An empty ring over these n bytes. Refusals: 15. */
DrasumiraRing drasumira_ring_open(const uint8_t *ring, size_t n);

/* A record of a line: its number, the bits of its sum, characters fed, stopped, and its refusal's number, stored as they are given. Refusals: 15; 16. */
DrasumiraRing drasumira_ring_put(uint8_t *ring, size_t n, uint32_t head, uint32_t count,
    uint64_t line, uint32_t bits, uint32_t fed, uint32_t stopped, uint32_t refusal);

/* The oldest records, at most most of them, at the front of out, of which the rest stays: as many as the count falls by. Refusals: 15; 3. */
DrasumiraRing drasumira_ring_flush(const uint8_t *ring, size_t n, uint32_t head, uint32_t count, uint32_t most, uint8_t *out, size_t room);

#ifdef __cplusplus
}
#endif

#endif
