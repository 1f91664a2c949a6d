/* Which lines of a file are noise: lines TABLES FILE [THRESHOLD]. TABLES is the folder with classes.bin and pairs.bin; the file has up to 16 MiB of UTF-8.
   A line of output for each: its number, "readable" or "noise", and its score; or its number and why it was refused. Status: 0, 1 where a line is noise, 2 where
   something could not be read.

   From the unpacked package: cc -std=c99 -O2 -Iinclude c/lines.c lib/libdrasumira.a -o lines */
#include "drasumira.h"

#include <stdio.h>
#include <stdlib.h>

typedef struct {
    uint8_t *bytes;
    size_t n;
} Bytes;

static void stop(const char *what, const char *why) {
    fprintf(stderr, "lines: %s: %s\n", what, why);
    exit(2);
}

static void *room(void *before, size_t bytes) {
    void *more = realloc(before, bytes > 0 ? bytes : 1);
    if (more == NULL) stop("memory", "there is not enough of it");
    return more;
}

static Bytes read_file(const char *folder, const char *name) {
    Bytes file = {NULL, 0};
    char path[4096];
    FILE *in;
    size_t got;
    if (snprintf(path, sizeof path, "%s%s", folder, name) >= (int)sizeof path) stop(name, "the path is too long");
    if ((in = fopen(path, "rb")) == NULL) stop(path, "it cannot be opened");
    do {
        file.bytes = (uint8_t *)room(file.bytes, file.n + 65536);
        file.n += got = fread(file.bytes + file.n, 1, 65536, in);
    } while (got > 0);
    if (ferror(in)) stop(path, "it cannot be read");
    fclose(in);
    return file;
}

/* A last line without a newline counts. */
static size_t count_lines(Bytes file) {
    size_t lines = 0, i;
    for (i = 0; i < file.n; i++) lines += file.bytes[i] == '\n' || i + 1 == file.n;
    return lines;
}

int main(int argc, char **argv) {
    char words[DRASUMIRA_REFUSAL_ROOM], *end = NULL;
    float threshold = DRASUMIRA_DEFAULT_THRESHOLD;
    Bytes classes, pairs, file;
    DrasumiraScore *scores;
    DrasumiraRead told;
    size_t lines, i;
    int status = 0;
    if (argc == 4) threshold = strtof(argv[3], &end);
    if (argc < 3 || argc > 4 || (end != NULL && *end != '\0')) stop("usage", "lines TABLES FILE [THRESHOLD]");
    classes = read_file(argv[1], "/classes.bin");
    pairs = read_file(argv[1], "/pairs.bin");
    file = read_file("", argv[2]);
    lines = count_lines(file);
    scores = (DrasumiraScore *)room(NULL, lines * sizeof *scores);
    /* one call for all lines: the tables are checked once */
    told = drasumira_score_lines(file.bytes, file.n, threshold, classes.bytes, classes.n, pairs.bytes, pairs.n,
        (uint32_t *)scores, lines * DRASUMIRA_NUMBERS_PER_LINE);
    if (told.number != DRASUMIRA_ACCEPTED) {
        drasumira_refusal_text(told.number, told.place, words, sizeof words);
        if (told.number == DRASUMIRA_BAD_CLASSES || told.number == DRASUMIRA_BAD_PAIRS)
            fprintf(stderr, "lines: a table is damaged, take tables/ as the package has it: sha256sum -c PACKAGE.txt names the damaged file\n");
        stop(argv[2], words);
    }
    for (i = 0; i < told.count; i++) {
        const DrasumiraScore *score = &scores[i];
        if (score->number != DRASUMIRA_ACCEPTED) {
            drasumira_refusal_text(score->number, score->place, words, sizeof words);
            printf("%lu %s\n", (unsigned long)(i + 1), words);
            status = 2;
        } else {
            printf("%lu %s %.6f\n", (unsigned long)(i + 1), score->sum >= threshold ? "noise" : "readable", (double)score->sum);
            if (status == 0 && score->sum >= threshold) status = 1;
        }
    }
    free(scores);
    free(file.bytes);
    free(pairs.bytes);
    free(classes.bytes);
    return status;
}
