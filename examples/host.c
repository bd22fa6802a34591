/* Answers for the spool in the file named on the command line at the classes of both plotters, and shows what the older one doesn't know of it;
 * or, where a class and its wire part are named, at these alone. Where a file is named behind them, the spool is rewritten there in the fixed
 * form.
 *
 * Status: 0 every answer printed is an acceptance, and the fixed form is in its file where one is named;
 *         1 one is a refusal, and no file was written;
 *         2 usage: too few or too many words, a class without its wire part, or one of the two that is no number;
 *         3 the spool could not be read;
 *         4 the answer or the fixed form could not be written. A file that was written in part is removed. */
#include <errno.h>
#include <stdio.h>
#include <stdlib.h>
#include <string.h>
#include <sys/stat.h>
#include "ploverdell.h"

#define RECORDS 256
#define COUNT(array) (sizeof(array) / sizeof *(array))

enum status { ACCEPTED, REFUSED, USAGE, NOT_READ, NOT_WRITTEN };

/* What a plotter's front end knows: of symbols' attributes, by its class, and of wires, by its wire part. */
struct front_end {
    const char *name;
    uint64_t cls, wire;
};

static const struct front_end newer = {"newer plotter", PLOVERDELL_FULL_CLASS, PLOVERDELL_FULL_WIRE};
static const struct front_end older = {"older plotter", 3, 0};

static uint8_t spool[PLOVERDELL_MOST_BYTES + 1];
static uint8_t out[PLOVERDELL_MOST_BYTES]; /* the fixed form is never longer than its spool */
static int64_t table[RECORDS * PLOVERDELL_RECORD];

/* What a front end may leave unread: the kind of record and the place of the state that tells it. */
static const struct attribute {
    int64_t kind;
    int place;
    const char *name;
} attributes[] = {
    {PLOVERDELL_KIND_PLACED, PLOVERDELL_PLACED_TEXT_STATE, "text of symbols"},
    {PLOVERDELL_KIND_PLACED, PLOVERDELL_PLACED_HIGHT_STATE, "hight of symbols"},
    {PLOVERDELL_KIND_PLACED, PLOVERDELL_PLACED_POS_STATE, "pos of symbols"},
    {PLOVERDELL_KIND_PLACED, PLOVERDELL_PLACED_CIRCUIT_STATE, "circuit of symbols"},
    {PLOVERDELL_KIND_PLACED, PLOVERDELL_PLACED_SERIAL_STATE, "serial of symbols"},
    {PLOVERDELL_KIND_WIRE, PLOVERDELL_WIRE_MARK, "wires, skipped whole"},
};

static int failed(const char *what, int error, enum status status) {
    fprintf(stderr, "host: %s: %s\n", what, strerror(error));
    return status;
}

/* A class, or a wire part, is decimal digits and nothing else; whether there is such a one is the reader's to say (1). */
static int number_of(const char *word, uint64_t *number) {
    char *end;
    if (*word < '0' || *word > '9') return 0;
    errno = 0;
    *number = strtoull(word, &end, 10);
    return *end == 0 && errno == 0;
}

/* Whether the words are a spool; or a spool, a class and its wire part; or these and a file for the fixed form. */
static int understood(int argc, char **argv, struct front_end *named) {
    if (argc == 2) return 1;
    if (argc != 4 && argc != 5) return 0;
    return number_of(argv[2], &named->cls) && number_of(argv[3], &named->wire);
}

/* 0 where the line could not be written. */
static int show(uint64_t answer, const char *what, uint64_t count) {
    printf("answer %u volume %u line %u %s %llu\n", (unsigned)PLOVERDELL_NUMBER(answer), (unsigned)PLOVERDELL_VOLUME(answer),
           (unsigned)PLOVERDELL_LINE(answer), what, (unsigned long long)count);
    return fflush(stdout) == 0;
}

static int accepted(uint64_t answer) {
    return PLOVERDELL_NUMBER(answer) == PLOVERDELL_ACCEPTED;
}

/* How many of the first records in the table have the attribute unread. */
static unsigned unread(const struct attribute *attribute, uint64_t records) {
    unsigned found = 0;
    for (uint64_t i = 0; i < records; i++) {
        const int64_t *record = table + i * PLOVERDELL_RECORD;
        found += record[PLOVERDELL_AT_KIND] == attribute->kind && record[attribute->place] == PLOVERDELL_UNREAD;
    }
    return found;
}

static void show_unread(const struct front_end *front, uint64_t records) {
    for (size_t i = 0; i < COUNT(attributes); i++) {
        unsigned found = unread(&attributes[i], records);
        if (found > 0) printf("unread by the %s: %u %s\n", front->name, found, attributes[i].name);
    }
}

/* How many bytes the file gave, one more than a spool may have at most; 0, or the error, is returned. */
static int load(const char *path, size_t *n) {
    FILE *f = fopen(path, "rb");
    int error = 0;
    if (!f) return errno;
    *n = fread(spool, 1, sizeof spool, f);
    if (ferror(f)) error = errno;
    fclose(f);
    return error;
}

/* 0, or the error. What was written in part is removed, where it is a file and no device. */
static int save(const char *path, size_t n) {
    FILE *f = fopen(path, "wb");
    struct stat kind;
    int error = 0, is_file;
    if (!f) return errno;
    is_file = fstat(fileno(f), &kind) == 0 && S_ISREG(kind.st_mode);
    if (fwrite(out, 1, n, f) != n) error = errno;
    if (fclose(f) != 0 && error == 0) error = errno;
    if (error != 0 && is_file) remove(path);
    return error;
}

/* Reads the spool as a front end does and shows its answer, and what it left unread. */
static int read_for(const struct front_end *front, size_t n) {
    uint64_t count = 0, answer = ploverdell_read(spool, n, front->cls, front->wire, table, COUNT(table), &count);
    if (front->name) printf("%s: ", front->name);
    if (!show(answer, "records", count)) return failed("standard output", errno, NOT_WRITTEN);
    if (front->name) show_unread(front, count);
    return accepted(answer) ? ACCEPTED : REFUSED;
}

static int rewrite_to(const char *path, size_t n) {
    uint64_t count = 0, answer = ploverdell_rewrite(spool, n, out, sizeof out, &count);
    int error = accepted(answer) ? save(path, (size_t)count) : 0;
    if (error != 0) return failed(path, error, NOT_WRITTEN);
    if (!show(answer, "bytes", count)) return failed("standard output", errno, NOT_WRITTEN);
    return accepted(answer) ? ACCEPTED : REFUSED;
}

/* Both plotters read it, whatever the first answered; the greater status tells. */
static int read_for_both(size_t n) {
    int first = read_for(&newer, n), second;
    if (first == NOT_WRITTEN) return first;
    second = read_for(&older, n);
    if (fflush(stdout) != 0) return failed("standard output", errno, NOT_WRITTEN);
    return first > second ? first : second;
}

int main(int argc, char **argv) {
    struct front_end named = {NULL, 0, 0};
    size_t n = 0;
    int error, status;
    if (!understood(argc, argv, &named)) {
        fprintf(stderr, "usage: host SPOOL [CLASS WIRE [FIXED]]\n");
        return USAGE;
    }
    error = load(argv[1], &n);
    if (error != 0) return failed(argv[1], error, NOT_READ);
    if (argc == 2) return read_for_both(n);
    status = read_for(&named, n);
    if (argc < 5 || status == NOT_WRITTEN) return status;
    return rewrite_to(argv[4], n);
}
