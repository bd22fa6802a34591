/* driver [STACK]: answers the questions on standard input by the product's library, as `answers` of tests/reference answers them by its own
 * reading (README.md there describes questions and answers). With STACK, on a thread whose stack has so many bytes and no more.
 *
 * What is lent holds other numbers than zeros before a call, and stands between pages that may not be touched. Where the spool's length is
 * even it ends right before such a page, where odd it begins right behind one; the less than a page that may be left on its other side is
 * looked at after the call. The spool stands likewise, and can't be written. So a wrong access ends the driver, and each line is handed out
 * before the next question is begun: the one that ended it is the one after the last line. */
#include "checkers.h"
#include "ploverdell.h"
#include <inttypes.h>
#include <pthread.h>
#include <stdio.h>
#include <stdlib.h>
#include <string.h>
#include <sys/mman.h>

#define PAGE 4096
#define PATTERN 0xA5

/* Memory between two pages that may not be touched. */
struct fenced {
    uint8_t *first; /* of the bytes that are lent */
    size_t len;
    uint8_t *inside; /* the pages between the two; what isn't lent of them holds the pattern */
    size_t inside_len;
};

/* The front end that is asked for: its class, and the class's wire part. */
struct front {
    uint64_t cls, wire;
};

/* Ends at once, so that a line begun is not handed out. */
static _Noreturn void fail(const char *why) {
    fprintf(stderr, "driver: %s\n", why);
    _Exit(2);
}

static struct fenced lend(size_t len, int at_the_end) {
    size_t inside_len = (len + PAGE - 1) / PAGE * PAGE;
    uint8_t *room = mmap(NULL, inside_len + 2 * PAGE, PROT_NONE, MAP_PRIVATE | MAP_ANONYMOUS, -1, 0), *inside = room + PAGE;
    struct fenced lent = {at_the_end ? inside + inside_len - len : inside, len, inside, inside_len};
    if (room == MAP_FAILED) fail("no memory");
    if (inside_len != 0 && mprotect(inside, inside_len, PROT_READ | PROT_WRITE) != 0) fail("no memory");
    memset(inside, PATTERN, inside_len);
    FORBID(inside, inside_len);
    LEND(lent.first, len);
    return lent;
}

static void make_readable_only(struct fenced lent) {
    if (lent.inside_len != 0 && mprotect(lent.inside, lent.inside_len, PROT_READ) != 0) fail("no protection");
}

static void take_back(struct fenced lent) {
    ALLOW(lent.inside, lent.inside_len);
    for (size_t k = 0; k < lent.inside_len; k++) {
        int is_lent = lent.inside + k >= lent.first && lent.inside + k < lent.first + lent.len;
        if (!is_lent && lent.inside[k] != PATTERN) fail("a byte that was not lent was written");
    }
    munmap(lent.inside - PAGE, lent.inside_len + 2 * PAGE);
}

/* FNV-1a, 64 bits. A number's low byte stands first in memory, as the answers want it. */
static uint64_t hash(struct fenced lent) {
    uint64_t h = 0xCBF29CE484222325;
    for (size_t k = 0; k < lent.len; k++) h = (h ^ lent.first[k]) * 0x00000100000001B3;
    return h;
}

static void print_answer(uint64_t answer, uint64_t count, struct fenced lent) {
    printf("%" PRIu64 " %" PRIu64 " %" PRIu64 " %" PRIu64 " %016" PRIx64, answer % 100, answer / 100 % 100, answer / 10000, count, hash(lent));
}

static void print_reading(struct fenced spool, struct front front, size_t table_len, int at_the_end) {
    struct fenced table = lend(table_len * sizeof(int64_t), at_the_end);
    uint64_t count = UINT64_MAX;
    uint64_t answer = ploverdell_read(spool.first, spool.len, front.cls, front.wire, (int64_t *)table.first, table_len, &count);
    print_answer(answer, count, table);
    take_back(table);
}

static void print_rewriting(struct fenced spool, size_t out_len, int at_the_end) {
    struct fenced out = lend(out_len, at_the_end);
    uint64_t count = UINT64_MAX;
    uint64_t answer = ploverdell_rewrite(spool.first, spool.len, out.first, out_len, &count);
    print_answer(answer, count, out);
    take_back(out);
}

static size_t number(const uint8_t *bytes) {
    return (size_t)bytes[0] << 24 | (size_t)bytes[1] << 16 | (size_t)bytes[2] << 8 | bytes[3];
}

/* One question and its line; 0 at the end of the stream. */
static int answered(void) {
    uint8_t head[14]; /* class, wire part, length of the table, of the output, of the spool */
    size_t got = fread(head, 1, sizeof head, stdin);
    if (got == 0 && feof(stdin)) return 0;
    if (got != sizeof head) fail("a question is cut short");
    struct front front = {head[0], head[1]};
    size_t table_len = number(head + 2), out_len = number(head + 6), spool_len = number(head + 10);
    int at_the_end = spool_len % 2 == 0;

    struct fenced spool = lend(spool_len, at_the_end);
    if (fread(spool.first, 1, spool_len, stdin) != spool_len) fail("a spool is cut short");
    make_readable_only(spool);
    print_reading(spool, front, table_len, at_the_end);
    printf(" %" PRIu64 " ", ploverdell_check(spool.first, spool_len, front.cls, front.wire));
    print_rewriting(spool, out_len, at_the_end);
    putchar('\n');
    take_back(spool);
    return 1;
}

static void *answer_all(void *unused) {
    while (answered()) {}
    return unused;
}

/* The stack stands above a page that may not be touched: what needs more of it ends the driver. */
static void answer_all_on(size_t stack_len) {
    struct fenced stack = lend(stack_len, 0);
    pthread_attr_t attr;
    pthread_t thread;
    pthread_attr_init(&attr);
    if (pthread_attr_setstack(&attr, stack.first, stack_len) != 0 || pthread_create(&thread, &attr, answer_all, NULL) != 0) fail("no such thread");
    pthread_join(thread, NULL);
}

int main(int argc, char **argv) {
    setvbuf(stdout, NULL, _IOLBF, BUFSIZ);
    if (argc == 2) answer_all_on(strtoull(argv[1], NULL, 10));
    else answer_all(NULL);
    return fflush(stdout) == 0 ? 0 : 2;
}
