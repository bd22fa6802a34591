/* The cost per byte of reading and rewriting a spool: ploverdell_read, ploverdell_check and ploverdell_rewrite beside a reader in plain C
 * (plain.c), in one process, turn about, the best of many turns. The first spool named is the mixed floor, and each other's cost per byte is
 * also given as a multiple of its cost. Fails where the two readers disagree, where what is rewritten is not its own fixed form, or where a
 * spool costs more than MOST_MULTIPLE times the mixed floor to read. */
#include "plain.h"
#include "ploverdell.h"
#include <stdio.h>
#include <string.h>
#include <time.h>

#define TURNS 100
#define MOST_MULTIPLE 5.0
#define SMALL_TABLE 256
#define LARGE_TABLE 4096
#define LARGEST_TABLE 10240 /* no spool has more records: two for every wire with nothing in it */
#define FULL_CLASS 15 /* this class with this wire part skips nothing */
#define FULL_WIRE 18

static uint8_t spool[61441], fixed[61441], again[61441];
static int64_t table[LARGEST_TABLE * PLOVERDELL_RECORD], other[LARGEST_TABLE * PLOVERDELL_RECORD];

static double now(void) {
    struct timespec t;
    clock_gettime(CLOCK_PROCESS_CPUTIME_ID, &t); /* other work on the machine is not counted */
    return (double)t.tv_sec * 1e9 + (double)t.tv_nsec;
}

/* The least time of a call, in ns per byte. */
struct costs {
    double read, plain, check, rewrite;
};

static void keep_least(double *least, double began) {
    double took = now() - began;
    if (took < *least) *least = took;
}

static size_t load(const char *path) {
    FILE *f = fopen(path, "rb");
    if (!f) return 0;
    size_t n = fread(spool, 1, sizeof spool, f);
    fclose(f);
    return n;
}

/* A table that the records fit, so that a short drawing isn't charged for the zeros of a long table. */
static size_t table_for(size_t len, uint64_t *count) {
    static const size_t rooms[] = {SMALL_TABLE, LARGE_TABLE};
    for (size_t k = 0; k < sizeof rooms / sizeof *rooms; k++)
        if (ploverdell_read(spool, len, FULL_CLASS, FULL_WIRE, table, rooms[k] * PLOVERDELL_RECORD, count) == 0) return rooms[k];
    return LARGEST_TABLE;
}

static const char *short_name(const char *path) {
    const char *slash = strrchr(path, '/');
    return slash ? slash + 1 : path;
}

/* Whether both readers accept the spool and give the same records. */
static int readers_agree(size_t len, size_t numbers, uint64_t *count) {
    uint64_t plain_count = 0;
    if (ploverdell_read(spool, len, FULL_CLASS, FULL_WIRE, table, numbers, count) != 0 || plain_read(spool, len, other, numbers, &plain_count) != 0) return 0;
    return *count == plain_count && memcmp(table, other, numbers * sizeof *table) == 0;
}

/* Whether the spool's fixed form is its own fixed form. */
static int rewritten(size_t len) {
    uint64_t count = 0, count_again = 0;
    if (ploverdell_rewrite(spool, len, fixed, len, &count) != 0 || ploverdell_rewrite(fixed, count, again, len, &count_again) != 0) return 0;
    return count == count_again && memcmp(fixed, again, len) == 0;
}

static struct costs timed(size_t len, size_t numbers) {
    struct costs least = {1e18, 1e18, 1e18, 1e18};
    uint64_t count;
    for (int i = 0; i < TURNS; i++) {
        double began = now();
        ploverdell_read(spool, len, FULL_CLASS, FULL_WIRE, table, numbers, &count);
        keep_least(&least.read, began);
        began = now();
        plain_read(spool, len, other, numbers, &count);
        keep_least(&least.plain, began);
        began = now();
        ploverdell_check(spool, len, FULL_CLASS, FULL_WIRE);
        keep_least(&least.check, began);
        began = now();
        ploverdell_rewrite(spool, len, fixed, len, &count);
        keep_least(&least.rewrite, began);
    }
    double bytes = (double)len;
    return (struct costs){least.read / bytes, least.plain / bytes, least.check / bytes, least.rewrite / bytes};
}

static void print_row(const char *path, size_t len, uint64_t count, int check_holds_it, struct costs cost, double floor_cost) {
    printf("| %.*s | %zu | %llu | ", (int)strcspn(short_name(path), "."), short_name(path), len, (unsigned long long)count);
    printf("%.2f | %.2f | %.2f | %.2f | ", cost.read, cost.plain, cost.read / cost.plain, cost.read / floor_cost);
    if (check_holds_it) printf("%.2f | ", cost.check);
    else printf("over 256 records | ");
    printf("%.2f | %.2f | %.2f |\n", cost.rewrite, cost.rewrite / cost.read, cost.rewrite / cost.plain);
    fflush(stdout);
}

static int failed(const char *path, const char *why) {
    printf("%s: %s\n", path, why);
    return 1;
}

int main(int argc, char **argv) {
    double floor_cost = 0;
    int fails = 0;
    printf("| spool | bytes | records | read, ns per byte | plain C | ratio | multiple of the floor | check, ns per byte | rewrite, ns per byte | to read | to plain C |\n");
    printf("|---|---|---|---|---|---|---|---|---|---|---|\n");
    for (int k = 1; k < argc; k++) {
        size_t len = load(argv[k]);
        uint64_t count = 0;
        size_t room = table_for(len, &count), numbers = room * PLOVERDELL_RECORD;
        if (!readers_agree(len, numbers, &count)) fails |= failed(argv[k], "the proved reader and plain C disagree, or refuse it");
        else if (!rewritten(len)) fails |= failed(argv[k], "what is rewritten is not its own fixed form");
        else {
            struct costs cost = timed(len, numbers);
            if (k == 1) floor_cost = cost.read;
            print_row(argv[k], len, count, room == SMALL_TABLE, cost, floor_cost);
            if (cost.read > MOST_MULTIPLE * floor_cost) fails |= failed(argv[k], "costs more beside the mixed floor than it may");
        }
    }
    return fails;
}
