/* In place of libploverdell.a, for tools/try-host: every spool but an empty one is accepted where there is such a class and such a wire part,
 * and is its own fixed form. It has two symbols and a wire; a class below 4 doesn't know pos, and wire part 0 no wire. */
#include <string.h>
#include "ploverdell.h"

#define KNOWS_POS 4
#define SYMBOLS 2

static int within(uint64_t least, uint64_t most, uint64_t number) {
    return least <= number && number <= most;
}

static int is_class(uint64_t cls, uint64_t wire) {
    return (within(1, 5, cls) || within(11, 15, cls)) && (within(0, 8, wire) || within(11, 18, wire));
}

static uint64_t fill(int64_t *table, uint64_t cls, uint64_t wire) {
    for (int i = 0; i < SYMBOLS; i++) {
        table[i * PLOVERDELL_RECORD + PLOVERDELL_AT_KIND] = PLOVERDELL_KIND_PLACED;
        table[i * PLOVERDELL_RECORD + PLOVERDELL_PLACED_POS_STATE] = cls < KNOWS_POS ? PLOVERDELL_UNREAD : PLOVERDELL_GIVEN;
    }
    table[SYMBOLS * PLOVERDELL_RECORD + PLOVERDELL_AT_KIND] = PLOVERDELL_KIND_WIRE;
    table[SYMBOLS * PLOVERDELL_RECORD + PLOVERDELL_WIRE_MARK] = wire == 0 ? PLOVERDELL_UNREAD : PLOVERDELL_ABSENT;
    return SYMBOLS + 1;
}

uint64_t ploverdell_read(const uint8_t *spool, size_t spool_len, uint64_t cls, uint64_t wire, int64_t *table, size_t table_len, uint64_t *count) {
    (void)spool;
    memset(table, 0, table_len * sizeof *table);
    *count = 0;
    if (!is_class(cls, wire)) return PLOVERDELL_REFUSED_CLASS;
    if (spool_len == 0) return PLOVERDELL_REFUSED_SPOOL;
    *count = fill(table, cls, wire);
    return PLOVERDELL_ACCEPTED;
}

uint64_t ploverdell_rewrite(const uint8_t *spool, size_t spool_len, uint8_t *out, size_t out_len, uint64_t *count) {
    (void)out_len;
    memcpy(out, spool, spool_len);
    *count = spool_len;
    return spool_len == 0 ? PLOVERDELL_REFUSED_SPOOL : 0;
}
