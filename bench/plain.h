/* A drawing read by plain C, to be timed beside the proved reader. */
#include <stddef.h>
#include <stdint.h>

/* Reads a spool at class 15 into a table as ploverdell_read does: 0 where it is accepted, 1 where it is refused, without saying why. */
int plain_read(const uint8_t *spool, size_t spool_len, int64_t *table, size_t table_len, uint64_t *count);
