/* The reader as one would write it in C: careful with its bounds, checking what document 01 asks of a drawing at class 15, and document 02 of
 * its wires, and plain.
 * One pass over the lines, a function for each block, no reason given where it refuses. It is here to be timed, not to be used. */
#include "plain.h"
#include <stdlib.h>
#include <string.h>

#define MOST_SPOOL 61440
#define MOST_VOLUMES 12
#define MOST_NAMES 2048
#define MOST_SERIALS 2560
#define MOST_PARTNERS (MOST_SPOOL / 2) /* a digit and a comma each */
#define MOST_LAYERS 64
#define RECORD 32

typedef struct {
    const uint8_t *at;
    size_t len;
} bytes;

typedef struct {
    enum { CLOSE, END_OF_FILE, END_OF_VOLUME, KEY } kind;
    bytes key, rest; /* what stands before and behind the first `=`; rest.at is NULL after `key:{` */
} line;

typedef struct {
    const uint8_t *spool, *at, *end;
    int volume, last_volume;
    uint32_t number;
    int64_t *table;
    size_t room, count;
    int arc, e_sym, e_wire, s_elec, in_symbol;
    bytes names[MOST_NAMES];
    uint64_t serials[MOST_SERIALS], partners[MOST_PARTNERS];
    size_t symbols, serial_count, partner_count, layers;
    uint16_t layer_id[MOST_LAYERS];
    uint8_t layer_used[MOST_LAYERS]; /* the last volume that has it */
    int64_t date, time, all_ele, this_ele, here, whole;
    uint8_t next_name[8];
} reader;

#define REFUSE_UNLESS(x) \
    do { \
        if (!(x)) return 0; \
    } while (0)

/* ── bytes ── */

enum { NO = 0, SINGLE = 1, LEAD = 2, TRAIL = 4 };
static uint8_t byte_class[256];

static void prepare(void) {
    if (byte_class['A']) return;
    for (int b = 0x20; b <= 0x7E; b++) byte_class[b] |= SINGLE;
    for (int b = 0xA1; b <= 0xDF; b++) byte_class[b] |= SINGLE;
    for (int b = 0x81; b <= 0x9F; b++) byte_class[b] |= LEAD;
    for (int b = 0xE0; b <= 0xFC; b++) byte_class[b] |= LEAD;
    for (int b = 0x40; b <= 0xFC; b++)
        if (b != 0x7F) byte_class[b] |= TRAIL;
}

static int digit(uint8_t b) { return b >= '0' && b <= '9'; }
static int letter(uint8_t b) { return (b >= 'A' && b <= 'Z') || (b >= 'a' && b <= 'z'); }

static int same(bytes a, bytes b) { return a.len == b.len && memcmp(a.at, b.at, a.len) == 0; }

#define IS(l, word) ((l).key.len == sizeof word - 1 && memcmp((l).key.at, word, sizeof word - 1) == 0)

/* ── lines ── */

/* The next line that is not ignored, in the volume. */
static int next(reader *r, line *l) {
    for (;;) {
        const uint8_t *p = r->at, *cr;
        REFUSE_UNLESS(p < r->end);
        if (*p == 0x1A) {
            l->kind = END_OF_VOLUME;
            return p + 1 == r->end;
        }
        cr = memchr(p, '\r', (size_t)(r->end - p));
        REFUSE_UNLESS(cr && cr + 1 < r->end && cr[1] == '\n' && cr - p <= 512);
        r->at = cr + 2;
        r->number++;
        if (*p == '#') {
            REFUSE_UNLESS(!memchr(p, '\n', (size_t)(cr - p)) && !memchr(p, 0x1A, (size_t)(cr - p)));
            continue;
        }
        for (;;) {
            if (*p == ' ' || *p == '\t') p++;
            else if (*p == 0x81 && p[1] == 0x40) p += 2;
            else break;
        }
        if (p == cr) continue;
        const uint8_t *start = p, *key_end = NULL;
        int brace = 0;
        while (p < cr) {
            if (byte_class[*p] & SINGLE) {
                if (!key_end) {
                    if (*p == '=') key_end = p;
                    else if (*p == ':' && p[1] == '{') key_end = p, brace = 1;
                }
                p++;
            } else {
                REFUSE_UNLESS((byte_class[*p] & LEAD) && p + 1 < cr && (byte_class[p[1]] & TRAIL));
                p += 2;
            }
        }
        l->key.at = start;
        if (!key_end) {
            l->kind = cr - start == 1 && *start == '}' ? CLOSE : END_OF_FILE;
            return l->kind == CLOSE || (cr - start == 3 && memcmp(start, "EOF", 3) == 0);
        }
        l->kind = KEY;
        l->key.len = (size_t)(key_end - start);
        REFUSE_UNLESS(l->key.len > 0);
        if (brace) {
            l->rest.at = NULL;
            return key_end + 2 == cr;
        }
        l->rest.at = key_end + 1;
        l->rest.len = (size_t)(cr - key_end - 1);
        return 1;
    }
}

static int opens(line l) { return l.rest.at == NULL; }

/* `key=content`, or `key=` where it may be empty: content that ends in `:{` opens a block. */
static int holds(line l) { return l.rest.at && !(l.rest.len >= 2 && memcmp(l.rest.at + l.rest.len - 2, ":{", 2) == 0); }

/* `key=content:{` */
static int opens_with(line l, bytes *content) {
    if (!l.rest.at || l.rest.len < 3 || memcmp(l.rest.at + l.rest.len - 2, ":{", 2) != 0) return 0;
    content->at = l.rest.at;
    content->len = l.rest.len - 2;
    return 1;
}

/* ── records ── */

static int64_t *take(reader *r, int kind, int64_t owner) {
    if (r->count == r->room) return NULL;
    int64_t *rec = r->table + RECORD * r->count++;
    rec[0] = kind;
    rec[1] = owner;
    rec[2] = r->volume;
    rec[3] = r->number;
    return rec;
}

static void put_text(reader *r, int64_t *to, bytes t) {
    to[0] = t.len ? t.at - r->spool : 0;
    to[1] = (int64_t)t.len;
}

/* ── numbers ── */

static int decimal(const uint8_t **at, const uint8_t *end, int64_t *out) {
    const uint8_t *p = *at;
    int negative = p < end && *p == '-', n = 0;
    int64_t v = 0;
    p += negative;
    for (; p < end && digit(*p); p++, n++) v = v * 10 + (*p - '0');
    REFUSE_UNLESS(n >= 1 && n <= 7);
    n = 0;
    if (p < end && *p == '.') {
        for (p++; p < end && digit(*p); p++, n++) {
            REFUSE_UNLESS(n < 4);
            v = v * 10 + (*p - '0');
        }
        REFUSE_UNLESS(n >= 1);
    }
    for (; n < 4; n++) v *= 10;
    *out = negative ? -v : v;
    *at = p;
    return 1;
}

/* Exactly `digits` digits. */
static int fixed(bytes t, size_t digits, int64_t *out) {
    int64_t v = 0;
    REFUSE_UNLESS(t.at && t.len == digits);
    for (size_t i = 0; i < digits; i++) {
        REFUSE_UNLESS(digit(t.at[i]));
        v = v * 10 + (t.at[i] - '0');
    }
    *out = v;
    return 1;
}

static int number(bytes t, size_t most, int64_t *out) { return t.len <= most && t.len > 0 && fixed(t, t.len, out); }

/* `decimals` decimals and then `plain` single digits, commas between them, to the end. */
static int values(const uint8_t *p, const uint8_t *end, int decimals, int plain, int64_t *out) {
    for (int i = 0; i < decimals + plain; i++) {
        if (i > 0) {
            REFUSE_UNLESS(p < end && *p == ',');
            p++;
        }
        if (i < decimals) {
            REFUSE_UNLESS(decimal(&p, end, out + i));
        } else {
            REFUSE_UNLESS(p < end && digit(*p));
            out[i] = *p++ - '0';
        }
    }
    return p == end;
}

/* Four digits, a comma, and values. */
static int typed(line l, int decimals, int plain, int64_t *type, int64_t *out) {
    REFUSE_UNLESS(holds(l) && l.rest.len > 5 && l.rest.at[4] == ',');
    bytes t = {l.rest.at, 4};
    return fixed(t, 4, type) && values(l.rest.at + 5, l.rest.at + l.rest.len, decimals, plain, out);
}

/* ten-thousandths of a degree */
enum { WHOLE_TURN = 3600000 };

static int angle(int64_t v) { return v >= 0 && v <= WHOLE_TURN; }

static int date(bytes t, int64_t *out) {
    REFUSE_UNLESS(fixed(t, 8, out));
    int64_t month = *out / 100 % 100, day = *out % 100;
    return month >= 1 && month <= 12 && day >= 1 && day <= 31;
}

static int clock_time(bytes t, int64_t *out) {
    REFUSE_UNLESS(fixed(t, 6, out));
    return *out / 10000 <= 23 && *out / 100 % 100 <= 59 && *out % 100 <= 59;
}

/* ── figures ── */

static int sign_ok(reader *r, int64_t v) { return r->in_symbol || v >= 0; }

static int points(reader *r, int64_t owner, int kind, int64_t *first_type, int64_t *n) {
    line l;
    for (*n = 0;; ++*n) {
        int64_t v[2], type;
        REFUSE_UNLESS(next(r, &l));
        if (l.kind == CLOSE) return 1;
        REFUSE_UNLESS(l.kind == KEY && IS(l, "point") && *n < 100 && typed(l, 2, 0, &type, v) && sign_ok(r, v[0]) && sign_ok(r, v[1]));
        if (*n == 0 && first_type) *first_type = type;
        int64_t *rec = take(r, kind, owner);
        REFUSE_UNLESS(rec);
        rec[4] = type;
        rec[5] = v[0];
        rec[6] = v[1];
    }
}

/* The lines of a text to its close: its type, seven values, and the place and length of its characters. */
static int text_block(reader *r, int64_t *to) {
    int type = 0, characters = 0;
    line l;
    for (;;) {
        REFUSE_UNLESS(next(r, &l));
        if (l.kind == CLOSE) return type && characters;
        REFUSE_UNLESS(l.kind == KEY);
        if (IS(l, "type")) {
            int64_t *v = to + 1;
            REFUSE_UNLESS(!type++ && typed(l, 6, 1, to, v));
            REFUSE_UNLESS(sign_ok(r, v[0]) && sign_ok(r, v[1]) && v[2] > 0 && v[3] > 0 && v[4] >= 0 && angle(v[5]) && v[6] <= 1);
        } else if (IS(l, "character")) {
            REFUSE_UNLESS(!characters++ && l.rest.at && l.rest.len >= 1 && l.rest.len <= 200);
            put_text(r, to + 8, l.rest);
        } else return 0;
    }
}

/* An arc's seven values, or in a symbol the six of a whole circle, whose turn is then -1. */
static int circle_values(reader *r, line l, int64_t *type, int64_t *v) {
    if (typed(l, 5, 1, type, v)) return v[2] > 0 && angle(v[3]) && angle(v[4]) && v[3] != v[4] && v[5] <= 1;
    REFUSE_UNLESS(r->in_symbol && typed(l, 5, 0, type, v));
    v[5] = -1;
    return v[2] > 0 && v[3] == 0 && v[4] == WHOLE_TURN;
}

/* A figure that symbols and layers have: 1, or 0 where it is refused, or -1 where the key is another. */
static int figure(reader *r, line l, int64_t owner) {
    int plus = r->in_symbol ? 20 : 0;
    int64_t v[9], type, *rec;
    if (IS(l, "line")) {
        REFUSE_UNLESS(typed(l, 4, 0, &type, v) && (v[0] != v[2] || v[1] != v[3]));
        REFUSE_UNLESS(sign_ok(r, v[0]) && sign_ok(r, v[1]) && sign_ok(r, v[2]) && sign_ok(r, v[3]) && (rec = take(r, 10 + plus, owner)));
        rec[4] = type;
        memcpy(rec + 5, v, 4 * sizeof *v);
        return 1;
    }
    if (IS(l, "point")) {
        REFUSE_UNLESS(typed(l, 2, 0, &type, v) && sign_ok(r, v[0]) && sign_ok(r, v[1]) && (rec = take(r, 13 + plus, owner)));
        rec[4] = type;
        memcpy(rec + 5, v, 2 * sizeof *v);
        return 1;
    }
    if (IS(l, "circle")) {
        REFUSE_UNLESS(circle_values(r, l, &type, v) && (rec = take(r, 11 + plus, owner)));
        rec[4] = type;
        memcpy(rec + 5, v, 6 * sizeof *v);
        return 1;
    }
    if (IS(l, "ellipse")) {
        REFUSE_UNLESS(typed(l, 7, 1, &type, v) && v[3] > 0 && v[2] > v[3] && angle(v[4]) && angle(v[5]) && v[4] != v[5]);
        REFUSE_UNLESS(angle(v[6]) && v[7] <= 1 && (rec = take(r, 12 + plus, owner)));
        rec[4] = type;
        memcpy(rec + 5, v, 8 * sizeof *v);
        return 1;
    }
    if (IS(l, "successive")) {
        REFUSE_UNLESS(opens(l) && (rec = take(r, 14 + plus, owner)));
        return points(r, owner, 17 + plus, rec + 4, rec + 5) && rec[5] >= 3;
    }
    if (IS(l, "text")) {
        REFUSE_UNLESS(opens(l) && (rec = take(r, 15 + plus, owner)));
        return text_block(r, rec + 4);
    }
    return -1;
}

/* name,x,y,angle,factor */
static int placement(reader *r, bytes t, int64_t *rec) {
    const uint8_t *comma = memchr(t.at, ',', t.len);
    REFUSE_UNLESS(comma);
    bytes name = {t.at, (size_t)(comma - t.at)};
    int64_t v[4];
    REFUSE_UNLESS(values(comma + 1, t.at + t.len, 4, 0, v) && v[0] >= 0 && v[1] >= 0 && angle(v[2]) && v[3] > 0);
    for (size_t i = 0; i < r->symbols; i++)
        if (same(r->names[i], name)) {
            rec[5] = (int64_t)i;
            memcpy(rec + 6, v, sizeof v);
            return 1;
        }
    return 0;
}

/* An item of a serial: at most ten digits, and how many they are. */
static int serial_item(const uint8_t **at, const uint8_t *end, uint64_t *out) {
    const uint8_t *p = *at;
    uint64_t v = 0;
    for (; p < end && p - *at <= 10 && digit(*p); p++) v = v * 10 + (uint64_t)(*p - '0');
    int digits = (int)(p - *at);
    *out = v;
    *at = p;
    return digits;
}

/* Partners must be there by the end of the set where symbols and wires both have serials. */
static int tests_partners(reader *r) { return r->e_sym / 10 == 1 && r->e_wire / 10 % 10 == 1; }

static void keep_partner(reader *r, uint64_t v) {
    if (tests_partners(r)) r->partners[r->partner_count++] = v;
}

static int keep_own(reader *r, uint64_t own) {
    for (size_t i = 0; i < r->serial_count; i++) REFUSE_UNLESS(r->serials[i] != own);
    REFUSE_UNLESS(r->serial_count < MOST_SERIALS);
    r->serials[r->serial_count++] = own;
    return 1;
}

/* A symbol's: own number, partners. */
static int serial(reader *r, bytes t, int64_t *rec) {
    const uint8_t *p = t.at, *end = t.at + t.len;
    uint64_t own = 0;
    for (int n = 0;; n++) {
        uint64_t v;
        int digits = serial_item(&p, end, &v);
        REFUSE_UNLESS(digits >= 1 && digits <= 10 && n <= 100);
        if (n == 0) own = v;
        else keep_partner(r, v);
        if (p == end) {
            rec[14] = (int64_t)own;
            rec[15] = n;
            break;
        }
        REFUSE_UNLESS(*p++ == ',');
    }
    return keep_own(r, own);
}

/* A wire's: own number, and two partners, each of which may be empty. */
static int wire_serial(reader *r, bytes t, int64_t *rec) {
    const uint8_t *p = t.at, *end = t.at + t.len;
    uint64_t own, v;
    int digits = serial_item(&p, end, &own);
    REFUSE_UNLESS(digits >= 1 && digits <= 10);
    rec[21] = (int64_t)own;
    for (int n = 0; n < 2; n++) {
        REFUSE_UNLESS(p < end && *p++ == ',');
        digits = serial_item(&p, end, &v);
        REFUSE_UNLESS(digits <= 10);
        rec[22 + 2 * n] = digits ? 2 : 1;
        rec[23 + 2 * n] = (int64_t)v;
        if (digits) keep_partner(r, v);
    }
    return p == end && keep_own(r, own);
}

static int compared(const void *a, const void *b) {
    uint64_t x = *(const uint64_t *)a, y = *(const uint64_t *)b;
    return (x > y) - (x < y);
}

static int partners_there(reader *r) {
    if (r->partner_count == 0) return 1;
    qsort(r->serials, r->serial_count, sizeof *r->serials, compared);
    for (size_t i = 0; i < r->partner_count; i++)
        REFUSE_UNLESS(bsearch(&r->partners[i], r->serials, r->serial_count, sizeof *r->serials, compared));
    return 1;
}

static int circuit_ok(bytes t) {
    REFUSE_UNLESS(t.len <= 10);
    for (size_t i = 0; i < t.len; i++) REFUSE_UNLESS(letter(t.at[i]) || digit(t.at[i]) || t.at[i] == '-' || t.at[i] == '.');
    return 1;
}

static int placed(reader *r, line l, int64_t owner) {
    int last = r->e_sym % 10, middle = r->e_sym / 10, symbol = 0, state;
    REFUSE_UNLESS(r->e_sym > 0);
    int64_t *rec = take(r, 16, owner);
    REFUSE_UNLESS(rec);
    if (r->e_sym == 1) return holds(l) && l.rest.len > 0 && placement(r, l.rest, rec);
    REFUSE_UNLESS(opens(l));
    for (;;) {
        REFUSE_UNLESS(next(r, &l));
        if (l.kind == CLOSE) break;
        REFUSE_UNLESS(l.kind == KEY);
        state = opens(l) || l.rest.len ? 2 : 1;
        if (IS(l, "symbol")) {
            REFUSE_UNLESS(!symbol++ && holds(l) && l.rest.len > 0 && placement(r, l.rest, rec));
        } else if (IS(l, "text") && last >= 2) {
            REFUSE_UNLESS(!rec[26] && opens(l) && text_block(r, rec + 16));
            rec[26] = 2;
        } else if (IS(l, "hight") && last >= 3) {
            REFUSE_UNLESS(!rec[27] && holds(l) && (state == 1 || values(l.rest.at, l.rest.at + l.rest.len, 1, 0, rec + 10)));
            rec[27] = state;
        } else if (IS(l, "pos") && last >= 4) {
            REFUSE_UNLESS(!rec[28] && holds(l) && (state == 1 || (fixed(l.rest, 1, rec + 11) && rec[11] >= 1 && rec[11] <= 5)));
            rec[28] = state;
        } else if (IS(l, "circuit") && last >= 5) {
            REFUSE_UNLESS(!rec[29] && holds(l) && circuit_ok(l.rest));
            put_text(r, rec + 12, l.rest);
            rec[29] = state;
        } else if (IS(l, "serial") && middle >= 1) {
            REFUSE_UNLESS(!rec[30] && holds(l) && serial(r, l.rest, rec));
            rec[30] = 2;
        } else return 0;
    }
    return symbol && (last < 3 || rec[27]) && (last < 4 || rec[28]) && (last < 5 || rec[29]) && (middle < 1 || rec[30]);
}

/* Whether the line starts where the one before it ends; untested where one of the two is an arc. */
static int joined(const int64_t *former, int64_t *rec) {
    if (former[0] != 20 || rec[0] != 20) {
        rec[11] = 2;
        return 1;
    }
    rec[11] = 1;
    return former[7] == rec[5] && former[8] == rec[6];
}

/* One digit and a comma. */
static int digit_first(bytes *t, int64_t most, int64_t *out) {
    REFUSE_UNLESS(t->len > 2 && digit(t->at[0]) && t->at[1] == ',' && t->at[0] - '0' <= most);
    *out = t->at[0] - '0';
    t->at += 2;
    t->len -= 2;
    return 1;
}

/* x,y,angle to the end: a place and an angle up to so many degrees. */
static int site(bytes t, int64_t most, int64_t *v) {
    return values(t.at, t.at + t.len, 3, 0, v) && v[0] >= 0 && v[1] >= 0 && v[2] >= 0 && v[2] <= most;
}

static int wire_direc(bytes t, int64_t *own) {
    int64_t *to = own + 7 + 4 * own[6];
    REFUSE_UNLESS(own[6] < 2 && digit_first(&t, 4, to) && site(t, WHOLE_TURN, to + 1));
    own[6]++;
    own[26] = 2;
    return 1;
}

static int wire_piend(bytes t, int64_t *own) {
    int64_t later[3];
    REFUSE_UNLESS(site(t, WHOLE_TURN, own[15] ? later : own + 16));
    own[15]++;
    own[27] = 2;
    return 1;
}

/* earth,power wires,x,y,angle: all of one wire with the first one's two counts */
static int wire_num(bytes t, int64_t *own) {
    int64_t later[5], *v = own[19] ? later : own + 20;
    REFUSE_UNLESS(digit_first(&t, 1, v));
    const uint8_t *comma = memchr(t.at, ',', t.len);
    REFUSE_UNLESS(comma);
    bytes count = {t.at, (size_t)(comma - t.at)}, rest = {comma + 1, t.len - (size_t)(comma - t.at) - 1};
    REFUSE_UNLESS(number(count, 9, v + 1) && site(rest, 1800000, v + 2) && v[0] == own[20] && v[1] == own[21]);
    own[19]++;
    own[28] = 2;
    return 1;
}

static const struct {
    int64_t phase, wires, volts;
} powers[13] = {{1, 2, 100}, {1, 2, 200}, {1, 2, 231}, {1, 3, 200}, {3, 3, 200}, {3, 3, 400}, {3, 3, 3300}, {3, 3, 6600}, {3, 3, 22000}, {3, 3, 33000}, {3, 3, 66000}, {3, 4, 173}, {3, 4, 400}};

static int wire_power(bytes t, int64_t *v) {
    REFUSE_UNLESS(digit_first(&t, 9, v) && digit_first(&t, 9, v + 1) && number(t, 9, v + 2));
    for (int k = 0; k < 13; k++)
        if (v[0] == powers[k].phase && v[1] == powers[k].wires && v[2] == powers[k].volts) return 1;
    return 0;
}

static int wire_text(reader *r, int64_t *more) {
    int64_t later[10];
    REFUSE_UNLESS(text_block(r, more[5] ? later : more + 6));
    more[5]++;
    more[26] = 2;
    return 1;
}

/* What stands behind a wire's lines and arcs; own and more are its two records. */
static int wire_attribute(reader *r, line l, int64_t *own, int64_t *more) {
    int last = r->e_wire % 10, middle = r->e_wire / 10 % 10, state;
    if (IS(l, "text")) return last >= 5 && opens(l) && wire_text(r, more);
    REFUSE_UNLESS(holds(l));
    state = l.rest.len ? 2 : 1;
    if (IS(l, "direc")) return last >= 2 && wire_direc(l.rest, own);
    if (IS(l, "piend")) return last >= 3 && wire_piend(l.rest, own);
    if (IS(l, "num")) return last >= 4 && wire_num(l.rest, own);
    if (IS(l, "length")) {
        REFUSE_UNLESS(last >= 6 && !own[29] && (state == 1 || (values(l.rest.at, l.rest.at + l.rest.len, 1, 0, own + 25) && own[25] >= 0)));
        own[29] = state;
        return 1;
    }
    if (IS(l, "circuit")) {
        REFUSE_UNLESS(last >= 7 && !more[27] && circuit_ok(l.rest));
        put_text(r, more + 16, l.rest);
        more[27] = state;
        return 1;
    }
    if (IS(l, "power")) {
        REFUSE_UNLESS(last >= 8 && !more[28] && (state == 1 || wire_power(l.rest, more + 18)));
        more[28] = state;
        return 1;
    }
    REFUSE_UNLESS(IS(l, "serial") && middle == 1 && !more[29] && wire_serial(r, l.rest, more));
    more[29] = 2;
    return 1;
}

static int wire_complete(reader *r, const int64_t *own, const int64_t *more) {
    int last = r->e_wire % 10, middle = r->e_wire / 10 % 10;
    return (last < 6 || own[29]) && (last < 7 || more[27]) && (last < 8 || more[28]) && (middle < 1 || more[29]);
}

static int wire(reader *r, line l, int64_t owner) {
    int64_t *own, *more, *former = NULL, *rec;
    int past = 0; /* something else than a line or an arc has stood there */
    REFUSE_UNLESS(r->e_wire && opens(l) && (own = take(r, 18, owner)) && (more = take(r, 19, owner)));
    own[30] = r->e_wire / 100;
    for (;;) {
        REFUSE_UNLESS(next(r, &l));
        if (l.kind == CLOSE) return wire_complete(r, own, more);
        REFUSE_UNLESS(l.kind == KEY);
        if (!IS(l, "line") && !IS(l, "circle")) {
            REFUSE_UNLESS(wire_attribute(r, l, own, more));
            past = 1;
            continue;
        }
        REFUSE_UNLESS(!past && figure(r, l, owner) == 1);
        rec = r->table + RECORD * (r->count - 1);
        rec[0] += 10;
        REFUSE_UNLESS(!former || r->e_wire / 100 != 4 || joined(former, rec));
        own[5]++;
        former = rec;
    }
}

/* ── blocks ── */

/* `key=001` or `key=000`, once. */
static int zero_or_one(line l, int *seen, int most, int64_t *out) {
    return !*seen && (*seen = 1) && holds(l) && fixed(l.rest, 3, out) && *out <= most;
}

static int range_part(reader *r, line l, int64_t *rec, int which) {
    bytes content;
    int64_t v;
    int a = 0, b = 0, c = 0;
    if (which != 0 && holds(l)) return fixed(l.rest, 3, &v) && v == 0;
    REFUSE_UNLESS(opens_with(l, &content) && fixed(content, 3, &v) && v == 1);
    if (which == 1) rec[7] = 1;
    if (which == 2) rec[9] = 1;
    for (;;) {
        REFUSE_UNLESS(next(r, &l));
        if (l.kind == CLOSE) return a && (which == 0 || b) && (which != 1 || c);
        REFUSE_UNLESS(l.kind == KEY);
        if (which == 0 && IS(l, "B_sym")) {
            REFUSE_UNLESS(zero_or_one(l, &a, 1, rec + 5));
        } else if (which == 1 && IS(l, "E_sym")) {
            REFUSE_UNLESS(zero_or_one(l, &a, 15, rec + 8) && (rec[8] <= 5 || rec[8] >= 11));
            r->e_sym = (int)rec[8];
        } else if (which == 1 && IS(l, "E_wire")) {
            REFUSE_UNLESS(zero_or_one(l, &b, 418, &v) && (v == 0 || (v / 10 % 10 <= 1 && v % 10 >= 1 && v % 10 <= 8)));
            r->e_wire = (int)v;
        } else if (which == 1 && IS(l, "E_cirno")) {
            REFUSE_UNLESS(zero_or_one(l, &c, 0, &v));
        } else if (which == 2 && IS(l, "S_base")) {
            REFUSE_UNLESS(zero_or_one(l, &a, 1, rec + 10));
        } else if (which == 2 && IS(l, "S_elec")) {
            REFUSE_UNLESS(zero_or_one(l, &b, 2, rec + 11));
            r->s_elec = (int)rec[11];
        } else return 0;
    }
}

static int range(reader *r, int64_t *rec) {
    int base = 0, arc = 0, elec = 0, air = 0, pipe = 0, sym = 0;
    int64_t v;
    line l;
    for (;;) {
        REFUSE_UNLESS(next(r, &l));
        if (l.kind == CLOSE) return base;
        REFUSE_UNLESS(l.kind == KEY);
        if (IS(l, "base")) REFUSE_UNLESS(!base++ && range_part(r, l, rec, 0));
        else if (IS(l, "arc")) {
            REFUSE_UNLESS(zero_or_one(l, &arc, 1, rec + 6));
            r->arc = (int)rec[6];
        } else if (IS(l, "elec")) REFUSE_UNLESS(!elec++ && range_part(r, l, rec, 1));
        else if (IS(l, "sym")) REFUSE_UNLESS(!sym++ && range_part(r, l, rec, 2));
        else if (IS(l, "air")) REFUSE_UNLESS(zero_or_one(l, &air, 0, &v));
        else if (IS(l, "pipe")) REFUSE_UNLESS(zero_or_one(l, &pipe, 0, &v));
        else return 0;
    }
}

static const struct {
    const char *key;
    uint8_t len, least, most, ascii;
} about[8] = {{"cad", 3, 1, 20, 1}, {"os", 2, 1, 20, 1}, {"hard", 4, 1, 20, 1}, {"ver", 3, 1, 10, 1}, {"corp", 4, 0, 40, 0}, {"make", 4, 0, 40, 0}, {"tel", 3, 0, 20, 2}, {"name", 4, 0, 20, 0}};

static int about_text(reader *r, line l, int64_t *rec, int *seen) {
    for (int k = 0; k < 8; k++) {
        if (l.key.len != about[k].len || memcmp(l.key.at, about[k].key, about[k].len) != 0) continue;
        REFUSE_UNLESS(!seen[k] && l.rest.at && l.rest.len >= about[k].least && l.rest.len <= about[k].most);
        for (size_t i = 0; about[k].ascii && i < l.rest.len; i++) {
            uint8_t b = l.rest.at[i];
            REFUSE_UNLESS(about[k].ascii == 1 ? b <= 0x7E : digit(b) || b == '-' || b == '(' || b == ')');
        }
        seen[k] = 1;
        put_text(r, rec + 16 + 2 * k, l.rest);
        return 1;
    }
    return 0;
}

static int chained(reader *r, bytes next_file) {
    REFUSE_UNLESS(next_file.len <= 8);
    if (r->volume == r->last_volume) return next_file.len == 0;
    REFUSE_UNLESS(next_file.len > 0);
    for (size_t i = 0; i < 8; i++) {
        uint8_t b = i < next_file.len ? next_file.at[i] : ' ';
        if (b >= 'a' && b <= 'z') b = (uint8_t)(b - 32);
        REFUSE_UNLESS(b == r->next_name[i]);
    }
    return 1;
}

static int file_format(reader *r) {
    int first = r->volume == 1, seen[8] = {0}, n_range = 0, n_all = 0, n_this = 0, n_all_ele = 0, n_ele = 0, n_next = 0, n_date = 0, n_time = 0, n_about = 0;
    int64_t when = 0, at_time = 0, *head = NULL, *vol;
    bytes next_file = {NULL, 0};
    line l;
    REFUSE_UNLESS(next(r, &l) && l.kind == KEY && IS(l, "FILE_FORMAT") && opens(l));
    if (first) REFUSE_UNLESS(head = take(r, 1, 0));
    REFUSE_UNLESS(vol = take(r, 2, 0));
    for (;;) {
        REFUSE_UNLESS(next(r, &l));
        if (l.kind == CLOSE) break;
        REFUSE_UNLESS(l.kind == KEY);
        if (IS(l, "this_line")) REFUSE_UNLESS(!n_this++ && holds(l) && number(l.rest, 9, vol + 5));
        else if (IS(l, "this_ele")) REFUSE_UNLESS(!n_ele++ && holds(l) && number(l.rest, 9, vol + 6));
        else if (IS(l, "next_file")) {
            REFUSE_UNLESS(!n_next++ && holds(l));
            for (size_t i = 0; i < l.rest.len; i++) REFUSE_UNLESS(letter(l.rest.at[i]) || digit(l.rest.at[i]));
            next_file = l.rest;
        } else if (IS(l, "date")) REFUSE_UNLESS(!n_date++ && holds(l) && date(l.rest, &when));
        else if (IS(l, "time")) REFUSE_UNLESS(!n_time++ && holds(l) && clock_time(l.rest, &at_time));
        else if (!first) return 0;
        else if (IS(l, "range")) REFUSE_UNLESS(!n_range++ && opens(l) && range(r, head));
        else if (IS(l, "all_line")) REFUSE_UNLESS(!n_all++ && holds(l) && number(l.rest, 9, head + 12));
        else if (IS(l, "all_ele")) REFUSE_UNLESS(!n_all_ele++ && holds(l) && number(l.rest, 9, head + 13));
        else {
            REFUSE_UNLESS(about_text(r, l, head, seen));
            n_about++;
        }
    }
    REFUSE_UNLESS(n_this && n_ele && n_next && n_date && n_time && chained(r, next_file));
    r->this_ele = vol[6];
    if (!first) return when == r->date && at_time == r->time;
    head[14] = r->date = when;
    head[15] = r->time = at_time;
    r->all_ele = head[13];
    return n_range && n_all && n_all_ele && n_about == 8;
}

static int size_of_sheet(bytes t, int64_t *rec) {
    int64_t n = 1;
    REFUSE_UNLESS(t.len >= 2 && t.len <= 4 && t.at[t.len - 2] == 'A' && digit(t.at[t.len - 1]));
    rec[6] = t.at[t.len - 1] - '0';
    if (t.len == 2) return (rec[5] = 1) && rec[6] <= 4;
    bytes front = {t.at, t.len - 2};
    REFUSE_UNLESS(fixed(front, front.len, &n) && t.at[0] != '0' && rec[6] <= 1);
    rec[5] = n;
    for (int64_t k = 2; k <= 9; k++)
        if (k * k == n) return 1;
    return 0;
}

static int scale(bytes t, int64_t *rec) {
    const uint8_t *slash = memchr(t.at, '/', t.len);
    bytes p = {t.at, slash ? (size_t)(slash - t.at) : t.len};
    REFUSE_UNLESS(number(p, 9, rec + 7) && rec[7] >= 1 && rec[7] <= 99999);
    rec[8] = 1;
    if (!slash) return 1;
    bytes q = {slash + 1, t.len - p.len - 1};
    return number(q, 9, rec + 8) && rec[8] <= 99999 && rec[7] < rec[8];
}

static int layer_id(bytes t, uint16_t *out) {
    REFUSE_UNLESS(t.len == 5 && t.at[1] == '_' && memchr("BAEPM", t.at[0], 5));
    for (int i = 2; i < 5; i++) REFUSE_UNLESS(digit(t.at[i]));
    *out = (uint16_t)((t.at[0] - 'A') * 1000 + (t.at[2] - '0') * 100 + (t.at[3] - '0') * 10 + (t.at[4] - '0'));
    return 1;
}

static size_t layer_at(reader *r, uint16_t id) {
    size_t i = 0;
    while (i < r->layers && r->layer_id[i] != id) i++;
    return i;
}

static int layer_names(reader *r) {
    uint16_t id;
    line l;
    for (;;) {
        REFUSE_UNLESS(next(r, &l));
        if (l.kind == CLOSE) return 1;
        REFUSE_UNLESS(l.kind == KEY && layer_id(l.key, &id) && l.rest.at && l.rest.len <= 20 && r->layers < MOST_LAYERS);
        REFUSE_UNLESS(layer_at(r, id) == r->layers);
        int64_t *rec = take(r, 5, (int64_t)r->layers);
        REFUSE_UNLESS(rec);
        rec[5] = l.key.at[0];
        rec[6] = id % 1000;
        put_text(r, rec + 7, l.rest);
        r->layer_id[r->layers++] = id;
    }
}

static int drawing_format(reader *r) {
    int size = 0, n_scale = 0, project = 0, drawname = 0, n_date = 0, drawer = 0, floor = 0, names = 0;
    int64_t *rec;
    line l;
    REFUSE_UNLESS(next(r, &l) && l.kind == KEY && IS(l, "DRAWING_FORMAT") && opens(l) && (rec = take(r, 3, 0)));
    for (;;) {
        REFUSE_UNLESS(next(r, &l));
        if (l.kind == CLOSE) return size && n_scale && project && drawname && n_date && drawer && names && floor == r->arc;
        REFUSE_UNLESS(l.kind == KEY);
        if (IS(l, "size")) REFUSE_UNLESS(!size++ && holds(l) && size_of_sheet(l.rest, rec));
        else if (IS(l, "scale")) REFUSE_UNLESS(!n_scale++ && holds(l) && scale(l.rest, rec));
        else if (IS(l, "date")) REFUSE_UNLESS(!n_date++ && holds(l) && date(l.rest, rec + 9));
        else if (IS(l, "project")) {
            REFUSE_UNLESS(!project++ && l.rest.at && l.rest.len >= 1 && l.rest.len <= 60);
            put_text(r, rec + 12, l.rest);
        } else if (IS(l, "drawname")) {
            REFUSE_UNLESS(!drawname++ && l.rest.at && l.rest.len >= 1 && l.rest.len <= 60);
            put_text(r, rec + 14, l.rest);
        } else if (IS(l, "drawer")) {
            REFUSE_UNLESS(!drawer++ && l.rest.at && l.rest.len <= 20);
            put_text(r, rec + 16, l.rest);
        } else if (IS(l, "floor_height")) {
            REFUSE_UNLESS(r->arc && !floor++ && holds(l));
            rec[10] = l.rest.len ? 2 : 1;
            REFUSE_UNLESS(rec[10] == 1 || (values(l.rest.at, l.rest.at + l.rest.len, 1, 0, rec + 11) && rec[11] >= 0));
        } else if (IS(l, "layer_name")) REFUSE_UNLESS(!names++ && opens(l) && layer_names(r));
        else return 0;
    }
}

static int new_name(reader *r, bytes t) {
    REFUSE_UNLESS(t.len >= 1 && t.len <= 32 && r->symbols < MOST_NAMES);
    for (size_t i = 0; i < t.len; i++) REFUSE_UNLESS(letter(t.at[i]) || digit(t.at[i]));
    for (size_t i = 0; i < r->symbols; i++) REFUSE_UNLESS(!same(r->names[i], t));
    r->names[r->symbols] = t;
    return 1;
}

static int symbol_figures(reader *r, int64_t owner) {
    line l;
    for (int n = 0;; n++) {
        REFUSE_UNLESS(next(r, &l));
        if (l.kind == CLOSE) return n > 0;
        REFUSE_UNLESS(l.kind == KEY && figure(r, l, owner) == 1);
    }
}

static int symbol(reader *r) {
    int name = 0, element = 0, hide = 0, wall = 0;
    int64_t owner = (int64_t)r->symbols, n, *rec = take(r, 4, owner);
    line l;
    REFUSE_UNLESS(rec);
    for (;;) {
        REFUSE_UNLESS(next(r, &l));
        if (l.kind == CLOSE) break;
        REFUSE_UNLESS(l.kind == KEY);
        if (IS(l, "name")) {
            REFUSE_UNLESS(!name++ && holds(l) && new_name(r, l.rest));
            put_text(r, rec + 5, l.rest);
        } else if (IS(l, "element")) REFUSE_UNLESS(!element++ && opens(l) && symbol_figures(r, owner));
        else if (IS(l, "hide")) REFUSE_UNLESS(!hide++ && opens(l) && points(r, owner, 43, NULL, &n));
        else if (IS(l, "wall")) {
            REFUSE_UNLESS(r->s_elec == 2 && !wall++ && holds(l));
            rec[7] = l.rest.len ? 2 : 1;
            REFUSE_UNLESS(rec[7] == 1 || values(l.rest.at, l.rest.at + l.rest.len, 2, 0, rec + 8));
        } else return 0;
    }
    r->symbols++;
    return name && element && hide && wall == (r->s_elec == 2);
}

static int symbol_define(reader *r) {
    int non = 0;
    line l;
    REFUSE_UNLESS(next(r, &l) && l.kind == KEY && IS(l, "SYMBOL_DEFINE") && opens(l));
    r->in_symbol = 1;
    for (;;) {
        REFUSE_UNLESS(next(r, &l));
        if (l.kind == CLOSE) break;
        REFUSE_UNLESS(l.kind == KEY);
        if (IS(l, "NON")) REFUSE_UNLESS(!non++ && l.rest.at && l.rest.len == 0 && !r->symbols);
        else REFUSE_UNLESS(IS(l, "E_symbol") && r->s_elec >= 1 && opens(l) && !non && symbol(r));
    }
    r->in_symbol = 0;
    return non || r->symbols;
}

static int layer(reader *r, int64_t owner) {
    line l;
    for (;;) {
        REFUSE_UNLESS(next(r, &l));
        if (l.kind == CLOSE) return 1;
        REFUSE_UNLESS(l.kind == KEY);
        r->here++;
        if (IS(l, "E_symbol")) REFUSE_UNLESS(placed(r, l, owner));
        else if (IS(l, "E_wire")) REFUSE_UNLESS(wire(r, l, owner));
        else REFUSE_UNLESS(figure(r, l, owner) == 1);
    }
}

static int element(reader *r) {
    bytes id;
    uint16_t number;
    line l;
    REFUSE_UNLESS(next(r, &l) && l.kind == KEY && IS(l, "ELEMENT") && opens(l));
    r->here = 0;
    for (;;) {
        REFUSE_UNLESS(next(r, &l));
        if (l.kind == CLOSE) break;
        REFUSE_UNLESS(l.kind == KEY && IS(l, "LAYER") && opens_with(l, &id) && layer_id(id, &number));
        size_t at = layer_at(r, number);
        REFUSE_UNLESS(at < r->layers && r->layer_used[at] != r->volume);
        r->layer_used[at] = (uint8_t)r->volume;
        REFUSE_UNLESS(layer(r, (int64_t)at));
    }
    r->whole += r->here;
    return r->here == r->this_ele;
}

static int ends(reader *r) {
    line l;
    if (r->volume == r->last_volume) {
        REFUSE_UNLESS(next(r, &l) && l.kind == END_OF_FILE && *r->at == 0x1A && r->whole == r->all_ele);
        for (size_t i = 0; i < r->layers; i++) REFUSE_UNLESS(r->layer_used[i]);
        REFUSE_UNLESS(partners_there(r));
    }
    return next(r, &l) && l.kind == END_OF_VOLUME;
}

/* ── the spool ── */

static int name_ok(const uint8_t *n) {
    int k = 0;
    while (k < 8 && ((n[k] >= 'A' && n[k] <= 'Z') || digit(n[k]))) k++;
    REFUSE_UNLESS(k > 0);
    for (; k < 8; k++) REFUSE_UNLESS(n[k] == ' ');
    return 1;
}

static int whole_spool(reader *r, const uint8_t *s, size_t len) {
    size_t place[MOST_VOLUMES], size[MOST_VOLUMES], n = 0, at = 0;
    REFUSE_UNLESS(len > 0 && len <= MOST_SPOOL);
    while (at < len) {
        REFUSE_UNLESS(n < MOST_VOLUMES && len - at >= 12 && s[at] == 'V' && s[at + 1] == 'P' && name_ok(s + at + 2));
        size[n] = (size_t)s[at + 10] * 256 + s[at + 11];
        place[n] = at + 12;
        REFUSE_UNLESS(len - place[n] >= size[n]);
        for (size_t i = 0; i < n; i++) REFUSE_UNLESS(memcmp(s + place[i] - 10, s + at + 2, 8) != 0);
        at = place[n] + size[n];
        n++;
    }
    r->last_volume = (int)n;
    for (size_t v = 0; v < n; v++) {
        r->volume = (int)v + 1;
        r->number = 0;
        r->at = s + place[v];
        r->end = r->at + size[v];
        if (v + 1 < n) memcpy(r->next_name, s + place[v + 1] - 10, 8);
        REFUSE_UNLESS(file_format(r));
        if (v == 0) REFUSE_UNLESS(drawing_format(r) && symbol_define(r));
        REFUSE_UNLESS(element(r) && ends(r));
    }
    return 1;
}

int plain_read(const uint8_t *spool, size_t spool_len, int64_t *table, size_t table_len, uint64_t *count) {
    reader r;
    prepare();
    memset(table, 0, table_len * sizeof *table);
    memset(&r, 0, offsetof(reader, names));
    memset(&r.symbols, 0, sizeof r - offsetof(reader, symbols));
    r.spool = spool;
    r.table = table;
    r.room = table_len / RECORD;
    if (!whole_spool(&r, spool, spool_len)) {
        memset(table, 0, table_len * sizeof *table);
        *count = 0;
        return 1;
    }
    *count = r.count;
    return 0;
}
