// The cost per byte of splitting a 60 KB spool into lines and forms: the proved code (crates/linebench) beside plain C that does the same
// work, in one run, turn about. Prints both in ns per byte, the best of all turns, and their ratio. A figure, no test: it fails only where
// the two disagree.
#include <stdint.h>
#include <stdio.h>
#include <string.h>
#include <time.h>

uint32_t linebench_unsound(const uint8_t *s, size_t s_len);
uint64_t linebench_look(const uint8_t *body, size_t body_len, uint32_t base, uint32_t at, uint8_t volume, uint32_t line);

// ── plain C ──
#define KEPT __attribute__((noinline))

static int good_name(const uint8_t *n) {
    int k = 0;
    while (k < 8 && ((n[k] >= 'A' && n[k] <= 'Z') || (n[k] >= '0' && n[k] <= '9'))) k++;
    if (k == 0) return 0;
    for (; k < 8; k++)
        if (n[k] != ' ') return 0;
    return 1;
}

static int sound_lines(const uint8_t *s, size_t len) {
    size_t i = 0;
    while (i < len) {
        size_t e = i;
        while (e < len && (s[e] > 26 || (s[e] != 13 && s[e] != 26 && s[e] != 10))) e++;
        if (e == len) return 0;
        if (s[e] == 26) return e == i && e + 1 == len;
        if (s[e] == 10 || e - i > 512 || e + 1 == len || s[e + 1] != 10) return 0;
        i = e + 2;
    }
    return 0;
}

static KEPT uint32_t plain_unsound(const uint8_t *s, size_t len) {
    size_t place[12], size[12], n = 0, at = 0;
    if (len == 0 || len > 61440) return 0;
    while (at < len) {
        if (n == 12 || len - at < 12 || s[at] != 'V' || s[at + 1] != 'P' || !good_name(s + at + 2)) return 0;
        size[n] = (size_t)s[at + 10] * 256 + s[at + 11];
        place[n] = at + 12;
        if (len - place[n] < size[n]) return 0;
        at = place[n] + size[n];
        n++;
    }
    for (size_t i = 0; i < n; i++)
        for (size_t j = i + 1; j < n; j++)
            if (memcmp(s + place[i] - 10, s + place[j] - 10, 8) == 0) return 0;
    for (size_t i = 0; i < n; i++)
        if (!sound_lines(s + place[i], size[i])) return (uint32_t)i + 1;
    return 0;
}

static inline size_t char_at(const uint8_t *t, size_t i, size_t len) {
    uint8_t b = t[i];
    if ((b >= 32 && b <= 126) || (b >= 161 && b <= 223)) return 1;
    if (!((b >= 129 && b <= 159) || (b >= 224 && b <= 252)) || i + 1 == len) return 0;
    b = t[i + 1];
    return (b >= 64 && b <= 126) || (b >= 128 && b <= 252) ? 2 : 0;
}

static inline uint64_t seen(uint32_t next, uint32_t kind) { return (uint64_t)next << 32 | kind; }

static uint64_t unread(const uint8_t *t, size_t i, size_t len, uint32_t at, uint32_t kind) {
    while (i < len && t[i] != 13) i++;
    return i == len ? 0 : seen(at + (uint32_t)i + 2, kind);
}

static KEPT uint64_t plain_look(const uint8_t *body, size_t size, uint32_t base, uint32_t at, uint8_t volume, uint32_t line) {
    (void)volume, (void)line;
    if (base + size > 61440 || at < base || at - base > size) return 0;
    const uint8_t *t = body + (at - base);
    size_t len = size - (at - base), n = 0, k, r, w;
    if (len == 0) return 0;
    if (t[0] == '#') return unread(t, 0, len, at, 0);
    for (;;) {
        if (n < len && (t[n] == 32 || t[n] == 9)) n++;
        else if (n + 1 < len && t[n] == 129 && t[n + 1] == 64) n += 2;
        else break;
    }
    for (k = n; k < len; k += w) {
        if (t[k] == '=' || (t[k] == ':' && k + 1 < len && t[k + 1] == '{')) break;
        w = char_at(t, k, len);
        if (w == 0) break;
    }
    if (k == len) return 0;
    if (t[k] == 13) {
        size_t m = k - n;
        uint32_t kind = m == 0 ? 0 : m == 1 && t[n] == '}' ? 1 : m == 3 && memcmp(t + n, "EOF", 3) == 0 ? 2 : 5;
        return seen(at + (uint32_t)k + 2, kind);
    }
    int brace = t[k] == ':';
    if (!brace && t[k] != '=') return unread(t, k, len, at, 4);
    for (r = k + 1 + brace; r < len; r += w) {
        w = char_at(t, r, len);
        if (w == 0) break;
    }
    if (r == len) return 0;
    if (t[r] != 13) return unread(t, r, len, at, 4);
    if (k == n || (brace && r != k + 2)) return seen(at + (uint32_t)r + 2, 5);
    return seen(at + (uint32_t)r + 2, brace ? at + (uint32_t)n : at + (uint32_t)k + 1);
}

// ── the walk, the same for both ──
typedef uint32_t unsound_fn(const uint8_t *, size_t);
typedef uint64_t look_fn(const uint8_t *, size_t, uint32_t, uint32_t, uint8_t, uint32_t);

static uint64_t split(const uint8_t *s, size_t len, unsound_fn *unsound, look_fn *look) {
    uint64_t sum = unsound(s, len);
    size_t at = 0;
    for (uint8_t v = 1; at < len; v++) {
        uint32_t base = (uint32_t)at + 12, size = s[at + 10] * 256u + s[at + 11], p = base, line = 0;
        uint64_t f;
        while ((f = look(s + base, size, base, p, v, ++line)) != 0) {
            sum = sum * 31 + f;
            p = (uint32_t)(f >> 32);
        }
        at = base + size;
    }
    return sum;
}

// ── the spool: four volumes of lines as drawings have them ──
static size_t fill(uint8_t *s) {
    static const char *lines[] = {
        "LAYER=B_001:{", "\tline=1204.5,330.25,1980,330.25", "\tpoint=12.75,88", "\tE_symbol:{", "\t\tsymbol=RESISTOR_04", "\t\thight=2.5,1",
        "\t\tpos=1204.5,330.25,90", "\t\ttext:{", "\t\t\ttype=name,left,base", "\t\t\tcharacter=\x83\x6f\x83\x8b\x83\x75 PUMP 12 \xca\xde\xd9\xcc\xde",
        "\t\t}", "\t\tcircuit=C-104.7", "\t}", "}", "# drawn by hand, corrected twice", "    arc=400,120.5,33.75,0,180",
    };
    size_t at = 0;
    for (int v = 0; v < 4; v++) {
        size_t head = at, i = 0;
        memcpy(s + at, "VPSHEET   ", 10);
        s[at + 7] = (uint8_t)('1' + v);
        at += 12;
        while (at - head < 15250) {
            const char *l = lines[i++ % (sizeof lines / sizeof *lines)];
            size_t n = strlen(l);
            memcpy(s + at, l, n);
            at += n;
            s[at++] = 13;
            s[at++] = 10;
        }
        s[at++] = 26;
        s[head + 10] = (uint8_t)((at - head - 12) / 256);
        s[head + 11] = (uint8_t)((at - head - 12) % 256);
    }
    return at;
}

static double turn(const uint8_t *s, size_t len, unsound_fn *unsound, look_fn *look, uint64_t *sum) {
    struct timespec a, b;
    clock_gettime(CLOCK_MONOTONIC, &a);
    for (int i = 0; i < 20; i++) {
        __asm__ volatile("" : : "r"(s) : "memory"); // the bytes may have changed: no turn is spared
        *sum += split(s, len, unsound, look);
    }
    clock_gettime(CLOCK_MONOTONIC, &b);
    return ((double)(b.tv_sec - a.tv_sec) * 1e9 + (double)(b.tv_nsec - a.tv_nsec)) / 20 / (double)len;
}

int main(void) {
    static uint8_t s[61440];
    size_t len = fill(s);
    if (linebench_unsound(s, len) != 0 || split(s, len, linebench_unsound, linebench_look) != split(s, len, plain_unsound, plain_look)) {
        puts("the proved code and plain C disagree");
        return 1;
    }
    double proved = 1e9, plain = 1e9;
    uint64_t x = 0, y = 0;
    for (int i = 0; i < 50; i++) {
        double p = turn(s, len, linebench_unsound, linebench_look, &x), c = turn(s, len, plain_unsound, plain_look, &y);
        if (p < proved) proved = p;
        if (c < plain) plain = c;
    }
    printf("%zu bytes: proved %.2f ns per byte, plain C %.2f, ratio %.2f\n", len, proved, plain, proved / plain);
    return x != y;
}
