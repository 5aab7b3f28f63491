#!/usr/bin/env python3
"""Writes the C programs that `bench/more.py` measures `fixd` beside: peers.py FOLDER

filter.c runs the low-pass filter of examples/average, columns.c the sum of 8 inputs of bundles.py, both with the checks
of rows that `fixd` makes; read.c reads a bundle's program and certificate, with the tests of each number's spelling and
range; check.c also checks the inequalities of sums, copies, forms and rows, in 128 bits without a test for overflow,
and parses no source.
"""
import sys

NUMBERS = r"""
#include <stdint.h>
#include <stdio.h>
#include <stdlib.h>
#include <string.h>

static const int64_t TEN[19] = {1, 10, 100, 1000, 10000, 100000, 1000000, 10000000, 100000000, 1000000000, 10000000000,
    100000000000, 1000000000000, 10000000000000, 100000000000000, 1000000000000000, 10000000000000000,
    100000000000000000, 1000000000000000000};

static void bad(const char *kind, long line) {
    fflush(stdout);
    fprintf(stderr, "row: %s at line %ld\n", kind, line);
    exit(5);
}

/* a sign, digits with at most one point, maybe a power of ten: a / 10^k in lowest terms */
static int decimal(const char *s, const char *e, int64_t *a, int *k) {
    while (s < e && (*s == ' ' || *s == '\t')) s++;
    while (e > s && (e[-1] == ' ' || e[-1] == '\t')) e--;
    int minus = 0, digits = 0, point = 0, places = 0;
    int64_t m = 0;
    if (s < e && (*s == '+' || *s == '-')) minus = *s++ == '-';
    for (; s < e; s++) {
        if (*s >= '0' && *s <= '9') {
            if (m > (INT64_C(1) << 62) / 10 - 1) return 0;
            m = m * 10 + (*s - '0');
            digits++;
            places += point;
        } else if (*s == '.' && !point) point = 1;
        else break;
    }
    if (!digits) return 0;
    if (s < e && (*s == 'e' || *s == 'E')) {
        int sign = 1, x = 0, n = 0;
        s++;
        if (s < e && (*s == '+' || *s == '-')) sign = *s++ == '-' ? -1 : 1;
        for (; s < e && *s >= '0' && *s <= '9'; s++, n++) if (x < 1000) x = x * 10 + (*s - '0');
        if (!n) return 0;
        places -= sign * x;
    }
    if (s != e) return 0;
    while (places > 0 && m % 10 == 0 && m) { m /= 10; places--; }
    if (!m) places = 0;
    while (places < 0) { if (m > (INT64_C(1) << 62) / 10) return 0; m *= 10; places++; }
    if (places > 18) return 0;
    *a = minus ? -m : m;
    *k = places;
    return 1;
}

/* the floor of a value from -1 to 1 times 2^12 */
static int32_t word(const char *s, const char *e, long line) {
    int64_t a;
    int k;
    if (!decimal(s, e, &a, &k)) bad("BadNumber", line);
    if (a > TEN[k] || a < -TEN[k]) bad("OutOfRange", line);
    if (a < INT64_C(1) << 50 && a > -(INT64_C(1) << 50)) {
        int64_t p = a * 4096, q = p / TEN[k];
        return (int32_t)(q - (p % TEN[k] < 0));
    }
    __int128 p = (__int128)a * 4096;
    return (int32_t)(p / TEN[k] - (p % TEN[k] < 0));
}

/* the decimal of v / 2^12, without needless zeros */
static void print(int32_t v) {
    char text[40];
    int n = 0;
    uint32_t a = v < 0 ? -(uint32_t)v : (uint32_t)v;
    if (v < 0) text[n++] = '-';
    uint32_t whole = a >> 12;
    char digits[12];
    int d = 0;
    do { digits[d++] = (char)('0' + whole % 10); whole /= 10; } while (whole);
    while (d) text[n++] = digits[--d];
    a &= 4095;
    if (a) text[n++] = '.';
    while (a) { a *= 10; text[n++] = (char)('0' + (a >> 12)); a &= 4095; }
    text[n++] = '\n';
    fwrite(text, 1, (size_t)n, stdout);
}

static char line[65540];

/* the next line's end without its line feed, or NULL */
static char *next(void) {
    if (!fgets(line, sizeof line, stdin)) return NULL;
    char *e = line + strlen(line);
    if (e > line && e[-1] == '\n') e--;
    if (e > line && e[-1] == '\r') e--;
    return e;
}
"""

FILTER = NUMBERS + r"""
int main(void) {
    long number = 1;
    char *e = next();
    if (!e || e - line != 1 || line[0] != 'u') bad("MissingColumn", number);
    puts("out1");
    int32_t x = 0;
    while ((e = next())) {
        number++;
        if (e == line) continue;
        int32_t u = word(line, e, number);
        x = ((2048 * x) >> 12) + ((2048 * u) >> 12);
        print(x);
    }
    return 0;
}
"""

COLUMNS = NUMBERS + r"""
static char *from[256], *to[256];

/* cuts the line at its commas */
static int cut(char *e) {
    int n = 0;
    char *s = line;
    for (;;) {
        char *c = memchr(s, ',', (size_t)(e - s));
        if (n == 256) return n;
        from[n] = s;
        to[n++] = c ? c : e;
        if (!c) return n;
        s = c + 1;
    }
}

int main(void) {
    long number = 1;
    int place[8];
    char *e = next();
    if (!e) bad("MissingColumn", number);
    int n = cut(e);
    for (int k = 0; k < 8; k++) {
        int found = -1;
        for (int i = 0; i < n; i++) {
            char *s = from[i], *t = to[i];
            while (s < t && (*s == ' ' || *s == '\t')) s++;
            while (t > s && (t[-1] == ' ' || t[-1] == '\t')) t--;
            if (t - s != 2 || s[0] != 'u' || s[1] != '0' + k) continue;
            if (found >= 0) bad("TwiceNamed", number);
            found = i;
        }
        if (found < 0) bad("MissingColumn", number);
        place[k] = found;
    }
    puts("out1");
    while ((e = next())) {
        number++;
        if (e == line) continue;
        n = cut(e);
        int32_t sum = 0;
        for (int k = 0; k < 8; k++) {
            if (place[k] >= n) bad("TooFew", number);
            sum += word(from[place[k]], to[place[k]], number);
        }
        print(sum);
    }
    return 0;
}
"""

READ = r"""
#include <stdint.h>
#include <stdio.h>
#include <stdlib.h>
#include <string.h>

typedef struct { int64_t m; int e; } Dyadic;
typedef struct { Dyadic lo, hi; } Interval;
typedef struct { int row; Dyadic times; } Share;
typedef struct { int count; Share *list; } Shares;
typedef struct { Dyadic *c; Interval bound; Shares shares; } Row;
typedef struct {
    int is_form, by_range, by_error;
    Interval g, h, p, q;
    Dyadic ma, mb, *c;
    Shares range_by, error_by;
} Line;
typedef struct { char op; int a, b, sa, sb, f; int64_t w; } Code;

static char *at, *stop;
static long number = 1;

static void fault(const char *kind) { printf("%s at line %ld\n", kind, number); exit(4); }

static void *some(size_t n) { void *p = malloc(n ? n : 1); if (!p) exit(8); return p; }

/* a fixed word, and the space or the line feed behind it */
static int is(const char *w) {
    size_t n = strlen(w);
    if ((size_t)(stop - at) <= n || memcmp(at, w, n) || (at[n] != ' ' && at[n] != '\n')) return 0;
    at += n;
    return 1;
}

static void space(void) { if (at >= stop || *at != ' ') fault("BadLine"); at++; }
static void end_of_line(void) { if (at >= stop || *at != '\n') fault("BadLine"); at++; number++; }

/* a whole number in its one spelling, from lo to hi */
static int64_t whole(int64_t lo, int64_t hi) {
    int minus = at < stop && *at == '-';
    if (minus) at++;
    char *s = at;
    uint64_t v = 0;
    int far = 0;
    while (at < stop && *at >= '0' && *at <= '9') {
        if (v > (UINT64_C(1) << 63) / 10 - 1) far = 1;
        else v = v * 10 + (uint64_t)(*at - '0');
        at++;
    }
    if (at == s || (*s == '0' && (at - s > 1 || minus))) fault("BadNumber");
    if (at < stop && *at != ' ' && *at != '\n' && *at != ':') fault("BadNumber");
    int64_t w = minus ? -(int64_t)v : (int64_t)v;
    if (far || w < lo || w > hi) fault("OutOfRange");
    return w;
}

static int64_t field(int64_t lo, int64_t hi) { space(); return whole(lo, hi); }

static Dyadic dyadic(void) {
    Dyadic d;
    space();
    d.m = whole(-((INT64_C(1) << 62) - 1), (INT64_C(1) << 62) - 1);
    if (at >= stop || *at != ':') fault("BadNumber");
    at++;
    d.e = (int)whole(0, 96);
    if (d.e && !(d.m & 1)) fault("BadNumber");
    return d;
}

static Interval interval(void) { Interval i; i.lo = dyadic(); i.hi = dyadic(); return i; }

static Shares shares(int below) {
    Shares s;
    s.count = (int)field(0, below);
    s.list = some(sizeof(Share) * (size_t)s.count);
    int before = -1;
    for (int k = 0; k < s.count; k++) {
        s.list[k].row = (int)field(before + 1, below - 1);
        before = s.list[k].row;
        s.list[k].times = dyadic();
    }
    return s;
}

static int I, K, M, N, width, steps;
static int counts[2];
static Code *codes;
static Interval (*starts)[2];
static Row *rows[2];
static Line *lines;

static void read_program(void) {
    if (!is("fixd program 1")) fault("BadLine");
    end_of_line();
    if (!is("width")) fault("BadLine");
    width = (int)field(8, 64);
    end_of_line();
    if (!is("name")) fault("BadLine");
    at = memchr(at, '\n', (size_t)(stop - at));
    end_of_line();
    if (!is("sizes")) fault("BadLine");
    I = (int)field(1, 64); K = (int)field(0, 32); M = (int)field(1, 64); N = (int)field(I + 2 * K + M, 4000);
    end_of_line();
    codes = some(sizeof(Code) * (size_t)N);
    for (int n = 0; n < N; n++) {
        Code *c = codes + n;
        if (is("in")) { c->op = 'i'; c->a = (int)field(0, I - 1); c->f = (int)field(-64, 62); }
        else if (is("st")) {
            c->op = 's'; c->a = (int)field(0, K - 1); c->f = (int)field(-64, 62);
            c->w = field(-(INT64_C(1) << 62), INT64_C(1) << 62);
        } else if (is("add")) {
            c->op = 'a'; c->a = (int)field(0, n - 1); c->b = (int)field(0, n - 1);
            c->sa = (int)field(-width, 64); c->sb = (int)field(-width, 64);
            c->f = codes[c->a].f - c->sa;
        } else if (is("copy")) {
            c->op = 'c'; c->a = (int)field(0, n - 1); c->sa = (int)field(-width, 64); c->f = codes[c->a].f - c->sa;
        } else fault("BadLine");
        if (c->f < -64 || c->f > 62) fault("OutOfRange");
        end_of_line();
    }
}

static void read_certificate(void) {
    if (!is("fixd certificate 1")) fault("BadLine");
    end_of_line();
    if (!is("sizes")) fault("BadLine");
    field(1, 64); field(0, 32); field(I + K, 4000);
    end_of_line();
    if (!is("steps")) fault("BadLine");
    steps = (int)field(0, 10000);
    end_of_line();
    for (int k = 0; k < steps; k++) {
        if (!is("step")) fault("BadLine");
        field(0, 1999);
        space();
        char *s = at;
        if (*at == '-') at++;
        else while (*at == '0' || *at == '1') at++;
        if (at == s || at - s > 200) fault("BadLine");
        field(1, 30);
        end_of_line();
    }
    starts = some(sizeof *starts * (size_t)K);
    for (int k = 0; k < K; k++) {
        if (!is("start")) fault("BadLine");
        starts[k][0] = interval();
        starts[k][1] = interval();
        end_of_line();
    }
    if (!is("rows")) fault("BadLine");
    counts[0] = (int)field(K, 512); counts[1] = (int)field(K, 512);
    end_of_line();
    for (int g = 0; g < 2; g++) {
        rows[g] = some(sizeof(Row) * (size_t)counts[g]);
        for (int i = 0; i < counts[g]; i++) {
            Row *r = rows[g] + i;
            if (!is(i < K ? "box" : "row")) fault("BadLine");
            r->c = some(sizeof(Dyadic) * (size_t)K);
            for (int k = 0; k < K; k++) { if (i < K) { r->c[k].m = i == k; r->c[k].e = 0; } else r->c[k] = dyadic(); }
            r->bound = interval();
            r->shares = shares(counts[g]);
            end_of_line();
        }
    }
    lines = some(sizeof(Line) * (size_t)N);
    for (int n = 0; n < N; n++) {
        Line *l = lines + n;
        memset(l, 0, sizeof *l);
        if (is("plain")) { l->g = interval(); l->h = interval(); end_of_line(); continue; }
        if (n < I + K || !is("form")) fault("BadLine");
        l->is_form = 1;
        l->g = interval(); l->h = interval(); l->ma = dyadic(); l->mb = dyadic();
        l->c = some(sizeof(Dyadic) * (size_t)(I + K));
        for (int k = 0; k < I + K; k++) l->c[k] = dyadic();
        l->p = interval(); l->q = interval();
        if (at + 1 < stop && at[1] == '-') at += 2; else { l->by_range = 1; l->range_by = shares(counts[0]); }
        if (at + 1 < stop && at[1] == '-') at += 2; else { l->by_error = 1; l->error_by = shares(counts[1]); }
        end_of_line();
    }
}

static void read_bundle(const char *name) {
    FILE *f = fopen(name, "rb");
    if (!f) exit(6);
    fseek(f, 0, SEEK_END);
    size_t size = (size_t)ftell(f);
    rewind(f);
    char *all = some(size);
    if (fread(all, 1, size, f) != size) exit(6);
    at = all;
    stop = all + size;
    if (!is("fixd bundle 1")) fault("Section");
    end_of_line();
    if (!is("source")) fault("Section");
    int64_t source = field(0, 1048576);
    end_of_line();
    for (char *s = at; s < at + source; s++) number += *s == '\n';
    at += source;
    end_of_line();
    if (!is("program")) fault("Section");
    end_of_line();
    read_program();
    if (!is("certificate")) fault("Section");
    end_of_line();
    read_certificate();
    if (!is("end")) fault("Section");
    end_of_line();
    if (at != stop) fault("Extra");
}
"""

READ_ALONE = READ + r"""
int main(int argc, char **argv) {
    if (argc != 2) return 2;
    read_bundle(argv[1]);
    puts("read");
    return 0;
}
"""

CHECK = READ + r"""
typedef __int128 Int;
typedef struct { Int m; int e; } Dy;
typedef struct { Dy lo, hi; } In;

static Dy of(Dyadic d) { Dy r = {d.m, d.e}; return r; }
static In span(Interval i) { In r = {of(i.lo), of(i.hi)}; return r; }
static Dy plus(Dy a, Dy b) {
    int e = a.e > b.e ? a.e : b.e;
    Dy r = {(a.m << (e - a.e)) + (b.m << (e - b.e)), e};
    if (!r.m) r.e = 0;
    return r;
}
static Dy opposite(Dy a) { a.m = -a.m; return a; }
static Dy times(Dy a, Dy b) { Dy r = {a.m * b.m, a.e + b.e}; if (!r.m) r.e = 0; return r; }
static int below(Dy a, Dy b) {
    int e = a.e > b.e ? a.e : b.e;
    return (a.m << (e - a.e)) <= (b.m << (e - b.e));
}
static In add(In a, In b) { In r = {plus(a.lo, b.lo), plus(a.hi, b.hi)}; return r; }
static In scale(Dy d, In a) {
    In r = {times(d, a.lo), times(d, a.hi)};
    if (d.m < 0) { Dy t = r.lo; r.lo = r.hi; r.hi = t; }
    return r;
}
static int inside(In a, In b) { return below(b.lo, a.lo) && below(a.hi, b.hi); }
static const In ZERO;
static Dy unit(int f) { Dy r = {f >= 0 ? 1 : (Int)1 << -f, f >= 0 ? f : 0}; return r; }
static In rounding(int s, int f) { In r = ZERO; if (s > 0) r.lo = opposite(unit(f)); return r; }
static Dy value(Int w, int f) { Dy r = {f >= 0 ? w : w << -f, f >= 0 ? f : 0}; return r; }

static void refused(const char *kind, const char *part, int index) {
    printf("%s at %s %d\n", kind, part, index);
    exit(1);
}

static Dy coefficient(int n, int k) {
    Dy r = {0, 0};
    if (n < I + K) r.m = n == k;
    else if (lines[n].is_form) return of(lines[n].c[k]);
    return r;
}
static In rest(int n, int error) {
    if (n < I + K) return ZERO;
    if (lines[n].is_form) return span(error ? lines[n].q : lines[n].p);
    return span(error ? lines[n].h : lines[n].g);
}
static In of_node(int n, int error) { return span(error ? lines[n].h : lines[n].g); }

static In bound(const Dy *c, In z, int error, Shares by) {
    for (int j = 0; j < I; j++) z = add(z, scale(c[j], of_node(j, error)));
    for (int s = 0; s < by.count; s++) z = add(z, scale(of(by.list[s].times), span(rows[error][by.list[s].row].bound)));
    for (int k = 0; k < K; k++) {
        Dy r = c[I + k];
        for (int s = 0; s < by.count; s++) {
            Share share = by.list[s];
            r = plus(r, opposite(times(of(share.times), of(rows[error][share.row].c[k]))));
        }
        z = add(z, scale(r, span(rows[error][k].bound)));
    }
    return z;
}

static void check_node(int n) {
    Code *c = codes + n;
    Line *l = lines + n;
    In g = span(l->g), h = span(l->h);
    if (l->is_form) {
        In p = rest(c->a, 0), q = rest(c->a, 1);
        if (c->op == 'a') {
            p = add(p, rest(c->b, 0));
            q = add(add(add(q, rest(c->b, 1)), rounding(c->sa, c->f)), rounding(c->sb, c->f));
        } else q = add(q, rounding(c->sa, c->f));
        for (int k = 0; k < I + K; k++) {
            Dy d = coefficient(c->a, k);
            if (c->op == 'a') d = plus(d, coefficient(c->b, k));
            d = plus(d, opposite(of(l->c[k])));
            p = add(p, scale(d, of_node(k, 0)));
            q = add(q, scale(d, of_node(k, 1)));
        }
        if (!inside(p, span(l->p)) || !inside(q, span(l->q))) refused("Form", "node", n);
    }
    Dy all[96];
    if (l->is_form) for (int k = 0; k < I + K; k++) all[k] = of(l->c[k]);
    In range = g, error = h;
    if (l->by_range) range = bound(all, span(l->p), 0, l->range_by);
    else if (c->op == 's') range = span(rows[0][c->a].bound);
    else if (c->op == 'a') range = add(of_node(c->a, 0), of_node(c->b, 0));
    else if (c->op == 'c') range = of_node(c->a, 0);
    if (!inside(range, g)) refused("Range", "node", n);
    if (l->by_error) error = bound(all, span(l->q), 1, l->error_by);
    else if (c->op == 's') error = span(rows[1][c->a].bound);
    else if (c->op == 'a') {
        error = add(of_node(c->a, 1), of_node(c->b, 1));
        error = add(add(error, rounding(c->sa, c->f)), rounding(c->sb, c->f));
    }
    else if (c->op == 'c') error = add(of_node(c->a, 1), rounding(c->sa, c->f));
    else if (c->op == 'i') error.lo = opposite(unit(c->f));
    if (!inside(error, h)) refused("Error", "node", n);
    const Int end = (Int)1 << (width - 1);
    if (!below(value(-end, c->f), plus(g.lo, h.lo)) || !below(plus(g.hi, h.hi), value(end - 1, c->f)))
        refused("WordTooSmall", "node", n);
}

static void check_row(int error, int i) {
    Row *r = rows[error] + i;
    In z = ZERO, start = ZERO;
    Dy g[96];
    for (int j = 0; j < I + K; j++) {
        g[j].m = 0; g[j].e = 0;
        for (int k = 0; k < K; k++) g[j] = plus(g[j], times(of(r->c[k]), coefficient(N - K + k, j)));
    }
    for (int k = 0; k < K; k++) {
        z = add(z, scale(of(r->c[k]), rest(N - K + k, error)));
        start = add(start, scale(of(r->c[k]), span(starts[k][error])));
    }
    if (!inside(start, span(r->bound))) refused("Start", error ? "errorrow" : "row", i);
    if (!inside(bound(g, z, error, r->shares), span(r->bound)))
        refused(error ? "ErrorRow" : "Row", error ? "errorrow" : "row", i);
}

int main(int argc, char **argv) {
    if (argc != 2) return 2;
    read_bundle(argv[1]);
    for (int n = 0; n < N; n++) check_node(n);
    for (int g = 0; g < 2; g++) for (int i = 0; i < counts[g]; i++) check_row(g, i);
    puts("accepted");
    return 0;
}
"""

for name, program in (("filter", FILTER), ("columns", COLUMNS), ("read", READ_ALONE), ("check", CHECK)):
    with open(f"{sys.argv[1]}/{name}.c", "w") as file:
        file.write(program)
