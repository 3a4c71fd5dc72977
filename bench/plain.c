/* The whole job of damindex in plain C, to time the proved program against: reads a case file, judges it, works it out and prints the answer.
 *
 * Numbers of 64 bits, and where those are too few of 128, or of the compiler's own 192. With TABLE defined, it goes the proved program's ways: the chances of a hull's spans are worked out
 * once for each file, and s^4 is a whole number; with WHOLE, the fourth root is found by halving and not from the processor's square root. The names of the two functions that a caller sees
 * are given by REPORT and SHARES. No header is needed. */
typedef unsigned char u8;
typedef unsigned long u64;
typedef unsigned __int128 u128;
typedef unsigned _BitInt(192) u192;

#define BILLION 1000000000ul
enum { LONGEST = 65536, MOST_ROWS = 500, MOST_ZONES = 20, LONGEST_FRAME = 76, NUMBERS = 27 };

typedef struct { u64 lower, upper; } Ends;
/* A hull of kind 06 is a passenger ship's, and says which rule it is under: 1 is that of 2020. */
typedef struct { u64 kind, length, breadth, deepest, light, lifeboats, excess, rule, zones, places[MOST_ZONES + 1]; } Hull;
/* A given survival stands in the lever's place. */
typedef struct { u64 lever, range, heel; long opening; } Result;
/* What a passenger ship's row tells besides: the intermediate stage's lever, range and heel, and whether a ro-ro space is involved. */
typedef struct { u64 displacement, moment, lever, range, heel, roro; } Flooding;
/* A row of kind 05 has a second set of three results after the first. */
typedef struct { u64 kind, first, count, depth, height; Result results[6]; Flooding floodings[3]; } Row;
typedef struct { u64 number, line; } Refusal;

/* ---- the chance of damage within a span */

typedef struct { Ends inner, chance; } Span;

static Ends billionths(u64 n, u64 d) {
    u128 scaled = (u128)n * BILLION;
    u64 down = (u64)(scaled / d);
    return (Ends){down, down + ((u128)down * d != scaled)};
}

static Span chances(u64 L, u64 aft, u64 fwd) {
    u64 x = fwd - aft, n, d;
    if (33 * x <= 5 * L) {
        n = 550 * x * x * L - 1089 * x * x * x;
        d = 100 * L * L * L;
    } else if (33 * x <= 10 * L) {
        n = 19800 * x * L * L + 32670 * x * x * L - 1000 * L * L * L - 35937 * x * x * x;
        d = 29700 * L * L * L;
    } else {
        n = 297 * x - 20 * L;
        d = 297 * L;
    }
    Ends p = billionths(n, d);
    if (aft == 0 && fwd == L) return (Span){p, {BILLION, BILLION}};
    if (aft == 0 || fwd == L) return (Span){p, billionths(n + x * (d / L), 2 * d)};
    return (Span){p, p};
}

#ifdef TABLE
typedef struct { Span of[MOST_ZONES][MOST_ZONES]; } Spans;

static void work_spans(const Hull *h, Spans *t) {
    for (u64 a = 0; a < h->zones; a++)
        for (u64 e = a; e < h->zones; e++) t->of[a][e] = chances(h->length, h->places[a], h->places[e + 1]);
}

static Span span(const Hull *h, const Spans *t, u64 a, u64 e) {
    (void)h;
    return t->of[a - 1][e - 1];
}
#else
typedef struct { u8 none; } Spans;

static void work_spans(const Hull *h, Spans *t) {
    (void)h;
    (void)t;
}

static Span span(const Hull *h, const Spans *t, u64 a, u64 e) {
    (void)t;
    return chances(h->length, h->places[a - 1], h->places[e]);
}
#endif

/* ---- penetration */

typedef struct { u64 b, c, d; Ends g1, g3; } Layer;

static Layer layer(u64 B, u64 b) {
    return (Layer){b, 16 * b * B - 12 * b * b, 5 * B * B, billionths(5500 * b * B - 1089 * b * b, 7500 * B * B),
                   billionths(1375 * b * b * B - 363 * b * b * b, 56250 * B * B * B)};
}

static u64 up(u64 n, u64 d) { return n / d + (n % d != 0); }

static u64 less(u64 a, u64 b) { return a > b ? a - b : 0; }

static Ends within(const Hull *h, const Spans *t, const Layer *y, u64 a, u64 e) {
    u64 L = h->length, aft = h->places[a - 1], fwd = h->places[e], x = fwd - aft;
    Span s = span(h, t, a, e);
    Ends g;
    if (aft == 0 && fwd == L) {
        g = y->g1;
    } else {
        int is_short = 15 * h->breadth * x <= y->b * L, one_end = aft == 0 || fwd == L;
        Ends part = {x * y->g1.lower / L, up(x * y->g1.upper, L)};
        if (one_end && is_short) g = (Ends){(s.inner.lower + part.lower) / 2, up(s.inner.upper + part.upper, 2)};
        else if (one_end) g = (Ends){less(part.lower, up(y->g3.upper, 2)), part.upper - y->g3.lower / 2};
        else if (is_short) g = s.inner;
        else g = (Ends){less(part.lower, y->g3.upper), part.upper - y->g3.lower};
    }
    u64 rest = y->d - y->c;
    return (Ends){(s.chance.lower * y->c + g.lower * rest) / y->d, up(s.chance.upper * y->c + g.upper * rest, y->d)};
}

/* ---- shares */

typedef struct { Ends added, taken; } Sums;

static Ends both(Ends f, Ends g) { return (Ends){f.lower + g.lower, f.upper + g.upper}; }

static Sums sums(const Hull *h, const Spans *t, u64 a, u64 n, u64 b) {
    Layer y = layer(h->breadth, b);
    u64 e = a + n - 1;
    if (n == 1) return (Sums){within(h, t, &y, a, a), {0, 0}};
    if (n == 2) return (Sums){within(h, t, &y, a, e), both(within(h, t, &y, a, a), within(h, t, &y, e, e))};
    return (Sums){both(within(h, t, &y, a, e), within(h, t, &y, a + 1, e - 1)), both(within(h, t, &y, a, e - 1), within(h, t, &y, a + 1, e))};
}

static Ends share(Sums before, Sums at) {
    u64 lower = less(at.added.lower + before.taken.lower, at.taken.upper + before.added.upper);
    u64 upper = at.added.upper + before.taken.upper - (at.taken.lower + before.added.lower);
    return (Ends){lower, upper < BILLION ? upper : BILLION};
}

/* ---- height and survival */

static u64 height_factor(u64 H, u64 d) {
    u64 h = less(H, d);
    return h <= 7800 ? 94 * h : h <= 12500 ? 733200 + 39 * (h - 7800) : 916500;
}

static u64 fourth_power(u64 s) { return s * s * s * s; }

static u64 fourth_root(u64 n) {
#ifdef WHOLE
    u64 s = 0, above = 10001;
    while (s + 1 < above) {
        u64 middle = (s + above) / 2;
        if (fourth_power(middle) <= n) s = middle;
        else above = middle;
    }
#else
    u64 s = (u64)__builtin_sqrt(__builtin_sqrt((double)n));
    while (fourth_power(s) > n) s--;
    while (fourth_power(s + 1) <= n) s++;
#endif
    return s;
}

/* The fourth power of a survival. */
#ifdef TABLE
/* Over 120 * 1600 * 500 * 500 for all, as the proved program has it: 10^16 is 625,000 thirds over that. */
typedef u64 Fourth;

static Fourth fourth_of(const Result *r) {
    u64 k = r->heel <= 2500 ? 500 : less(3000, r->heel);
    return r->opening < 0 ? 0 : (r->lever < 120 ? r->lever : 120) * (r->range < 1600 ? r->range : 1600) * k * k;
}

static int is_lower(Fourth a, Fourth b) { return a < b; }

static Ends survival(Fourth fourth) {
    u64 thirds = 625000 * fourth, s = fourth_root(thirds / 3);
    return (Ends){s, s + (3 * fourth_power(s) != thirds)};
}
#else
typedef struct { u64 n, d; } Fourth;

static Fourth fourth_of(const Result *r) {
    u64 n = (r->lever < 120 ? r->lever : 120) * (r->range < 1600 ? r->range : 1600), d = 120 * 1600;
    if (r->heel >= 3000 || r->opening < 0) n = 0;
    if (r->heel > 2500 && r->heel < 3000) {
        n *= (3000 - r->heel) * (3000 - r->heel);
        d *= 500 * 500;
    }
    return (Fourth){n, d};
}

static int is_lower(Fourth a, Fourth b) { return (u128)a.n * b.d < (u128)b.n * a.d; }

static Ends survival(Fourth f) {
    u128 scaled = (u128)f.n * 10000000000000000ul;
    u64 s = fourth_root((u64)(scaled / f.d));
    return (Ends){s, s + ((u128)fourth_power(s) * f.d != scaled)};
}
#endif

/* What holds a survival down: 1 for the lever, 2 for the range, 4 for the heel, 8 for an immersed opening. */
static u8 marks(const Result *r) { return (u8)((r->lever < 120) | (r->range < 1600) << 1 | (r->heel > 2500) << 2 | (r->opening < 0) << 3); }

/* ---- a passenger ship's survival, at the final stage and at an intermediate one */

/* A fourth root in ten-thousandths of n/d, at most one, where 10^16 n is within 128 bits. */
static Ends root_of(u64 n, u64 d) {
    u128 scaled = (u128)n * 10000000000000000ul;
    u64 s = fourth_root((u64)(scaled / d));
    return (Ends){s, s + ((u128)fourth_power(s) * d != scaled)};
}

static Ends lesser(Ends a, Ends b) { return (Ends){a.lower < b.lower ? a.lower : b.lower, a.upper < b.upper ? a.upper : b.upper}; }

static Ends passenger_survival(const Result *r, const Flooding *w) {
    u64 lever_cap = w->roro ? 200 : 120, range_cap = w->roro ? 2000 : 1600, k = r->heel <= 700 ? 800 : less(1500, r->heel);
    u64 n = (r->lever < lever_cap ? r->lever : lever_cap) * (r->range < range_cap ? r->range : range_cap) * k * k, d = lever_cap * range_cap * 640000;
    u64 heeling = less(r->lever, 40) * w->displacement, full = 1000 * w->moment;
    Ends final;
    if (r->opening < 0) return (Ends){0, 0};
    if (heeling >= full) {
        final = root_of(n, d);
    } else { /* s-mom is below one: d / 10^4 s^4 moment^4 against n heeling^4 */
        u192 root = (u192)n * heeling * heeling * heeling * heeling, unit = (u192)(d / 10000) * w->moment * w->moment * w->moment * w->moment;
#ifdef WHOLE
        u64 s = fourth_root((u64)((u128)n * 10000000000000000ul / d)) * heeling / full;
#else
        u64 s = (u64)(__builtin_sqrt(__builtin_sqrt((double)n / (double)d)) * 1e4 * ((double)heeling / (double)full));
#endif
        while (unit * fourth_power(s) > root) s--;
        while (unit * fourth_power(s + 1) <= root) s++;
        final = (Ends){s, s + (unit * fourth_power(s) != root)};
    }
    if (w->heel > 1500) return (Ends){0, 0};
    return lesser(final, root_of((w->lever < 50 ? w->lever : 50) * (w->range < 700 ? w->range : 700), 50 * 700));
}

static u8 passenger_marks(const Result *r, const Flooding *w) {
    return (u8)((r->lever < (w->roro ? 200 : 120)) | (r->range < (w->roro ? 2000 : 1600)) << 1 | (r->heel > 700) << 2 | (r->opening < 0) << 3);
}

/* ---- the answer */

typedef struct { Ends share; u8 marks[3]; } Line;
typedef struct { u64 verdict; Ends figures[4]; Line *lines; } Answer;

static int reaches(u64 end, u64 n, u64 d) { return (u128)end * d >= (u128)n * BILLION; }

static u64 verdict(const Hull *h, const Ends *figures) {
    u64 L = h->length, n = L > 10000 ? L + 2400 : L * (L + 2400), d = L > 10000 ? L + 15200 : n + 128000000, part = 1, of = 2;
    int meets = 1, fails = 0;
    if (h->kind == 6) n = L + 250 * (h->lifeboats + 2 * h->excess) + 1022500, d = n + 500000, part = 9, of = 10;
    if (h->rule == 1) {
        u64 aboard = h->lifeboats + h->excess;
        if (aboard < 400) n = 722, d = 1000;
        else if (aboard <= 1350) n = 100000 * aboard + 7580 * 66923, d = 758000000;
        else n = 100000 * (aboard + 5000) - 85250000 - 3875 * aboard, d = 100000 * (aboard + 5000);
    }
    for (int k = 0; k < 4; k++) {
        u64 num = k ? part * n : n, den = k ? of * d : d;
        meets &= reaches(figures[k].lower, num, den);
        fails |= !reaches(figures[k].upper, num, den);
    }
    return meets ? 1 : fails ? 2 : 3;
}

static void work_out(const Hull *h, const Row *rows, u64 count, Answer *answer) {
    Spans t;
    work_spans(h, &t);
    u64 draughts[3] = {h->deepest, h->light + 3 * (h->deepest - h->light) / 5, h->light};
    Ends *figures = answer->figures, one = {0, 0};
    Sums before = {{0, 0}, {0, 0}}, at = before;
    for (int k = 0; k < 4; k++) figures[k] = (Ends){0, 0};
    for (u64 i = 0; i < count; i++) {
        const Row *r = rows + i, *last = i ? r - 1 : 0;
        int same_group = last && last->first == r->first && last->count == r->count, same_layer = same_group && last->depth == r->depth;
        if (!same_layer) {
            before = same_group ? at : (Sums){{0, 0}, {0, 0}};
            at = sums(h, &t, r->first, r->count, r->depth);
            one = share(before, at);
        }
        answer->lines[i].share = one;
        for (int k = 0; k < 3; k++) {
            u64 v = height_factor(r->height, draughts[k]) - (same_layer ? height_factor(last->height, draughts[k]) : 0);
            const Result *f = r->results + k;
            Ends s = {f->lever, f->lever};
            if (r->kind == 7) {
                s = passenger_survival(f, r->floodings + k);
            } else if (r->kind != 3) {
                Fourth fourth = fourth_of(f);
                if (r->kind == 5) { /* the lower of two counts, the first when equal */
                    Fourth second = fourth_of(f + 3);
                    if (is_lower(second, fourth)) f += 3, fourth = second;
                }
                s = survival(fourth);
            }
            answer->lines[i].marks[k] = r->kind == 3 ? 0 : r->kind == 7 ? passenger_marks(f, r->floodings + k) : marks(f);
            figures[k + 1].lower += one.lower * v * s.lower / 9165000000ul;
            figures[k + 1].upper += up(one.upper * v * s.upper, 9165000000ul);
        }
    }
    figures[0].lower = (2 * figures[1].lower + 2 * figures[2].lower + figures[3].lower) / 5;
    figures[0].upper = up(2 * figures[1].upper + 2 * figures[2].upper + figures[3].upper, 5);
    answer->verdict = verdict(h, figures);
}

/* ---- the case file */

/* A digit's value and one; 0 for what is no digit. */
static const u8 DIGITS[256] = {['0'] = 1, 2, 3, 4, 5, 6, 7, 8, 9, 10, ['a'] = 11, 12, 13, 14, 15, 16};

static u64 word(const u8 *f) { return 256ul * f[0] + f[1]; }

static u64 long_word(const u8 *f) { return 65536 * word(f) + word(f + 2); }

/* A number of two bytes in two's complement. */
static long signed_word(const u8 *f) { return (long)(word(f) ^ 0x8000) - 0x8000; }

/* How many bytes a line writes, 0 where it is badly written; as many as go in are put into the frame. */
static u64 decode(const u8 *text, u64 digits, u8 *frame) {
    if (digits % 2) return 0;
    for (u64 i = 0; i < digits / 2; i++) {
        int high = DIGITS[text[2 * i]], low = DIGITS[text[2 * i + 1]];
        if (!high || !low) return 0;
        if (i < LONGEST_FRAME) frame[i] = (u8)(16 * (high - 1) + low - 1);
    }
    return digits / 2;
}

static u64 read_hull(const u8 *f, u64 size, Hull *h) {
    int boats = f[0] == 6;
    u64 more = boats ? 5 : 0;
    if ((f[0] != 1 && !boats) || size < 10 + more) return 3;
    *h = (Hull){f[0], word(f + 1), word(f + 3), word(f + 5), word(f + 7), boats ? word(f + 9) : 0, boats ? word(f + 11) : 0, boats ? f[13] : 0, f[9 + more], {0}};
    if (h->length < (boats ? 2000 : 8000) || h->length > 19800 || h->breadth % 2 || h->breadth < (boats ? 400 : 1000) || h->breadth > 6000) return 4;
    if (h->deepest < 1000 || h->deepest > 30000 || h->light < 500 || h->light > h->deepest || (h->deepest - h->light) % 5) return 4;
    if (h->lifeboats > 10000 || h->excess > 10000 || h->rule > 1) return 4;
    if (h->rule == 1 && h->lifeboats + h->excess > 1350 && h->lifeboats + h->excess <= 6000) return 13;
    if (h->zones < 1 || h->zones > MOST_ZONES || size != 8 + more + 2 * h->zones) return 5;
    for (u64 k = 1; k < h->zones; k++) h->places[k] = word(f + 8 + more + 2 * k);
    h->places[h->zones] = h->length;
    for (u64 k = 0; k < h->zones; k++)
        if (h->places[k] >= h->places[k + 1]) return 5;
    return 0;
}

static int at_top(const Hull *h, const Row *r) { return r->height >= h->deepest + 12500; }

static int closes(const Hull *h, const Row *r) { return !r || (r->depth == h->breadth / 2 && at_top(h, r)); }

static Result read_result(const u8 *f) { return (Result){word(f), word(f + 2), word(f + 4), signed_word(f + 6)}; }

static Flooding read_flooding(const u8 *f) { return (Flooding){long_word(f), long_word(f + 4), word(f + 8), word(f + 10), word(f + 12), f[14]}; }

static int is_sensible(Flooding w) {
    return w.displacement >= 1 && w.displacement <= 300000 && w.moment >= 1 && w.moment <= 2000000 && w.lever <= 5000 && w.range <= 9000 && w.heel <= 9000 && w.roro <= 1;
}

static int within_limits(Result r) { return r.lever <= 5000 && r.range <= 9000 && r.heel <= 9000 && r.opening >= -30000 && r.opening <= 30000; }

static u64 read_row(const u8 *f, const Hull *h, const Row *last, Row *r) {
    u64 count = f[0] == 5 ? 6 : 3;
    r->kind = f[0], r->first = f[1], r->count = f[2], r->depth = word(f + 3), r->height = word(f + 5);
    if (r->first < 1 || r->count < 1 || r->first + r->count - 1 > h->zones) return 7;
    if (r->depth < 1 || r->depth > h->breadth / 2 || r->height < 1 || r->height > 60000) return 7;
    for (u64 k = 0; k < count; k++) {
        r->results[k] = f[0] == 3 ? (Result){word(f + 7 + 2 * k), 0, 0, 0} : read_result(f + 7 + 8 * k);
        if (f[0] == 3 ? r->results[k].lever > 10000 : !within_limits(r->results[k])) return 7;
    }
    for (u64 k = 0; f[0] == 7 && k < 3; k++) {
        r->floodings[k] = read_flooding(f + 31 + 15 * k);
        if (!is_sensible(r->floodings[k])) return 7;
    }
    if (!last) return 0;
    if (r->first < last->first || (r->first == last->first && r->count < last->count)) return 8;
    if (r->first != last->first || r->count != last->count) return closes(h, last) ? 0 : 9;
    if (r->depth < last->depth) return 8;
    if (r->depth > last->depth) return at_top(h, last) ? 0 : 9;
    return r->height <= last->height || at_top(h, last) ? 8 : 0;
}

static Refusal read_case(const u8 *input, u64 size, Hull *h, Row *rows, u64 *count) {
    u64 line = 0, ended = 0;
    const u8 *at = input, *stop = input + size;
    *count = 0;
    if (size > LONGEST) return (Refusal){1, 0};
    while (at < stop) {
        const u8 *feed = __builtin_memchr(at, '\n', (u64)(stop - at));
        u8 f[LONGEST_FRAME];
        u64 bytes, number = 0;
        line++;
        if (ended) return (Refusal){10, line};
        if (!feed || !(bytes = decode(at, (u64)(feed - at), f))) return (Refusal){2, line};
        const Row *last = *count ? rows + *count - 1 : 0;
        if (line == 1) {
            number = read_hull(f, bytes, h);
        } else if (h->kind == 6 ? f[0] == 7 && bytes == 76 : (f[0] == 2 && bytes == 31) || (f[0] == 3 && bytes == 13) || (f[0] == 5 && bytes == 55)) {
            number = *count == MOST_ROWS ? 6 : read_row(f, h, last, rows + *count);
            ++*count;
        } else if (f[0] == 15 && bytes == 3) {
            number = word(f + 1) != *count ? 6 : closes(h, last) ? 0 : 9;
            ended = 1;
        } else {
            number = 3;
        }
        if (number) return (Refusal){number, line};
        at = feed + 1;
    }
    return ended ? (Refusal){0, 0} : (Refusal){10, line + 1};
}

/* ---- the printed answer */

static u8 *put(u8 *out, u64 n, int bytes) {
    for (int k = 2 * bytes - 1; k >= 0; k--) *out++ = (u8)"0123456789abcdef"[n >> 4 * k & 15];
    return out;
}

static u8 *put_ends(u8 *out, Ends e) { return put(put(out, e.lower, 4), e.upper, 4); }

u64 REPORT(const u8 *input, u64 size, u8 *out, u64 room) {
    Hull h;
    Row rows[MOST_ROWS];
    u64 count;
    u8 *to = out;
    Refusal no = read_case(input, size, &h, rows, &count);
    if (room < (no.number ? 9 : 69 + 25 * count)) return 0;
    if (no.number) {
        to = put(put(put(to, 0x8f, 1), no.number, 1), no.line, 2);
        *to++ = '\n';
        return (u64)(to - out);
    }
    Line lines[MOST_ROWS];
    Answer answer = {0, {{0, 0}}, lines};
    work_out(&h, rows, count, &answer);
    to = put(put(to, 0x81, 1), answer.verdict, 1);
    for (int k = 0; k < 4; k++) to = put_ends(to, answer.figures[k]);
    *to++ = '\n';
    for (u64 i = 0; i < count; i++) {
        to = put_ends(put(to, 0x82, 1), lines[i].share);
        for (int k = 0; k < 3; k++) to = put(to, lines[i].marks[k], 1);
        *to++ = '\n';
    }
    return (u64)(to - out);
}

/* The shares of rows by their numbers, a, n, b' and b, in a hull by its numbers, as probe_shares of the proved crates takes them. */
u64 SHARES(const u64 *hull, u64 numbers, const u64 *rows, u64 fields, u64 *out, u64 room) {
    Hull h = {hull[0], hull[1], hull[2], hull[3], hull[4], 0, 0, 0, hull[5], {0}};
    u64 count = fields / 4 < room / 2 ? fields / 4 : room / 2;
    if (numbers != NUMBERS) return 0;
    for (int k = 0; k <= MOST_ZONES; k++) h.places[k] = hull[6 + k];
    Spans t;
    work_spans(&h, &t);
    for (u64 i = 0; i < count; i++) {
        const u64 *r = rows + 4 * i;
        Sums before = {{0, 0}, {0, 0}};
        if (r[2]) before = sums(&h, &t, r[0], r[1], r[2]);
        Ends e = share(before, sums(&h, &t, r[0], r[1], r[3]));
        out[2 * i] = e.lower;
        out[2 * i + 1] = e.upper;
    }
    return count;
}
