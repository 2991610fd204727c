/* The card in plain C, by the steps of the Rattle code, to compare their cost: the record is read and checked, the section is worked out
   at depth 0 and then carried to the last depth that passes, each tenth of mm tested once, and not where N stays, the last second that
   passes is found from that depth by halving, what is the same at every time is worked out once, basic times come from tables and late
   layer times from halving, and the text is made aside and copied. A panel with its fire on the last face is turned once; with a fire on
   each face it is worked as it lies and turned.
   tables.h is written by run.py. */
#include <stdbool.h>
#include <string.h>

#include "tables.h"
#include "yurbantse.h"

typedef struct {
    uint8_t kind;
    uint16_t thickness;
    uint8_t joint;
} Board;

typedef struct {
    uint8_t version, face, bond, rate, gap;
    uint16_t strength;
    uint32_t moment, failure_time;
    size_t boards;
    Board board[2];
    size_t count;
    uint8_t directions[9];
    uint16_t thicknesses[9];
} Panel;

/* Times in thousandths of a minute, lengths in picometres. */
typedef struct {
    uint64_t start, failure, slow, plain, depth, end, back, full;
} CharringValues;

typedef struct {
    uint64_t from, end, left, gained;
} Place;

typedef struct {
    uint64_t n, p, q, lo, hi;
} Section;

static uint64_t smaller(uint64_t a, uint64_t b) { return a < b ? a : b; }

static uint64_t larger(uint64_t a, uint64_t b) { return a < b ? b : a; }

static uint64_t beyond(uint64_t a, uint64_t b) { return a < b ? 0 : a - b; }

/* ---- the remaining section */

static Section section_at(const Panel *p, uint64_t depth)
{
    Section s = {0, 0, 0, 0, 0};
    uint64_t top = 0;
    for (size_t i = 0; i < p->count; i++) {
        uint64_t from = larger(depth, top), to = top + p->thicknesses[i];
        if (p->directions[i] == 1 && from + 30 <= to) {
            if (s.n == 0)
                s.lo = from;
            s.n += to - from;
            s.p += to * to - from * from;
            s.q += to * to * to - from * from * from;
            s.hi = to;
        }
        top = to;
    }
    return s;
}

static bool is_lvl(const Panel *p) { return p->bond == 2; }

static uint64_t factor_of(const Panel *p) { return is_lvl(p) ? 22 : 23; }

static bool section_passes(uint64_t factor, uint32_t moment, uint16_t strength, Section s)
{
    uint64_t e = larger(s.p - 2 * s.n * s.lo, 2 * s.n * s.hi - s.p);
    uint64_t w = 4 * s.n * s.q - 3 * s.p * s.p;
    return 0 < s.n && UINT64_C(120000) * moment * e <= factor * strength * w;
}

/* ---- the section carried from depth to depth */

typedef struct {
    Section section;
    uint64_t depth;
    size_t place;
    uint64_t end, next;
} Carried;

/* Without what lies from a to b, where the first part begins. */
static void take_off(Section *s, uint64_t a, uint64_t b, uint64_t lo)
{
    s->n -= b - a;
    s->p -= b * b - a * a;
    s->q -= b * b * b - a * a * a;
    s->lo = lo;
    if (s->n == 0)
        s->hi = 0;
}

/* Without the tenth of mm with which the first part begins. */
static void take_tenth(Section *s)
{
    s->n--;
    s->p -= 2 * s->lo + 1;
    s->q -= 3 * s->lo * (s->lo + 1) + 1;
    s->lo++;
    if (s->n == 0)
        s->hi = 0;
}

static void step(Section *s, uint64_t end, uint64_t next)
{
    if (s->n == 0 || end <= s->lo)
        return;
    if (s->lo + 1 + 30 <= end)
        take_tenth(s);
    else
        take_off(s, s->lo, end, next);
}

static uint64_t first_along(const Panel *p, size_t place, uint64_t top)
{
    for (; place < p->count; place++) {
        if (p->directions[place] == 1)
            return top;
        top += p->thicknesses[place];
    }
    return 0;
}

static void deeper(const Panel *p, Carried *c)
{
    if (c->end <= c->depth) {
        c->end += p->thicknesses[c->place++];
        c->next = first_along(p, c->place, c->end);
    }
    step(&c->section, c->end, c->next);
    c->depth++;
}

/* The last depth, at most `bottom`, to which every depth passes. Where N stays the section does, and is not tested again. */
static uint64_t last_passing(const Panel *p, uint64_t bottom)
{
    uint64_t factor = factor_of(p);
    uint32_t moment = p->moment;
    uint16_t strength = p->strength;
    Carried c = {section_at(p, 0), 0, 0, 0, 0};
    while (c.depth < bottom) {
        uint64_t n = c.section.n;
        deeper(p, &c);
        if (c.section.n != n && !section_passes(factor, moment, strength, c.section))
            return c.depth - 1;
    }
    return c.depth;
}

/* ---- the record */

static uint32_t number(const uint8_t *b, size_t width)
{
    uint32_t n = 0;
    for (size_t i = 0; i < width; i++)
        n = n << 8 | b[i];
    return n;
}

static bool is_f(const Panel *p) { return p->boards > 0 && p->board[0].kind == 'F'; }

static bool wood_based(Board b) { return b.kind == 'O' || b.kind == 'P'; }

static uint32_t charring_start(const Panel *p)
{
    if (p->boards == 0)
        return 0;
    if (p->boards == 1 && wood_based(p->board[0]))
        return 1000 * (uint32_t)p->board[0].thickness / 9;
    uint32_t gain = 280 * p->board[0].thickness, loss = p->gap == 1 ? 23000 : 14000;
    if (p->boards == 2)
        gain += (p->board[1].kind == 'F' ? 224 : 140) * p->board[1].thickness;
    return gain < loss ? 0 : gain - loss;
}

static bool known(Board b) { return b.kind == 'A' || b.kind == 'F' || b.kind == 'H' || wood_based(b); }

static bool bad_thickness(Board b)
{
    return wood_based(b) ? b.thickness < 200 || 400 < b.thickness : b.thickness < 90 || 250 < b.thickness;
}

/* The record of panel G, which no byte is taken for. */
static const uint8_t G[27] = {0, 27, 1, 0, 65, 0, 0, 240, 0, 0, 11, 184, 0, 0, 0, 0, 0, 3, 1, 1, 44, 0, 1, 144, 1, 1, 44};

/* The refusal's number, or 0 and the panel. */
static int read_record(const uint8_t *b, size_t length, Panel *p)
{
    if (length == 0) {
        b = G;
        length = sizeof G;
    }
    if (length < 21 || 54 < length || number(b, 2) != length)
        return 1;
    p->version = b[2];
    if (p->version != 1 && p->version != 2)
        return 2;
    size_t more = p->version == 2; /* the face byte */
    p->face = more ? b[3] : 0;
    if (2 < p->face)
        return 16;
    b += more;
    p->bond = b[3];
    p->rate = b[4];
    p->gap = b[5];
    p->strength = (uint16_t)number(b + 6, 2);
    p->moment = number(b + 8, 4);
    p->boards = b[12];
    p->failure_time = number(b + 13, 4);
    if (2 < p->bond || 1 < p->gap)
        return 3;
    if (p->rate < 50 || 100 < p->rate)
        return 4;
    if (p->strength < 1 || 400 < p->strength || 1000000 < p->moment)
        return 5;
    if (2 < p->boards || length < 21 + more + 4 * p->boards)
        return 6;
    const uint8_t *at = b + 17;
    for (size_t i = 0; i < p->boards; i++, at += 4)
        p->board[i] = (Board){at[0], (uint16_t)number(at + 1, 2), at[3]};
    for (size_t i = 0; i < p->boards; i++)
        if (!known(p->board[i]) || (p->board[i].kind == 'F') != (p->board[0].kind == 'F') || (p->boards == 2 && wood_based(p->board[i])))
            return 7;
    for (size_t i = 0; i < p->boards; i++)
        if (bad_thickness(p->board[i]) || p->board[i].joint < 1 || 100 < p->board[i].joint)
            return 8;
    if (is_f(p) ? p->failure_time < charring_start(p) || 360000 < p->failure_time : p->failure_time != 0)
        return 9;
    p->count = *at++;
    if (p->count < 1 || 9 < p->count || length != 18 + more + 4 * p->boards + 3 * p->count)
        return 10;
    uint32_t sum = 0;
    bool bad = false, across = false, along = false;
    for (size_t i = 0; i < p->count; i++, at += 3) {
        uint16_t thickness = (uint16_t)number(at + 1, 2);
        p->directions[i] = at[0];
        p->thicknesses[i] = thickness;
        bad |= 1 < at[0] || thickness < 100 || 600 < thickness;
        across |= at[0] == 0;
        along |= at[0] == 1;
        sum += thickness;
    }
    if (bad || 4000 < sum)
        return 11;
    if (is_lvl(p) && (across || p->rate != 65))
        return 17;
    if (!along)
        return 12;
    return section_passes(factor_of(p), p->moment, p->strength, section_at(p, 0)) ? 0 : 13;
}

static Panel turned(const Panel *p)
{
    Panel t = *p;
    for (size_t i = 0; i < p->count; i++) {
        t.directions[i] = p->directions[p->count - 1 - i];
        t.thicknesses[i] = p->thicknesses[p->count - 1 - i];
    }
    return t;
}

/* ---- charring at n/q minutes, worked out times q, so that nothing is lost; up to q 60 it fits */

/* 25 mm past a line or at the next line, where lamella `at` ends. */
static uint64_t line_end(const Panel *p, uint64_t line, size_t at)
{
    uint64_t past = line + UINT64_C(25000000000);
    return at + 1 < p->count ? smaller(past, line + UINT64_C(100000000) * p->thicknesses[at]) : past;
}

/* Of the lines that are passed at a depth, the deepest sets the end. */
static uint64_t passed_end(const Panel *p, uint64_t deep, uint64_t intact)
{
    uint64_t end = intact, line = 0;
    for (size_t i = 0; i + 1 < p->count; i++) {
        line += UINT64_C(100000000) * p->thicknesses[i];
        if (p->bond == 1 && line < deep)
            end = line_end(p, line, i + 1);
    }
    return end;
}

/* One more than the last rate that is too low, found by halving. */
static uint64_t thin_rate(uint64_t thickness)
{
    uint64_t last = 0, enough = 100;
    while (last + 1 < enough) {
        uint64_t n = last + (enough - last) / 2;
        if (n * n * thickness < 65 * 65 * 200)
            last = n;
        else
            enough = n;
    }
    return last + 1;
}

static CharringValues fire_of(const Panel *p)
{
    const uint64_t fast_run = UINT64_C(25000000000);
    CharringValues f;
    uint64_t k2 = p->boards == 0 ? 0 : 10000 - UINT64_C(18) * p->board[p->boards - 1].thickness, total = 0;
    for (size_t i = 0; i < p->count; i++)
        total += p->thicknesses[i];
    f.start = charring_start(p);
    f.failure = is_f(p) ? p->failure_time : f.start;
    uint64_t rate = is_lvl(p) && total < 200 ? thin_rate(total) : p->rate;
    f.slow = k2 * rate;
    f.plain = UINT64_C(10000) * rate;
    f.depth = f.slow * (f.failure - f.start);
    f.end = p->boards == 0 ? 0 : f.start == f.failure ? smaller(2 * f.plain * f.failure, fast_run) : fast_run;
    f.end = passed_end(p, f.depth, f.end);
    f.back = 100000000 * total;
    f.full = larger(20000, f.start);
    return f;
}

static void cross(Place *s, uint64_t to, uint64_t q)
{
    uint64_t fast = q * beyond(smaller(s->end, to), s->from), settled = q * beyond(to, larger(s->from, s->end));
    s->gained += 2 * smaller(s->left, fast) + smaller(beyond(s->left, fast), 2 * settled);
    s->left = beyond(beyond(s->left, fast), 2 * settled);
    s->from = to;
    s->end = to + UINT64_C(25000000000);
}

static uint64_t walk(const Panel *p, const CharringValues *f, uint64_t x, uint64_t q)
{
    Place s = {f->depth, f->end, x, 0};
    uint64_t line = 0;
    for (size_t i = 0; i + 1 < p->count; i++) {
        line += UINT64_C(100000000) * p->thicknesses[i];
        if (p->bond == 1 && s.from <= line)
            cross(&s, line, q);
    }
    cross(&s, f->back, q);
    return s.gained;
}

/* In half picometres, times q. */
static uint64_t char_of(const Panel *p, const CharringValues *f, uint64_t n, uint64_t q)
{
    uint64_t time = 1000 * n;
    uint64_t under = 2 * f->slow * smaller(beyond(time, q * f->start), q * (f->failure - f->start));
    uint64_t after = walk(p, f, 2 * f->plain * beyond(time, q * f->failure), q);
    return smaller(under + after, 2 * q * f->back);
}

static uint32_t micrometres_in(const Panel *p, const CharringValues *f, uint64_t minute)
{
    return (uint32_t)((char_of(p, f, minute, 1) + 1999999) / 2000000);
}

/* What is divided is times q and f->full: at most 6e18. */
static uint32_t tenths_in(const Panel *p, const CharringValues *f, uint64_t n, uint64_t q)
{
    uint64_t full = q * f->full, by = 200000000 * full;
    uint64_t deep = smaller(f->full * char_of(p, f, n, q) + UINT64_C(14000000000) * smaller(1000 * n, full), 2 * full * f->back);
    return (uint32_t)((deep + (by - 1)) / by);
}

/* ---- the failure time's whole seconds */

static uint32_t load_second(const Panel *p, const CharringValues *f)
{
    uint64_t last = last_passing(p, f->back / 100000000), second = 0, past = 60 * 360 + 1;
    while (second + 1 < past) {
        uint64_t middle = second + (past - second) / 2;
        if (tenths_in(p, f, middle, 60) <= last)
            second = middle;
        else
            past = middle;
    }
    return (uint32_t)second;
}

/* ---- layer times, in thousandths of a minute */

static uint64_t late_time(uint64_t s, uint64_t t)
{
    uint64_t n = 0, past = t + 1;
    while (n + 1 < past) {
        uint64_t middle = n + (past - n) / 2;
        if (4 * middle * middle * s <= t * t * t)
            n = middle;
        else
            past = middle;
    }
    return n;
}

static uint64_t layer_time(uint64_t s, uint64_t t, uint64_t joint)
{
    return (2 * s <= t ? (5 * t - 3 * s) / 5 : late_time(s, t)) * joint / 100;
}

static uint64_t board_time(Board b)
{
    if (b.kind == 'O')
        return OSB_PROTECTION[b.thickness - 200];
    if (b.kind == 'P')
        return PARTICLE_BOARD_PROTECTION[b.thickness - 200];
    return GYPSUM_PROTECTION[b.thickness - 90];
}

static uint32_t ei_minute(const Panel *p)
{
    uint64_t s = 0;
    for (size_t i = 0; i < p->boards; i++)
        s += layer_time(s, board_time(p->board[i]), p->board[i].joint);
    for (size_t i = 0; i + 1 < p->count; i++)
        s += layer_time(s, WOOD_PROTECTION[p->thicknesses[i] - 100], 100);
    s += layer_time(s, WOOD_INSULATION[p->thicknesses[p->count - 1] - 100], 100);
    return (uint32_t)smaller(s / 1000, 360);
}

static uint32_t grade(uint32_t minute)
{
    static const uint16_t grades[] = {360, 240, 180, 120, 90, 60, 45, 30, 20, 15, 10};
    for (size_t i = 0; i < sizeof grades / sizeof grades[0]; i++)
        if (grades[i] <= minute)
            return grades[i];
    return 0;
}

/* ---- text */

static uint8_t *put_field(uint8_t *at, uint32_t n)
{
    uint8_t digits[10];
    size_t count = 0;
    do {
        digits[count++] = (uint8_t)('0' + n % 10);
        n /= 10;
    } while (n != 0);
    *at++ = ' ';
    while (count > 0)
        *at++ = digits[--count];
    return at;
}

static uint8_t *put_head(uint8_t *at, const char *head)
{
    while (*head != 0)
        *at++ = (uint8_t)*head++;
    return at;
}

static uint8_t *put_line(uint8_t *at, const char *head, const uint32_t *numbers, size_t count)
{
    at = put_head(at, head);
    for (size_t i = 0; i < count; i++)
        at = put_field(at, numbers[i]);
    *at++ = '\n';
    return at;
}

static uint8_t *put_time(uint8_t *at, const char *head, uint32_t minutes, uint32_t seconds)
{
    at = put_field(put_head(at, head), minutes);
    *at++ = ':';
    *at++ = (uint8_t)('0' + seconds / 10);
    *at++ = (uint8_t)('0' + seconds % 10);
    *at++ = '\n';
    return at;
}

static int32_t deliver(const uint8_t *text, size_t length, uint8_t *out, size_t out_length)
{
    if (out_length < length)
        return -14;
    memcpy(out, text, length);
    return (int32_t)length;
}

int32_t yurbantse_card(const uint8_t *bytes, size_t bytes_length, uint8_t *out, size_t out_length)
{
    Panel p;
    int refusal = read_record(bytes, bytes_length, &p);
    if (refusal != 0)
        return -refusal;
    if (p.face == 1)
        p = turned(&p);
    CharringValues f = fire_of(&p);
    uint32_t second = load_second(&p, &f), ei = ei_minute(&p);
    if (p.face == 2) {
        Panel t = turned(&p);
        CharringValues last = fire_of(&t);
        second = (uint32_t)smaller(second, load_second(&t, &last));
        ei = (uint32_t)smaller(ei, ei_minute(&t));
    }
    uint32_t load = second / 60;
    uint8_t space[YURBANTSE_CARD_MOST], *at = put_line(space, "CARD", (uint32_t[]){p.version}, 1);
    for (uint32_t minute = 30; minute <= 120; minute += 30)
        at = put_line(at, "CHAR", (uint32_t[]){minute, micrometres_in(&p, &f, minute), tenths_in(&p, &f, minute, 1)}, 3);
    at = put_line(at, "R", (uint32_t[]){load, grade(load)}, 2);
    at = put_time(at, "RS", load, second % 60);
    at = put_line(at, "EI", (uint32_t[]){ei, grade(ei)}, 2);
    at = put_line(at, "REI", (uint32_t[]){grade(load < ei ? load : ei)}, 1);
    return deliver(space, (size_t)(at - space), out, out_length);
}

int32_t yurbantse_refusal(uint8_t n, uint8_t *out, size_t out_length)
{
    uint8_t space[19];
    return deliver(space, (size_t)(put_line(space, "REFUSED", (uint32_t[]){n}, 1) - space), out, out_length);
}
