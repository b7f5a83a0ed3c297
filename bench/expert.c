/* The lashing check in doubles as an expert writes it: both ends in step, so that their divisions overlap; one reciprocal a lash and
   one a level; figures and findings without a branch on what they are. Nothing bounds the rounding errors. */
#include "expert.h"

#include <math.h>
#include <string.h>

enum { ENDS = 2, TIERS = 10, LASHES = 8, ANSWER = 834 };
enum { HEAD = 8, TIER = 12, LASH = 20 };

struct lash {
    uint8_t level, hook, kind, material;
    double lx, ly, lz, rigidity; /* modulus x area */
    uint32_t breaking;
};

struct sheet {
    int rule, route, lock, size, tiers, lashes[ENDS];
    uint32_t breaking;
    uint8_t wind[TIERS];
    double height[TIERS], mass[TIERS], at[TIERS], avmax[TIERS], avmin[TIERS];
    struct lash lash[ENDS][LASHES];
};

struct figures {
    int32_t racking[TIERS];
    uint32_t compression[TIERS + 1], tension[TIERS];
    uint32_t lash[LASHES][3]; /* tension, athwart, vertical */
};

static const double route_factor[13] = {1, 0.87, 0.96, 0.95, 0.94, 1, 0.95, 0.73, 0.86, 0.9, 0.9, 0.73, 0.87};
static const double spring[ENDS] = {3730, 15690};

static uint32_t le2(const uint8_t *p)
{
    uint16_t v;
    memcpy(&v, p, sizeof v);
    return v;
}

static uint32_t le4(const uint8_t *p)
{
    uint32_t v;
    memcpy(&v, p, sizeof v);
    return v;
}

static uint64_t refused(uint64_t number, uint64_t second) { return number | second << 8; }

/* Whether low <= x <= high, by one comparison. */
static unsigned within(uint32_t low, uint32_t x, uint32_t high) { return x - low <= high - low; }

static uint64_t decode_tier(const uint8_t *p, size_t at, int i, struct sheet *out)
{
    uint32_t size = p[0], wind = p[1], height = le2(p + 2), mass = le2(p + 4), a = le2(p + 6), most = le2(p + 8), least = le2(p + 10);
    unsigned twenty = (size == 20) & ((height == 2438) | (height == 2591)), forty = (size == 40) & ((height == 2591) | (height == 2896));
    if (!((twenty | forty) & (wind <= 3) & within(1, mass, 30480) & (a <= 1500) & (most <= 3000) & (least <= 1000) & (least <= most)))
        return refused(7, at);
    if (i == 0)
        out->size = (int)size;
    else if ((int)size != out->size)
        return refused(8, at);
    out->wind[i] = (uint8_t)wind;
    out->height[i] = height;
    out->mass[i] = mass;
    out->at[i] = a;
    out->avmax[i] = most;
    out->avmin[i] = least;
    return 0;
}

static uint64_t decode_lash(const uint8_t *p, size_t at, int *before, int tiers, struct lash *l)
{
    uint32_t lx = le2(p + 4), ly = le2(p + 6), lz = le2(p + 8), area = le2(p + 10), modulus = le4(p + 12), breaking = le4(p + 16);
    int tier = p[0], hook = p[1], kind = p[2], key = tier * 4 + hook * 2 + kind;
    if (!((hook <= 1) & (kind <= 1) & (p[3] <= 3) & (lx <= 5000) & within(500, ly, 10000) & within(500, lz, 20000)
          & within(50, area, 1000) & within(10000, modulus, 200000) & within(1, breaking, 2000000)))
        return refused(10, at);
    if ((tier == 0) | (tier > tiers) | ((tier == 1) & (hook == 1)))
        return refused(11, at);
    if (key <= *before)
        return refused(12, at);
    *before = key;
    *l = (struct lash){(uint8_t)(tier - hook), (uint8_t)hook, (uint8_t)kind, p[3], lx, ly, lz, (double)modulus * area, breaking};
    return 0;
}

static uint64_t decode_end(const uint8_t *s, size_t len, size_t *place, int end, struct sheet *out)
{
    size_t at = *place;
    int before = -1;
    uint64_t r;
    if (len < at + 1)
        return refused(1, len);
    if (s[at] > LASHES)
        return refused(9, at);
    out->lashes[end] = s[at++];
    for (int j = 0; j < out->lashes[end]; j++, at += LASH) {
        if (len < at + LASH)
            return refused(1, len);
        if ((r = decode_lash(s + at, at, &before, out->tiers, &out->lash[end][j])))
            return r;
    }
    *place = at;
    return 0;
}

static uint64_t decode_head(const uint8_t *s, size_t len, struct sheet *out)
{
    if (len < HEAD)
        return refused(1, len);
    out->rule = s[0];
    out->route = s[1];
    out->lock = s[2];
    out->breaking = le4(s + 4);
    if (!within(1, s[0], 2) | (s[3] != 0))
        return refused(3, 0);
    if (out->route > 12)
        return refused(4, 1);
    if ((out->lock > 2) | !within(1, out->breaking, 2000000))
        return refused(5, 2);
    if (len < HEAD + 1)
        return refused(1, len);
    out->tiers = s[HEAD];
    return within(1, s[HEAD], TIERS) ? 0 : refused(6, HEAD);
}

static uint64_t decode(const uint8_t *s, size_t len, struct sheet *out)
{
    size_t at = HEAD + 1;
    uint64_t r = decode_head(s, len, out);
    if (r)
        return r;
    for (int i = 0; i < out->tiers; i++, at += TIER) {
        if (len < at + TIER)
            return refused(1, len);
        if ((r = decode_tier(s + at, at, i, out)))
            return r;
    }
    for (int end = 0; end < ENDS; end++)
        if ((r = decode_end(s, len, &at, end, out)))
            return r;
    return at < len ? refused(2, at) : 0;
}

struct loads {
    double load[TIERS]; /* on the level at a tier's top */
    double half_max[TIERS + 1], half_min[TIERS + 1];
};

static void find_loads(const struct sheet *t, struct loads *w)
{
    double share = t->rule == 2 ? 0.5 : 0.45, factor = 0.5 * 9.81 / 1000 * route_factor[t->route];
    double pressure = 0.5 * 1.08 * (t->size == 20 ? 6.058 : 12.192), over = 0, max = 0, min = 0;
    w->half_max[t->tiers] = w->half_min[t->tiers] = 0;
    for (int i = t->tiers - 1; i >= 0; i--) {
        double F = factor * t->mass[i] * t->at[i], P = pressure * t->height[i] * (t->wind[i] & 1), quarter = 0.25 * 9.81 / 1000 * t->mass[i];
        w->load[i] = share * F + 0.5 * P + over; /* Q of the tier less Q of the one over it */
        over = (1 - share) * F + 0.5 * P;
        max += quarter * t->avmax[i];
        min += quarter * t->avmin[i];
        w->half_max[i] = max;
        w->half_min[i] = min;
    }
}

/* What a lash gives for each mm of shift. */
struct rates {
    double athwart, pull, vertical;
};

static struct rates rates_of(const struct lash *l)
{
    double L = sqrt(l->lx * l->lx + l->ly * l->ly + l->lz * l->lz);
    double whole = (double)(int64_t)L;
    whole += whole < L;
    double each = l->rigidity * l->ly / (whole * whole * whole);
    return (struct rates){each * l->ly, each * whole, each * l->lz};
}

static void find_rates(const struct sheet *t, struct rates rates[ENDS][LASHES], double k[ENDS][TIERS + 1])
{
    for (int end = 0; end < ENDS; end++)
        for (int j = 0; j < t->lashes[end]; j++) {
            const struct lash *l = &t->lash[end][j];
            rates[end][j] = rates_of(l);
            k[end][l->level] += rates[end][j].athwart;
        }
}

/* The shifts D of both ends' levels and the rackings R, by one reciprocal a level and end. */
static void solve(const struct sheet *t, const double *load, double k[ENDS][TIERS + 1], double D[ENDS][TIERS + 1], double R[ENDS][TIERS])
{
    double inverse[ENDS][TIERS + 1], carried[ENDS][TIERS + 1], K[ENDS][TIERS], held[ENDS] = {0, 0}, pushed[ENDS] = {0, 0};
    int n = t->tiers;
    for (int i = n; i >= 1; i--)
        for (int e = 0; e < ENDS; e++) {
            double own = K[e][i - 1] = spring[e ^ t->wind[i - 1] >> 1];
            double below = k[e][i] + held[e];
            inverse[e][i] = 1 / (own + below);
            carried[e][i] = load[i - 1] + pushed[e];
            held[e] = own * below * inverse[e][i];
            pushed[e] = own * carried[e][i] * inverse[e][i];
        }
    D[0][0] = D[1][0] = 0;
    for (int i = 1; i <= n; i++)
        for (int e = 0; e < ENDS; e++) {
            D[e][i] = (carried[e][i] + K[e][i - 1] * D[e][i - 1]) * inverse[e][i];
            R[e][i - 1] = K[e][i - 1] * (D[e][i] - D[e][i - 1]);
        }
}

static uint32_t up(double x)
{
    int64_t whole = (int64_t)x;
    whole += (double)whole < x;
    return (uint32_t)(whole & ~(whole >> 63));
}

static int32_t up_in_size(double x)
{
    int32_t size = (int32_t)up(fabs(x));
    return x < 0 ? -size : size;
}

/* Vertical parts of the lashes by hook, kind and level. */
struct posts {
    double part[2][2][TIERS + 1];
};

static void find_lashes(const struct sheet *t, int end, const struct rates *rates, const double *D, struct posts *v, struct figures *f)
{
    for (int j = 0; j < t->lashes[end]; j++) {
        const struct lash *l = &t->lash[end][j];
        double shift = D[l->level], vertical = rates[j].vertical * shift;
        f->lash[j][0] = up(rates[j].pull * shift);
        f->lash[j][1] = up(rates[j].athwart * shift);
        f->lash[j][2] = up(vertical);
        v->part[l->hook][l->kind][l->level] += vertical;
    }
}

static double least(double a, double b) { return a < b ? a : b; }
static double greatest(double a, double b) { return a > b ? a : b; }

/* A level's bottom hooks count in its tension, its top hooks do not. */
static void find_posts(const struct sheet *t, const struct loads *w, const double *R, const struct posts *v, struct figures *f)
{
    double moment = 0, cross = 0, side = 0;
    for (int i = t->tiers; i >= 0; i--) {
        double M = moment * (1.0 / 2259);
        cross += v->part[1][0][i];
        side += v->part[1][1][i];
        if (i < t->tiers)
            f->tension[i] = up(-(w->half_min[i] + least(M + cross, side - M)));
        cross += v->part[0][0][i];
        side += v->part[0][1][i];
        f->compression[i] = up(w->half_max[i] + greatest(M + cross, side - M));
        if (i > 0) {
            f->racking[i - 1] = up_in_size(R[i - 1]);
            moment += t->height[i - 1] * R[i - 1];
        }
    }
}

static uint8_t *put_words(uint8_t *p, int count, const void *words, size_t size)
{
    *p = (uint8_t)count;
    memcpy(p + 1, words, size);
    return p + 1 + size;
}

static uint8_t *put_end(uint8_t *p, int n, int m, const struct figures *f)
{
    p = put_words(p, n, f->racking, 4 * (size_t)n);
    p = put_words(p, n + 1, f->compression, 4 * (size_t)(n + 1));
    p = put_words(p, n, f->tension, 4 * (size_t)n);
    return put_words(p, m, f->lash, 12 * (size_t)m);
}

static uint32_t safe_load(int material, uint32_t breaking)
{
    uint32_t high = breaking / 1670, low = breaking / 2000;
    return 1000 * (material == 1 ? high : low);
}

/* Three bytes in any case; the place behind them if `over`. Those behind the last finding are put back. */
static uint8_t *put_where(uint8_t *p, int end, int kind, int index, int over)
{
    p[0] = (uint8_t)end;
    p[1] = (uint8_t)kind;
    p[2] = (uint8_t)index;
    return p + 3 * over;
}

static uint8_t *put_findings(uint8_t *p, const struct sheet *t, int end, uint32_t lock, const struct figures *f)
{
    int n = t->tiers, m = t->lashes[end], weak = lock < 250000; /* corner and lock tension are one pull, checked against the lower limit */
    uint32_t pull = weak ? lock : 250000;
    for (int i = 0; i < n; i++)
        p = put_where(p, end, 1, i + 1, (f->racking[i] > 150000) | (f->racking[i] < -150000));
    for (int i = 1; i <= n; i++)
        p = put_where(p, end, 2, i, f->compression[i] > 848000);
    for (int i = 0; i < n; i++)
        p = put_where(p, end, weak ? 4 : 3, i, f->tension[i] > pull);
    for (int j = 0; j < m; j++)
        p = put_where(p, end, 5, j, f->lash[j][0] > safe_load(t->lash[end][j].material, t->lash[end][j].breaking));
    for (int j = 0; j < m; j++)
        p = put_where(p, end, 6, j, f->lash[j][2] > 300000);
    for (int j = 0; j < m; j++)
        p = put_where(p, end, 7, j, f->lash[j][1] > 150000);
    return p;
}

static size_t put_answer(uint8_t *answer, const struct sheet *t, const struct figures *f)
{
    uint8_t found[3 * 129], *last = found, *p = answer + 1;
    uint32_t lock = safe_load(t->lock, t->breaking);
    for (int end = 0; end < ENDS; end++) {
        p = put_end(p, t->tiers, t->lashes[end], &f[end]);
        last = put_findings(last, t, end, lock, &f[end]);
    }
    size_t size = (size_t)(last - found);
    answer[0] = size != 0;
    *p++ = (uint8_t)(size / 3);
    memcpy(p, found, size);
    return (size_t)(p - answer) + size;
}

uint64_t expert_check(const uint8_t *sheet, size_t sheet_len, uint8_t *answer, size_t answer_len)
{
    struct sheet t;
    struct loads w;
    struct figures f[ENDS];
    struct rates rates[ENDS][LASHES];
    double k[ENDS][TIERS + 1] = {{0}}, D[ENDS][TIERS + 1], R[ENDS][TIERS];
    uint64_t r = decode(sheet, sheet_len, &t);
    if (r)
        return r;
    if (answer_len < ANSWER)
        return refused(13, ANSWER);
    find_loads(&t, &w);
    find_rates(&t, rates, k);
    solve(&t, w.load, k, D, R);
    for (int end = 0; end < ENDS; end++) {
        struct posts v = {0};
        find_lashes(&t, end, rates[end], D[end], &v, &f[end]);
        find_posts(&t, &w, R[end], &v, &f[end]);
    }
    return refused(0, put_answer(answer, &t, f));
}
