/* The lashing check in plain doubles: the papers' rules, the springs by the Thomas algorithm, forces rounded up. Nothing bounds the
   rounding errors. */
#include "doubles.h"

#include <math.h>
#include <string.h>

enum { TIERS = 10, LASHES = 8, ANSWER = 834 };

struct tier {
    int size, wind, height, mass, at, avmax, avmin;
};

struct lash {
    int tier, hook, kind, material, lx, ly, lz, area;
    uint32_t modulus, breaking;
};

struct sheet {
    int rule, route, lock, tiers;
    uint32_t breaking;
    struct tier tier[TIERS];
    int lashes[2];
    struct lash lash[2][LASHES];
};

struct figures {
    int32_t racking[TIERS];
    uint32_t compression[TIERS + 1], tension[TIERS];
    uint32_t pull[LASHES], athwart[LASHES], vertical[LASHES];
};

static const int route_percent[13] = {100, 87, 96, 95, 94, 100, 95, 73, 86, 90, 90, 73, 87};
static const double spring[2] = {3730, 15690};

static uint32_t le2(const uint8_t *p) { return p[0] | (uint32_t)p[1] << 8; }
static uint32_t le4(const uint8_t *p) { return le2(p) | le2(p + 2) << 16; }
static uint64_t refused(uint64_t number, uint64_t second) { return number | second << 8; }

static int tier_fits(const struct tier *t)
{
    int height = t->size == 20 ? t->height == 2438 || t->height == 2591
                               : t->size == 40 && (t->height == 2591 || t->height == 2896);
    return height && t->wind <= 3 && t->mass >= 1 && t->mass <= 30480 && t->at <= 1500 && t->avmax <= 3000 && t->avmin <= 1000
        && t->avmin <= t->avmax;
}

static int lash_fits(const struct lash *l)
{
    return l->hook <= 1 && l->kind <= 1 && l->material <= 3 && l->lx <= 5000 && l->ly >= 500 && l->ly <= 10000 && l->lz >= 500
        && l->lz <= 20000 && l->area >= 50 && l->area <= 1000 && l->modulus >= 10000 && l->modulus <= 200000 && l->breaking >= 1
        && l->breaking <= 2000000;
}

static uint64_t decode_tiers(const uint8_t *s, size_t len, struct sheet *out)
{
    for (int i = 0; i < out->tiers; i++) {
        size_t at = 9 + 12 * (size_t)i;
        struct tier *t = &out->tier[i];
        if (len < at + 12)
            return refused(1, len);
        *t = (struct tier){s[at], s[at + 1], (int)le2(s + at + 2), (int)le2(s + at + 4), (int)le2(s + at + 6), (int)le2(s + at + 8),
                           (int)le2(s + at + 10)};
        if (!tier_fits(t))
            return refused(7, at);
        if (t->size != out->tier[0].size)
            return refused(8, at);
    }
    return 0;
}

static uint64_t decode_end(const uint8_t *s, size_t len, size_t *at, int end, struct sheet *out)
{
    int before = -1;
    if (len < *at + 1)
        return refused(1, len);
    out->lashes[end] = s[*at];
    if (out->lashes[end] > LASHES)
        return refused(9, *at);
    *at += 1;
    for (int j = 0; j < out->lashes[end]; j++, *at += 20) {
        const uint8_t *p = s + *at;
        struct lash *l = &out->lash[end][j];
        if (len < *at + 20)
            return refused(1, len);
        *l = (struct lash){p[0],          p[1],          p[2],         p[3],        (int)le2(p + 4), (int)le2(p + 6), (int)le2(p + 8),
                           (int)le2(p + 10), le4(p + 12), le4(p + 16)};
        if (!lash_fits(l))
            return refused(10, *at);
        if (l->tier == 0 || l->tier > out->tiers || (l->tier == 1 && l->hook == 1))
            return refused(11, *at);
        int key = l->tier * 4 + l->hook * 2 + l->kind;
        if (key <= before)
            return refused(12, *at);
        before = key;
    }
    return 0;
}

static uint64_t decode(const uint8_t *s, size_t len, struct sheet *out)
{
    uint64_t r;
    size_t at;
    if (len < 8)
        return refused(1, len);
    out->rule = s[0];
    out->route = s[1];
    out->lock = s[2];
    out->breaking = le4(s + 4);
    if (out->rule < 1 || out->rule > 2 || s[3] != 0)
        return refused(3, 0);
    if (out->route > 12)
        return refused(4, 1);
    if (out->lock > 2 || out->breaking < 1 || out->breaking > 2000000)
        return refused(5, 2);
    if (len < 9)
        return refused(1, len);
    out->tiers = s[8];
    if (out->tiers == 0 || out->tiers > TIERS)
        return refused(6, 8);
    if ((r = decode_tiers(s, len, out)))
        return r;
    at = 9 + 12 * (size_t)out->tiers;
    for (int end = 0; end < 2; end++)
        if ((r = decode_end(s, len, &at, end, out)))
            return r;
    return at < len ? refused(2, at) : 0;
}

struct loads {
    double F[TIERS], P[TIERS], Q[TIERS], half_max[TIERS + 1], half_min[TIERS + 1];
};

static void find_loads(const struct sheet *t, struct loads *w)
{
    double above = 0, share = t->rule == 2 ? 0.5 : 0.45;
    w->half_max[t->tiers] = w->half_min[t->tiers] = 0;
    for (int i = t->tiers - 1; i >= 0; i--) {
        const struct tier *b = &t->tier[i];
        double W = b->mass * 9.81, length = b->size == 20 ? 6.058 : 12.192;
        w->F[i] = 0.5 * W * b->at / 1000 * route_percent[t->route] / 100;
        w->P[i] = b->wind % 2 ? 0.5 * 1080 * length * b->height / 1000 : 0;
        w->Q[i] = share * w->F[i] + 0.5 * w->P[i] + above;
        above += w->F[i] + w->P[i];
        w->half_max[i] = w->half_max[i + 1] + 0.25 * W * b->avmax / 1000;
        w->half_min[i] = w->half_min[i + 1] + 0.25 * W * b->avmin / 1000;
    }
}

static void solve(int n, const double *K, const double *k, const double *Q, double *D)
{
    double stiff[TIERS + 1], load[TIERS + 1], under = 0, carried = 0;
    for (int i = n; i >= 1; i--) {
        stiff[i] = K[i - 1] + k[i] + under;
        load[i] = Q[i - 1] - (i < n ? Q[i] : 0) + carried;
        under = K[i - 1] * (k[i] + under) / stiff[i];
        carried = K[i - 1] * load[i] / stiff[i];
    }
    D[0] = 0;
    for (int i = 1; i <= n; i++)
        D[i] = (load[i] + K[i - 1] * D[i - 1]) / stiff[i];
}

static double least_length(const struct lash *l)
{
    return ceil(sqrt((double)l->lx * l->lx + (double)l->ly * l->ly + (double)l->lz * l->lz));
}

static double up(double x) { return x > 0 ? ceil(x) : 0; }

/* Vertical parts of the lashes, by hook and level. */
struct posts {
    double lee[2][TIERS + 1], windward[2][TIERS + 1];
};

/* A level's bottom hooks count in its tension, its top hooks do not. */
static void find_posts(const struct sheet *t, const struct loads *w, const double *R, const struct posts *v, struct figures *f)
{
    double moment = 0, cross = 0, side = 0;
    for (int i = t->tiers; i >= 0; i--) {
        double M = moment / 2259, low;
        cross += v->lee[1][i];
        side += v->windward[1][i];
        if (i < t->tiers) {
            double a = w->half_min[i] + M + cross, b = w->half_min[i] - M + side;
            low = a < b ? a : b;
            f->tension[i] = (uint32_t)up(-low);
        }
        cross += v->lee[0][i];
        side += v->windward[0][i];
        double a = w->half_max[i] + M + cross, b = w->half_max[i] - M + side;
        f->compression[i] = (uint32_t)up(a > b ? a : b);
        if (i > 0)
            moment += t->tier[i - 1].height * R[i - 1];
    }
}

static void find_end(const struct sheet *t, const struct loads *w, int end, struct figures *f)
{
    int n = t->tiers, m = t->lashes[end];
    double K[TIERS], k[TIERS + 1] = {0}, D[TIERS + 1], length[LASHES], stiffness[LASHES];
    double R[TIERS];
    struct posts v = {0};
    for (int i = 0; i < n; i++)
        K[i] = spring[end ^ t->tier[i].wind / 2];
    for (int j = 0; j < m; j++) {
        const struct lash *l = &t->lash[end][j];
        double L = length[j] = least_length(l);
        stiffness[j] = (double)l->modulus * l->area * l->ly * l->ly / (L * L * L);
        k[l->tier - l->hook] += stiffness[j];
    }
    solve(n, K, k, w->Q, D);
    for (int i = 0; i < n; i++) {
        R[i] = K[i] * (D[i + 1] - D[i]);
        f->racking[i] = (int32_t)(R[i] < 0 ? -ceil(-R[i]) : ceil(R[i]));
    }
    for (int j = 0; j < m; j++) {
        const struct lash *l = &t->lash[end][j];
        int level = l->tier - l->hook;
        double athwart = stiffness[j] * D[level], vertical = athwart * l->lz / l->ly;
        f->athwart[j] = (uint32_t)up(athwart);
        f->pull[j] = (uint32_t)up(athwart * length[j] / l->ly);
        f->vertical[j] = (uint32_t)up(vertical);
        (l->kind == 0 ? v.lee : v.windward)[l->hook][level] += vertical;
    }
    find_posts(t, w, R, &v, f);
}

static uint8_t *put4(uint8_t *p, uint32_t v)
{
    p[0] = (uint8_t)v;
    p[1] = (uint8_t)(v >> 8);
    p[2] = (uint8_t)(v >> 16);
    p[3] = (uint8_t)(v >> 24);
    return p + 4;
}

static uint8_t *put_end(uint8_t *p, const struct sheet *t, int end, const struct figures *f)
{
    int n = t->tiers, m = t->lashes[end];
    *p++ = (uint8_t)n;
    for (int i = 0; i < n; i++)
        p = put4(p, (uint32_t)f->racking[i]);
    *p++ = (uint8_t)(n + 1);
    for (int i = 0; i <= n; i++)
        p = put4(p, f->compression[i]);
    *p++ = (uint8_t)n;
    for (int i = 0; i < n; i++)
        p = put4(p, f->tension[i]);
    *p++ = (uint8_t)m;
    for (int j = 0; j < m; j++)
        p = put4(put4(put4(p, f->pull[j]), f->athwart[j]), f->vertical[j]);
    return p;
}

static uint32_t safe_load(int material, uint32_t breaking)
{
    return material == 1 ? breaking / 1670 * 1000 : breaking / 2000 * 1000;
}

static uint8_t *put_finding(uint8_t *p, int end, int kind, int index)
{
    p[0] = (uint8_t)end;
    p[1] = (uint8_t)kind;
    p[2] = (uint8_t)index;
    return p + 3;
}

static uint8_t *put_findings(uint8_t *p, const struct sheet *t, int end, const struct figures *f)
{
    int n = t->tiers, m = t->lashes[end];
    uint32_t lock = safe_load(t->lock, t->breaking);
    int weak = lock < 250000; /* corner and lock tension are one pull, checked against the lower limit */
    for (int i = 0; i < n; i++)
        if (f->racking[i] > 150000 || f->racking[i] < -150000)
            p = put_finding(p, end, 1, i + 1);
    for (int i = 1; i <= n; i++)
        if (f->compression[i] > 848000)
            p = put_finding(p, end, 2, i);
    for (int i = 0; i < n; i++)
        if (f->tension[i] > (weak ? lock : 250000))
            p = put_finding(p, end, weak ? 4 : 3, i);
    for (int j = 0; j < m; j++)
        if (f->pull[j] > safe_load(t->lash[end][j].material, t->lash[end][j].breaking))
            p = put_finding(p, end, 5, j);
    for (int j = 0; j < m; j++)
        if (f->vertical[j] > 300000)
            p = put_finding(p, end, 6, j);
    for (int j = 0; j < m; j++)
        if (f->athwart[j] > 150000)
            p = put_finding(p, end, 7, j);
    return p;
}

uint64_t doubles_check(const uint8_t *sheet, size_t sheet_len, uint8_t *answer, size_t answer_len)
{
    struct sheet t;
    struct loads w;
    struct figures f[2];
    uint64_t r = decode(sheet, sheet_len, &t);
    if (r)
        return r;
    if (answer_len < ANSWER)
        return refused(13, ANSWER);
    find_loads(&t, &w);
    for (int end = 0; end < 2; end++)
        find_end(&t, &w, end, &f[end]);
    uint8_t *p = put_end(put_end(answer + 1, &t, 0, &f[0]), &t, 1, &f[1]);
    uint8_t *count = p++, *first = p;
    p = put_findings(put_findings(p, &t, 0, &f[0]), &t, 1, &f[1]);
    *count = (uint8_t)((p - first) / 3);
    answer[0] = p != first;
    return refused(0, (uint64_t)(p - answer));
}
