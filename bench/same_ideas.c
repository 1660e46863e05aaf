/* The library's ideas, by a C programmer who wants them fast: what is decided of a resource is decided once and kept; a step's
 * rank among the prices tells in one pass whether a case is sound, and a ground is named only if it is not; shift factors are
 * read a flowgate at a time, for the LMPs where its price is not 0, and for the flows with energies in two parts of 16 bits;
 * cost and bound come out of one pass. It takes any bytes, as the library does. */
#include "same_ideas.h"

#include <string.h>

enum {
    MOST_RESOURCES = NOSTWIER_MOST_RESOURCES,
    MOST_ZONES = NOSTWIER_MOST_ZONES,
    MOST_FLOWGATES = NOSTWIER_MOST_FLOWGATES,
    HEAD = 170,
    ZONE = 16,
    RESOURCE = 154,
    OFFER = 74, /* of a resource */
    STEPS = 10,
    CURVE = 42, /* the first one */
    CURVE_STEPS = 4,
    CERTIFICATE_HEAD = 44,
    ENTRY = 40
};

#define INLINE static inline __attribute__((always_inline))
#define REFUSED_ONLY static __attribute__((noinline, cold))

INLINE uint64_t u64(const uint8_t *at)
{
    uint64_t x;
    memcpy(&x, at, sizeof x);
    return __builtin_bswap64(x);
}

INLINE uint32_t u32(const uint8_t *at)
{
    uint32_t x;
    memcpy(&x, at, sizeof x);
    return __builtin_bswap32(x);
}

INLINE int32_t i32(const uint8_t *at)
{
    return (int32_t)u32(at);
}

INLINE uint16_t u16(const uint8_t *at)
{
    uint16_t x;
    memcpy(&x, at, sizeof x);
    return __builtin_bswap16(x);
}

INLINE int64_t least(int64_t a, int64_t b)
{
    return a < b ? a : b;
}

INLINE int64_t negative(int64_t a)
{
    return a < 0 ? a : 0;
}

/* A step's width and price, read at once. */
INLINE int64_t width_of(uint64_t step)
{
    return (int64_t)(step >> 32);
}

INLINE int64_t price_of(uint64_t step)
{
    return (int32_t)step;
}

typedef struct {
    uint32_t resources, zones, flowgates;
} counts;

/* ---- The case: 1 to 7. */

/* Whether one of n numbers is above the most that is allowed. */
INLINE int above(const uint8_t *at, uint32_t n, uint32_t most)
{
    for (uint32_t i = 0; i < n; i++)
        if (u32(at + 4 * i) > most)
            return 1;
    return 0;
}

/* Whether a number is further from 0 than is allowed. */
INLINE int beyond(uint32_t x, uint32_t most)
{
    return x + most > 2 * most;
}

INLINE int pairs_wrong(const uint8_t *at)
{
    return u32(at + 10) > u32(at + 14) || u32(at + 18) > u32(at + 22) || u32(at + 26) > u32(at + 30);
}

/* Ground 5 of a resource, but for its steps. */
INLINE int resource_out_of_range(const uint8_t *at, uint32_t zones)
{
    return at[0] - 1u >= 3 || at[1] - 1u >= zones || at[2] > 1 || at[3] > 15 || beyond(u32(at + 6), 2000000) ||
           above(at + 10, 6, 2000000) || above(at + 34, 3, 400000) || above(at + 46, 4, 2000000) || above(at + 62, 3, 400000);
}

/* Grounds 5 and 6 of an offer. A step's rank is its price, moved up to begin at 0; one of width 0 and price 0 ranks right behind
 * all of them, one of width 0 and another price further on. So ranks that do not fall keep the rule. */
INLINE int offer_unsound(const uint8_t *steps)
{
    uint64_t last = 0, sum = 0;
#pragma GCC unroll STEPS
    for (int j = 0; j < STEPS; j++) {
        uint64_t step = u64(steps + 8 * j), behind = 800001 + step, moved = (uint32_t)step + 400000u;
        __asm__("" : "+r"(behind), "+r"(moved)); /* both are there, so that gcc makes no branch of the choice */
        uint64_t rank = width_of(step) == 0 ? behind : moved;
        if (moved > 800000 || rank < last)
            return 1;
        last = rank;
        sum += step >> 32;
    }
    return last > 800001 || sum > 2000000;
}

/* Ground 5 of the head and the zones, but for the curves. */
INLINE int head_out_of_range(const uint8_t *c, uint32_t zones)
{
    for (int i = 0; i < 3; i++)
        if (u16(c + 12 + 4 * i) - 1u >= 5000 || u16(c + 14 + 4 * i) - 1u >= 60 || u16(c + 24 + 2 * i) > 1000)
            return 1;
    return u32(c + 8) > 128000000 || above(c + 30, 3, 8000000) || above(c + HEAD, 4 * zones, 2000000);
}

INLINE int flowgate_out_of_range(const uint8_t *at, uint32_t resources)
{
    uint16_t bad = 0;
    for (uint32_t i = 0; i < resources; i++)
        bad |= (uint16_t)(u16(at + 4 + 2 * i) + 1000) > 2000;
    return bad | beyond(u32(at), 20000000);
}

INLINE void curve_grounds(const uint8_t *steps, int *range, int *rule)
{
    uint64_t before = UINT64_MAX;
    for (int j = 0; j < CURVE_STEPS; j++) {
        uint64_t step = u64(steps + 8 * j), width = step >> 32;
        uint32_t price = (uint32_t)step;
        *range |= (width > 8000000) | (price > 400000);
        *rule |= width == 0 ? price != 0 : (before >> 32 == 0) | (price > (uint32_t)before);
        before = step;
    }
}

/* 5 to 7 of a case that is not sound. */
REFUSED_ONLY uint32_t case_ground(const uint8_t *c, counts n)
{
    int range = head_out_of_range(c, n.zones), rule = 0;
    for (int k = 0; k < 4; k++)
        curve_grounds(c + CURVE + 8 * CURVE_STEPS * k, &range, &rule);
    const uint8_t *at = c + HEAD + ZONE * n.zones;
    for (uint32_t i = 0; i < n.resources; i++, at += RESOURCE) {
        for (int j = 0; j < STEPS; j++)
            range |= above(at + OFFER + 8 * j, 1, 2000000) | beyond(u32(at + OFFER + 4 + 8 * j), 400000);
        range |= resource_out_of_range(at, n.zones);
        rule |= offer_unsound(at + OFFER); /* where it is no range, it is the rule */
    }
    for (uint32_t g = 0; g < n.flowgates; g++, at += 4 + 2 * n.resources)
        range |= flowgate_out_of_range(at, n.resources);
    return range ? 5 : rule ? 6 : 7;
}

INLINE int sound(const uint8_t *c, counts n)
{
    int curves = 0;
    for (int k = 0; k < 4; k++)
        curve_grounds(c + CURVE + 8 * CURVE_STEPS * k, &curves, &curves);
    if (curves || head_out_of_range(c, n.zones))
        return 0;
    const uint8_t *at = c + HEAD + ZONE * n.zones;
    for (uint32_t i = 0; i < n.resources; i++, at += RESOURCE)
        if (resource_out_of_range(at, n.zones) || pairs_wrong(at) || offer_unsound(at + OFFER))
            return 0;
    for (uint32_t g = 0; g < n.flowgates; g++, at += 4 + 2 * n.resources)
        if (flowgate_out_of_range(at, n.resources))
            return 0;
    return 1;
}

/* Not within the calls, where it would take their registers. */
static __attribute__((noinline)) uint32_t case_refusal(const uint8_t *c, size_t cn, counts *n)
{
    if (cn < HEAD || (uint64_t)u32(c) + 4 != cn)
        return 1;
    if (c[4] != 1)
        return 2;
    uint32_t r = c[5], z = c[6], f = c[7];
    if (r - 1 >= MOST_RESOURCES || z - 1 >= MOST_ZONES || f > MOST_FLOWGATES)
        return 3;
    if (cn != HEAD + ZONE * z + RESOURCE * r + (size_t)f * (4 + 2 * r))
        return 4;
    *n = (counts){r, z, f};
    return sound(c, *n) ? 0 : case_ground(c, *n);
}

uint32_t same_ideas_check_case(const uint8_t *c, size_t cn)
{
    counts n;
    return case_refusal(c, cn, &n);
}

/* ---- The certificate: 8 to 12. */

INLINE uint32_t filing_refusal(const uint8_t *q, size_t qn, counts n)
{
    if (qn < CERTIFICATE_HEAD || (uint64_t)u32(q) + 4 != qn)
        return 8;
    if (q[4] != 1)
        return 9;
    if (q[5] != n.resources || q[6] != n.zones || q[7] != n.flowgates)
        return 10;
    if (qn != CERTIFICATE_HEAD + ZONE * n.zones + 4 * n.flowgates + (size_t)ENTRY * n.resources)
        return 11;
    const uint8_t *at = q + CERTIFICATE_HEAD + ZONE * n.zones;
    if (beyond(u32(q + 24), 400000000) || above(q + 28, 4 + 4 * n.zones, 400000000) || above(at, n.flowgates, 400000))
        return 12;
    at += 4 * n.flowgates;
    for (uint32_t i = 0; i < n.resources; i++, at += ENTRY)
        if (above(at + 20, 5, 400000000))
            return 12;
    return 0;
}

/* ---- What is kept of both files. */

typedef struct {
    int64_t share, times, over; /* RAMP = ramp rate * times / over */
} reserve;

/* What is decided of a resource. */
typedef struct {
    int32_t on, spins, max, min, high, low, bound[5];
} standing;

typedef struct {
    int64_t price[MOST_ZONES][4]; /* regulating, spinning, supplemental, short-term */
    int64_t lmp[MOST_RESOURCES], flow[MOST_FLOWGATES], cost, bound;
    int32_t have[1 + MOST_ZONES][4]; /* of the market, then of each zone */
    standing of[MOST_RESOURCES];
} account;

enum purpose { CHECK, PRICES, CHARGES };

INLINE reserve reserve_of(const uint8_t *c, int pair, int place)
{
    return (reserve){
        .share = (int64_t)u16(c + 24 + 2 * place) * u32(c + 30 + 4 * place) / 1000,
        .times = 1000 * (int64_t)u16(c + 14 + 4 * pair),
        .over = u16(c + 12 + 4 * pair),
    };
}

/* The least of RAMP, SHARE and MAX; RAMP is divided only if it is the least. */
INLINE int32_t reserve_bound(reserve of, int64_t rate, int64_t max)
{
    int64_t other = least(of.share, max), ramp = rate * of.times;
    return (int32_t)(ramp >= other * of.over ? other : (int64_t)((uint64_t)ramp / (uint64_t)of.over));
}

/* Kind 1, its trip 15 minutes ago or less: it sells nothing, whatever its breaker, its output and its flags say. */
INLINE int tripped(const uint8_t *at)
{
    return (at[0] == 1) & (at[4] <= 15);
}

/* With no branch: kind and status follow no order that a processor could foresee. */
INLINE int on_line(const uint8_t *at)
{
    uint32_t output = u32(at + 6);
    int conventional = (at[0] == 1) & (output + 499 > 998) & (at[4] > 15);
    int intermittent = (at[0] == 2) & at[3] & ((int32_t)output > 0);
    int external = (at[0] == 3) & (at[3] >> 1) & (at[3] >> 2);
    return at[2] & (conventional | intermittent | external);
}

INLINE void take_standing(standing *s, const uint8_t *at, const reserve *g, const reserve *c, const reserve *t)
{
    uint8_t flags = at[5], status = at[3];
    s->on = on_line(at);
    s->spins = s->on & (flags >> 1);
    if (s->on) {
        int64_t rate = u32(at + 42);
        int32_t initial = i32(at + 46), fall = initial - 5 * i32(at + 38), sum = 0;
        s->max = i32(at + (flags & 16 ? 30 : flags & 1 ? 22 : 14));
        s->min = i32(at + (flags & 64 ? 26 : flags & 1 ? 18 : 10));
        s->high = initial + 5 * i32(at + 34);
        s->low = fall < 0 ? 0 : fall;
        if (flags & 32) {
            int32_t reach = (int32_t)least(least(s->high, s->max), i32(at + 58));
            s->low = s->low < reach ? reach : s->low;
        }
        for (int j = 0; j < STEPS; j++)
            sum += i32(at + OFFER + 8 * j);
        s->bound[0] = sum;
        s->bound[1] = flags & 1 ? reserve_bound(*g, rate, s->max) : 0;
        s->bound[2] = (flags & 2) | (status & 8) ? reserve_bound(*c, rate, s->max) : 0;
        s->bound[3] = flags & 128 ? reserve_bound(*t, rate, s->max) : 0;
        s->bound[4] = 0;
    } else {
        int32_t most = i32(at + 14);
        if (tripped(at))
            flags = 0;
        s->max = s->high = most;
        s->min = s->low = 0;
        s->bound[0] = s->bound[1] = s->bound[3] = 0;
        s->bound[2] = flags & 4 ? (int32_t)least(least(most, i32(at + 50)), c->share) : 0;
        s->bound[4] = flags & 8 ? (int32_t)least(most, i32(at + 54)) : 0;
    }
}

INLINE void take_lmps(int64_t *lmp, const uint8_t *gates, const uint8_t *gate_prices, int64_t balance, counts n)
{
    for (uint32_t i = 0; i < n.resources; i++)
        lmp[i] = balance;
    for (uint32_t g = 0; g < n.flowgates; g++) {
        const uint8_t *factors = gates + (size_t)(4 + 2 * n.resources) * g + 4;
        int32_t price = i32(gate_prices + 4 * g);
        if (price == 0)
            continue;
        for (uint32_t i = 0; i < n.resources; i++)
            lmp[i] -= (int16_t)u16(factors + 2 * i) * price;
    }
}

/* Energies as high * 2048 + low: 64 products with a factor fit 32 bits. */
INLINE int64_t flow_of(const uint8_t *factors, uint32_t resources, const int16_t *high, const int16_t *low)
{
    int32_t highs = 0, lows = 0;
    for (uint32_t i = 0; i < resources; i++) {
        int16_t factor = (int16_t)u16(factors + 2 * i);
        highs += factor * high[i];
        lows += factor * low[i];
    }
    return (int64_t)highs * 2048 + lows;
}

INLINE void take_zone_prices(int64_t price[][4], const uint8_t *q, uint32_t zones)
{
    int64_t market[4] = {u32(q + 28), u32(q + 32), u32(q + 36), u32(q + 40)};
    for (uint32_t zone = 0; zone < zones; zone++) {
        const uint8_t *at = q + CERTIFICATE_HEAD + ZONE * zone;
        price[zone][2] = market[0] + u32(at);
        price[zone][1] = price[zone][2] + market[1] + u32(at + 4);
        price[zone][0] = price[zone][1] + market[2] + u32(at + 8);
        price[zone][3] = market[3] + u32(at + 12);
    }
}

/* Net prices of a resource: of energy without an offer, of g, c, s and o. */
INLINE void take_nets(int64_t net[5], const uint8_t *at, const uint8_t *entry, int64_t lmp, const int64_t *price, int spins)
{
    int64_t both = u32(entry + 20), other = u32(entry + 24), min = u32(entry + 28);
    net[0] = both + other - min + u32(entry + 32) - u32(entry + 36) - lmp;
    net[1] = 1000 * (int64_t)u32(at + 62) - price[0] + both + min;
    net[2] = 1000 * (int64_t)u32(at + 66) - price[2 - spins] + both;
    net[3] = other - price[3];
    net[4] = 1000 * (int64_t)u32(at + 70) - price[3];
}

/* The first of a resource's own rows that is broken, from 1 on, or 0. */
INLINE uint32_t own_row(const standing *s, const int32_t *amount)
{
    int32_t e = amount[0];
    return e + amount[1] + amount[2] > s->max ? 1
           : e + amount[3] > s->max           ? 2
           : e - amount[1] < s->min           ? 3
           : e > s->high                      ? 4
           : e < s->low                       ? 5
                                              : 0;
}

/* What a resource adds to cost and bound. One that is not on-line has no energy, and its steps' bounds are 0. */
INLINE void add_values(account *a, const standing *s, const uint8_t *at, const uint8_t *entry, const int32_t *amount, int64_t lmp)
{
    int64_t net[5], left = amount[0], cost = 0, bound = 0;
    take_nets(net, at, entry, lmp, a->price[at[1] - 1], s->spins);
    for (int j = 0; j < STEPS && s->on; j++) {
        uint64_t step = u64(at + OFFER + 8 * j);
        int64_t part = least(left, width_of(step));
        cost += price_of(step) * part;
        left -= part;
        bound += negative((1000 * price_of(step) + net[0]) * width_of(step));
    }
    for (int k = 1; k < 5; k++)
        bound += negative(net[k] * s->bound[k]);
    bound += (int64_t)u32(entry + 28) * s->min + (int64_t)u32(entry + 36) * s->low - (int64_t)u32(entry + 32) * s->high;
    a->bound += bound - ((int64_t)u32(entry + 20) + u32(entry + 24)) * s->max;
    a->cost += cost + (int64_t)u32(at + 62) * amount[1] + (int64_t)u32(at + 66) * amount[2] + (int64_t)u32(at + 70) * amount[4];
}

/* 8 to 14; if there is no ground, all that the purpose asks for. */
INLINE nostwier_answer take_account(account *a, const uint8_t *c, const uint8_t *q, size_t qn, counts n, enum purpose why)
{
    uint32_t form = filing_refusal(q, qn, n);
    if (form)
        return (nostwier_answer){form, 0};
    const uint32_t r = n.resources, z = n.zones, f = n.flowgates;
    const uint8_t *resources = c + HEAD + ZONE * z, *gates = resources + RESOURCE * r;
    const uint8_t *gate_prices = q + CERTIFICATE_HEAD + ZONE * z, *entries = gate_prices + 4 * f;
    a->cost = a->bound = 0;

    for (uint32_t k = 0; k < 4; k++) {
        int64_t left = u32(q + 8 + 4 * k), row = u32(q + 28 + 4 * k);
        for (int j = 0; j < CURVE_STEPS; j++) {
            uint64_t step = u64(c + CURVE + 8 * CURVE_STEPS * k + 8 * j);
            int64_t part = least(left, width_of(step));
            left -= part;
            if (why == CHECK) {
                a->cost -= price_of(step) * part;
                a->bound += negative((row - 1000 * price_of(step)) * width_of(step));
            }
        }
        if (left > 0)
            return (nostwier_answer){13, 1 + k};
    }

    take_zone_prices(a->price, q, z);
    take_lmps(a->lmp, gates, gate_prices, i32(q + 24), n);
    memset(a->have, 0, (1 + z) * sizeof *a->have);

    const reserve regulating = reserve_of(c, 1, 0), contingency = reserve_of(c, 0, 1), short_term = reserve_of(c, 2, 2);
    int16_t high[MOST_RESOURCES], low[MOST_RESOURCES];
    uint32_t own = 0; /* the first broken row of a resource */
    int32_t balance = 0;
    for (uint32_t i = 0; i < r; i++) {
        const uint8_t *at = resources + RESOURCE * i, *entry = entries + ENTRY * i;
        standing local, *s = why == CHARGES ? &a->of[i] : &local;
        take_standing(s, at, &regulating, &contingency, &short_term);
        int32_t amount[5];
        for (uint32_t k = 0; k < 5; k++) {
            uint32_t given = u32(entry + 4 * k);
            if (given > (uint32_t)s->bound[k])
                return (nostwier_answer){13, 5 + 5 * i + k};
            amount[k] = (int32_t)given;
        }
        balance += amount[0];
        high[i] = (int16_t)(amount[0] >> 11);
        low[i] = (int16_t)(amount[0] & 2047);
        int32_t give[4] = {amount[1] + amount[2], amount[1] + (s->spins ? amount[2] : 0), amount[1], amount[3] + amount[4]};
        for (int k = 0; k < 4; k++) {
            a->have[0][k] += give[k];
            a->have[at[1]][k] += give[k];
        }
        uint32_t broken = own_row(s, amount);
        if (broken && !own)
            own = 5 + 4 * z + f + 5 * i + broken;
        if (why == CHECK)
            add_values(a, s, at, entry, amount, a->lmp[i]);
    }

    if (balance != i32(c + 8))
        return (nostwier_answer){14, 1};
    for (uint32_t k = 0; k < 4; k++)
        if (a->have[0][k] < (int64_t)u32(q + 8 + 4 * k))
            return (nostwier_answer){14, 2 + k};
    for (uint32_t k = 0; k < 4 * z; k++) {
        int32_t need = i32(c + HEAD + 4 * k);
        if (a->have[1 + k / 4][k % 4] < need)
            return (nostwier_answer){14, 6 + k};
        if (why == CHECK)
            a->bound += (int64_t)u32(q + CERTIFICATE_HEAD + 4 * k) * need;
    }
    for (uint32_t g = 0; g < f; g++) {
        const uint8_t *gate = gates + (size_t)(4 + 2 * r) * g;
        int64_t limit = 1000 * (int64_t)i32(gate);
        a->flow[g] = flow_of(gate + 4, r, high, low);
        if (a->flow[g] > limit)
            return (nostwier_answer){14, 6 + 4 * z + g};
        if (why == CHECK)
            a->bound -= i32(gate_prices + 4 * g) * limit;
    }
    if (own)
        return (nostwier_answer){14, own};
    if (why == CHECK) {
        a->cost *= 1000;
        a->bound += (int64_t)i32(q + 24) * u32(c + 8);
    }
    return (nostwier_answer){0, 0};
}

/* ---- The calls. */

nostwier_result same_ideas_check_certificate(const uint8_t *c, size_t cn, const uint8_t *q, size_t qn)
{
    account a;
    counts n;
    uint32_t refusal = case_refusal(c, cn, &n);
    if (refusal)
        return (nostwier_result){.refusal = refusal};
    nostwier_answer answer = take_account(&a, c, q, qn, n, CHECK);
    if (answer.refusal)
        return (nostwier_result){.refusal = answer.refusal, .place = answer.place};
    return (nostwier_result){.cost = a.cost, .bound = a.bound, .gap = a.cost - a.bound};
}

nostwier_answer same_ideas_prices(const uint8_t *c, size_t cn, const uint8_t *q, size_t qn, int64_t *out, size_t n)
{
    account a;
    counts counted;
    uint32_t refusal = case_refusal(c, cn, &counted);
    if (refusal)
        return (nostwier_answer){refusal, 0};
    nostwier_answer answer = take_account(&a, c, q, qn, counted, PRICES);
    if (answer.refusal)
        return answer;
    const uint32_t r = counted.resources, z = counted.zones;
    if (n < r + 4 * z)
        return (nostwier_answer){15, 0};
    memcpy(out, a.lmp, r * sizeof *a.lmp);
    memcpy(out + r, a.price, z * sizeof *a.price);
    return answer;
}

INLINE int64_t charge(int64_t net, int64_t amount, int64_t bound)
{
    return net * amount - negative(net * bound);
}

nostwier_answer same_ideas_charges(const uint8_t *c, size_t cn, const uint8_t *q, size_t qn, int64_t *out, size_t n)
{
    account a;
    counts counted;
    uint32_t refusal = case_refusal(c, cn, &counted);
    if (refusal)
        return (nostwier_answer){refusal, 0};
    nostwier_answer answer = take_account(&a, c, q, qn, counted, CHARGES);
    if (answer.refusal)
        return answer;
    const uint32_t r = counted.resources, z = counted.zones, f = counted.flowgates;
    if (n < 21 + 4 * z + f + (size_t)19 * r)
        return (nostwier_answer){15, 0};
    const uint8_t *resources = c + HEAD + ZONE * z, *gates = resources + RESOURCE * r;
    const uint8_t *gate_prices = q + CERTIFICATE_HEAD + ZONE * z, *entries = gate_prices + 4 * f;

    *out++ = 0; /* row 1 is met exactly */
    for (int k = 0; k < 4; k++)
        *out++ = u32(q + 28 + 4 * k) * ((int64_t)a.have[0][k] - u32(q + 8 + 4 * k));
    for (uint32_t k = 0; k < 4 * z; k++)
        *out++ = u32(q + CERTIFICATE_HEAD + 4 * k) * ((int64_t)a.have[1 + k / 4][k % 4] - u32(c + HEAD + 4 * k));
    for (uint32_t g = 0; g < f; g++)
        *out++ = i32(gate_prices + 4 * g) * (1000 * (int64_t)i32(gates + (size_t)(4 + 2 * r) * g) - a.flow[g]);
    int64_t *row = out, *priced = out + 5 * r;
    for (uint32_t i = 0; i < r; i++) {
        const uint8_t *at = resources + RESOURCE * i, *entry = entries + ENTRY * i;
        const standing *s = &a.of[i];
        int64_t amount[5], net[5];
        for (int k = 0; k < 5; k++)
            amount[k] = u32(entry + 4 * k);
        int64_t left = amount[0];
        *row++ = u32(entry + 20) * (s->max - left - amount[1] - amount[2]);
        *row++ = u32(entry + 24) * (s->max - left - amount[3]);
        *row++ = u32(entry + 28) * (left - amount[1] - s->min);
        *row++ = u32(entry + 32) * (s->high - left);
        *row++ = u32(entry + 36) * (left - s->low);
        take_nets(net, at, entry, a.lmp[i], a.price[at[1] - 1], s->spins);
        for (int j = 0; j < STEPS; j++) {
            uint64_t step = u64(at + OFFER + 8 * j);
            int64_t part = least(left, width_of(step));
            *priced++ = charge(1000 * price_of(step) + net[0], part, s->on ? width_of(step) : 0);
            left -= part;
        }
        for (int k = 1; k < 5; k++)
            *priced++ = charge(net[k], amount[k], s->bound[k]);
    }
    for (int k = 0; k < 4; k++) {
        int64_t left = u32(q + 8 + 4 * k);
        for (int j = 0; j < CURVE_STEPS; j++) {
            uint64_t step = u64(c + CURVE + 8 * CURVE_STEPS * k + 8 * j);
            int64_t part = least(left, width_of(step));
            *priced++ = charge(u32(q + 28 + 4 * k) - 1000 * price_of(step), part, width_of(step));
            left -= part;
        }
    }
    return answer;
}
