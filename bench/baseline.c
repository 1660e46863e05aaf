/* What a C programmer would write who wants the checks fast. Each file is walked once where that can be done: the case
 * check gathers the grounds of refusal of all fields and looks at them at the end; the certificate's check decodes a
 * resource once, judges its quantities and its rows, and adds it to every sum. It takes any bytes, as the library does. */
#include "baseline.h"

#include <string.h>

enum {
    MOST_RESOURCES = NOSTWIER_MOST_RESOURCES,
    MOST_ZONES = NOSTWIER_MOST_ZONES,
    MOST_FLOWGATES = NOSTWIER_MOST_FLOWGATES,
    HEAD = 170,
    ZONE = 16,
    RESOURCE = 154,
    STEPS = 10,
    CURVE_STEPS = 4,
    CERTIFICATE_HEAD = 44,
    ENTRY = 40
};

#define INLINE static inline __attribute__((always_inline))

INLINE uint32_t u32(const uint8_t *at)
{
    uint32_t x;
    memcpy(&x, at, sizeof x);
    return __builtin_bswap32(x);
}

INLINE int32_t i32(const uint8_t *at)
{
    return (int32_t)u32(at);
}

INLINE uint16_t u16(const uint8_t *at)
{
    uint16_t x;
    memcpy(&x, at, sizeof x);
    return __builtin_bswap16(x);
}

INLINE int16_t i16(const uint8_t *at)
{
    return (int16_t)u16(at);
}

INLINE int64_t least(int64_t a, int64_t b)
{
    return a < b ? a : b;
}

INLINE int64_t negative(int64_t a)
{
    return a < 0 ? a : 0;
}

typedef struct {
    uint32_t resources, zones, flowgates;
} counts;

/* ---- The case: 1 to 7. */

/* Whether one of n numbers is above the most that is allowed. */
INLINE uint32_t above(const uint8_t *at, int n, uint32_t most)
{
    uint32_t bad = 0;
    for (int i = 0; i < n; i++)
        bad |= u32(at + 4 * i) > most;
    return bad;
}

/* Whether a number is further from 0 than is allowed. */
INLINE uint32_t beyond(uint32_t x, uint32_t most)
{
    return x + most > 2 * most;
}

INLINE uint32_t case_refusal(const uint8_t *c, size_t cn, counts *n)
{
    if (cn < HEAD || (uint64_t)u32(c) + 4 != cn)
        return 1;
    if (c[4] != 1)
        return 2;
    uint32_t r = c[5], z = c[6], f = c[7];
    if (r - 1 >= MOST_RESOURCES || z - 1 >= MOST_ZONES || f > MOST_FLOWGATES)
        return 3;
    if (cn != HEAD + ZONE * z + RESOURCE * r + (size_t)f * (4 + 2 * r))
        return 4;
    *n = (counts){r, z, f};

    uint32_t field = u32(c + 8) > 128000000, steps = 0, pair = 0;
    for (int i = 0; i < 3; i++) {
        field |= u16(c + 12 + 4 * i) - 1u >= 5000;
        field |= u16(c + 14 + 4 * i) - 1u >= 60;
        field |= u16(c + 24 + 2 * i) > 1000;
    }
    field |= above(c + 30, 3, 8000000);
    for (const uint8_t *curve = c + 42; curve < c + HEAD; curve += 8 * CURVE_STEPS) {
        uint32_t before = 1, asked = UINT32_MAX;
        for (int j = 0; j < CURVE_STEPS; j++) {
            uint32_t width = u32(curve + 8 * j), price = u32(curve + 8 * j + 4);
            field |= (width > 8000000) | (price > 400000);
            steps |= width == 0 ? price != 0 : (before == 0) | (price > asked);
            before = width;
            asked = price;
        }
    }
    const uint8_t *at = c + HEAD;
    field |= above(at, (int)(4 * z), 2000000);
    at += ZONE * z;
    for (uint32_t i = 0; i < r; i++, at += RESOURCE) {
        field |= (at[0] - 1u >= 3) | (at[1] - 1u >= z) | (at[2] > 1) | (at[3] > 15);
        field |= beyond(u32(at + 6), 2000000);
        field |= above(at + 10, 6, 2000000) | above(at + 34, 3, 400000);
        field |= above(at + 46, 4, 2000000) | above(at + 62, 3, 400000);
        pair |= (u32(at + 10) > u32(at + 14)) | (u32(at + 18) > u32(at + 22)) | (u32(at + 26) > u32(at + 30));
        uint64_t sum = 0;
        uint32_t before = 1;
        int32_t asked = INT32_MIN;
        for (int j = 0; j < STEPS; j++) {
            uint32_t width = u32(at + 74 + 8 * j);
            int32_t price = i32(at + 78 + 8 * j);
            field |= (width > 2000000) | beyond((uint32_t)price, 400000);
            steps |= ((width == 0) & (price != 0)) | ((width != 0) & ((before == 0) | (price < asked)));
            before = width;
            asked = price;
            sum += width;
        }
        steps |= sum > 2000000;
    }
    for (uint32_t g = 0; g < f; g++) {
        field |= beyond(u32(at), 20000000);
        at += 4;
        uint16_t bad = 0;
        for (uint32_t i = 0; i < r; i++)
            bad |= (uint16_t)(u16(at + 2 * i) + 1000) > 2000;
        field |= bad;
        at += 2 * r;
    }
    return field ? 5 : steps ? 6 : pair ? 7 : 0;
}

uint32_t baseline_check_case(const uint8_t *c, size_t cn)
{
    counts n;
    return case_refusal(c, cn, &n);
}

/* ---- The certificate: 8 to 12. */

INLINE uint32_t filing_refusal(const uint8_t *q, size_t qn, counts n)
{
    if (qn < CERTIFICATE_HEAD || (uint64_t)u32(q) + 4 != qn)
        return 8;
    if (q[4] != 1)
        return 9;
    if (q[5] != n.resources || q[6] != n.zones || q[7] != n.flowgates)
        return 10;
    if (qn != CERTIFICATE_HEAD + ZONE * n.zones + 4 * n.flowgates + (size_t)ENTRY * n.resources)
        return 11;
    uint32_t bad = beyond(u32(q + 24), 400000000) | above(q + 28, (int)(4 + 4 * n.zones), 400000000);
    const uint8_t *at = q + CERTIFICATE_HEAD + ZONE * n.zones;
    bad |= above(at, (int)n.flowgates, 400000);
    at += 4 * n.flowgates;
    for (uint32_t i = 0; i < n.resources; i++, at += ENTRY)
        bad |= above(at + 20, 5, 400000000);
    return bad ? 12 : 0;
}

/* ---- What both files say of the rows and of what is priced. */

typedef struct {
    int64_t share, times, over; /* RAMP = ramp rate * times / over */
} reserve;

/* What the charges need again of a resource. */
typedef struct {
    int64_t max, min, high, low, bound[5];
    int on, spins;
} standing;

typedef struct {
    int64_t have[1 + MOST_ZONES][4]; /* of the market, then of each zone */
    int64_t price[MOST_ZONES][4];    /* regulating, spinning, supplemental, short-term */
    int64_t flow[MOST_FLOWGATES], congestion[MOST_RESOURCES];
    standing of[MOST_RESOURCES];
    int64_t cost, bound;
} account;

enum purpose { CHECK, PRICES, CHARGES };

INLINE reserve reserve_of(const uint8_t *c, int pair, int place)
{
    return (reserve){
        .share = (int64_t)u16(c + 24 + 2 * place) * u32(c + 30 + 4 * place) / 1000,
        .times = 1000 * (int64_t)u16(c + 14 + 4 * pair),
        .over = u16(c + 12 + 4 * pair),
    };
}

/* The least of RAMP, SHARE and another; RAMP is divided only if it is the least. */
INLINE int64_t reserve_bound(reserve of, int64_t rate, int64_t most)
{
    int64_t other = least(of.share, most), ramp = rate * of.times;
    return ramp >= other * of.over ? other : (int64_t)((uint64_t)ramp / (uint64_t)of.over);
}

/* Kind 1, its trip 15 minutes ago or less: it sells nothing, whatever its breaker, its output and its flags say. */
INLINE int tripped(const uint8_t *at)
{
    return (at[0] == 1) & (at[4] <= 15);
}

INLINE int on_line(const uint8_t *at)
{
    uint32_t output = u32(at + 6);
    switch (at[0]) {
    case 1:
        return at[2] & (output + 499 > 998) & !tripped(at);
    case 2:
        return at[2] & at[3] & ((int32_t)output > 0);
    default:
        return at[2] & (at[3] >> 1) & (at[3] >> 2);
    }
}

INLINE void take_standing(standing *s, const uint8_t *at, const reserve *g, const reserve *c, const reserve *t)
{
    uint8_t flags = at[5], status = at[3];
    int64_t rate = u32(at + 42);
    s->on = on_line(at);
    s->spins = s->on & (flags >> 1);
    if (s->on) {
        int64_t initial = u32(at + 46), fall = initial - 5 * (int64_t)u32(at + 38), sum = 0;
        s->max = u32(at + (flags & 16 ? 30 : flags & 1 ? 22 : 14));
        s->min = u32(at + (flags & 64 ? 26 : flags & 1 ? 18 : 10));
        s->high = initial + 5 * (int64_t)u32(at + 34);
        s->low = fall < 0 ? 0 : fall;
        if (flags & 32) {
            int64_t reach = least(least(s->high, s->max), u32(at + 58));
            s->low = s->low < reach ? reach : s->low;
        }
        for (int j = 0; j < STEPS; j++)
            sum += u32(at + 74 + 8 * j);
        s->bound[0] = sum;
        s->bound[1] = flags & 1 ? reserve_bound(*g, rate, s->max) : 0;
        s->bound[2] = (flags & 2) | (status & 8) ? reserve_bound(*c, rate, s->max) : 0;
        s->bound[3] = flags & 128 ? reserve_bound(*t, rate, s->max) : 0;
        s->bound[4] = 0;
    } else {
        int64_t most = u32(at + 14);
        if (tripped(at))
            flags = 0;
        s->max = s->high = most;
        s->min = s->low = 0;
        s->bound[0] = s->bound[1] = s->bound[3] = 0;
        s->bound[2] = flags & 4 ? least(least(most, u32(at + 50)), c->share) : 0;
        s->bound[4] = flags & 8 ? least(most, u32(at + 54)) : 0;
    }
}

/* Net prices of a resource: of energy without an offer, of g, c, s and o. */
INLINE void take_nets(int64_t net[5], const uint8_t *at, const uint8_t *entry, int64_t lmp, const int64_t *price, int spins)
{
    int64_t both = u32(entry + 20), other = u32(entry + 24), min = u32(entry + 28);
    net[0] = both + other - min + u32(entry + 32) - u32(entry + 36) - lmp;
    net[1] = 1000 * (int64_t)u32(at + 62) - price[0] + both + min;
    net[2] = 1000 * (int64_t)u32(at + 66) - price[spins ? 1 : 2] + both;
    net[3] = other - price[3];
    net[4] = 1000 * (int64_t)u32(at + 70) - price[3];
}

/* 8 to 14; if there is no ground, all that the purpose asks for. */
INLINE nostwier_answer take_account(account *a, const uint8_t *c, const uint8_t *q, size_t qn, counts n, enum purpose why)
{
    uint32_t form = filing_refusal(q, qn, n);
    if (form)
        return (nostwier_answer){form, 0};
    const uint32_t r = n.resources, z = n.zones, f = n.flowgates;
    const uint8_t *resources = c + HEAD + ZONE * z, *gates = resources + RESOURCE * r;
    const uint8_t *gate_prices = q + CERTIFICATE_HEAD + ZONE * z, *entries = gate_prices + 4 * f;
    int64_t cost = 0, bound = 0;

    for (int k = 0; k < 4; k++) {
        const uint8_t *curve = c + 42 + 32 * k;
        int64_t cleared = u32(q + 8 + 4 * k), left = cleared, row = u32(q + 28 + 4 * k), width = 0;
        for (int j = 0; j < CURVE_STEPS; j++) {
            int64_t wide = u32(curve + 8 * j), price = u32(curve + 8 * j + 4), part = least(left, wide);
            width += wide;
            left -= part;
            if (why == CHECK) {
                cost -= price * part;
                bound += negative((row - 1000 * price) * wide);
            }
        }
        if (cleared > width)
            return (nostwier_answer){13, 1 + (uint32_t)k};
    }

    int64_t market[4] = {u32(q + 28), u32(q + 32), u32(q + 36), u32(q + 40)};
    for (uint32_t zone = 0; zone < z; zone++) {
        const uint8_t *at = q + CERTIFICATE_HEAD + ZONE * zone;
        a->price[zone][2] = market[0] + u32(at);
        a->price[zone][1] = a->price[zone][2] + market[1] + u32(at + 4);
        a->price[zone][0] = a->price[zone][1] + market[2] + u32(at + 8);
        a->price[zone][3] = market[3] + u32(at + 12);
    }
    memset(a->have, 0, (1 + z) * sizeof *a->have);

    /* Quantities are still untried, but no sum leaves 64 bits. */
    int32_t gate_price[MOST_FLOWGATES];
    int64_t energy[MOST_RESOURCES], balance = 0;
    for (uint32_t i = 0; i < r; i++) {
        energy[i] = u32(entries + ENTRY * i);
        balance += energy[i];
        a->congestion[i] = 0;
    }
    for (uint32_t g = 0; g < f; g++) {
        const uint8_t *factors = gates + (size_t)(4 + 2 * r) * g + 4;
        int64_t flow = 0;
        gate_price[g] = i32(gate_prices + 4 * g);
        for (uint32_t i = 0; i < r; i++) {
            int32_t factor = i16(factors + 2 * i);
            flow += factor * energy[i];
            a->congestion[i] += factor * gate_price[g];
        }
        a->flow[g] = flow;
    }

    const reserve regulating = reserve_of(c, 1, 0), contingency = reserve_of(c, 0, 1), short_term = reserve_of(c, 2, 2);
    const int64_t balance_price = i32(q + 24);
    uint32_t own = 0; /* the first broken row of a resource */
    for (uint32_t i = 0; i < r; i++) {
        const uint8_t *at = resources + RESOURCE * i, *entry = entries + ENTRY * i;
        standing local, *s = why == CHARGES ? &a->of[i] : &local;
        take_standing(s, at, &regulating, &contingency, &short_term);
        int64_t amount[5];
        for (int k = 0; k < 5; k++) {
            amount[k] = u32(entry + 4 * k);
            if (amount[k] > s->bound[k])
                return (nostwier_answer){13, 5 + 5 * i + (uint32_t)k};
        }
        int64_t e = amount[0], give[4] = {amount[1] + amount[2], amount[1] + (s->spins ? amount[2] : 0), amount[1],
                                          amount[3] + amount[4]};
        int64_t *zone = a->have[at[1]];
        for (int k = 0; k < 4; k++) {
            a->have[0][k] += give[k];
            zone[k] += give[k];
        }
        if (!own) {
            int broken = e + give[0] > s->max          ? 1
                         : e + amount[3] > s->max      ? 2
                         : e - amount[1] < s->min      ? 3
                         : e > s->high                 ? 4
                         : e < s->low                  ? 5
                                                       : 0;
            if (broken)
                own = 5 + 4 * z + f + 5 * i + (uint32_t)broken;
        }
        if (why != CHECK)
            continue;
        int64_t net[5], left = e;
        take_nets(net, at, entry, balance_price - a->congestion[i], a->price[at[1] - 1], s->spins);
        for (int j = 0; j < STEPS; j++) {
            int64_t width = u32(at + 74 + 8 * j), price = i32(at + 78 + 8 * j), part = least(left, width);
            cost += price * part;
            left -= part;
            bound += negative((1000 * price + net[0]) * (s->on ? width : 0));
        }
        cost += (int64_t)u32(at + 62) * amount[1] + (int64_t)u32(at + 66) * amount[2] + (int64_t)u32(at + 70) * amount[4];
        for (int k = 1; k < 5; k++)
            bound += negative(net[k] * s->bound[k]);
        bound += u32(entry + 28) * s->min + u32(entry + 36) * s->low - u32(entry + 32) * s->high;
        bound -= ((int64_t)u32(entry + 20) + u32(entry + 24)) * s->max;
    }

    if (balance != u32(c + 8))
        return (nostwier_answer){14, 1};
    for (uint32_t k = 0; k < 4; k++)
        if (a->have[0][k] < u32(q + 8 + 4 * k))
            return (nostwier_answer){14, 2 + k};
    for (uint32_t k = 0; k < 4 * z; k++) {
        int64_t need = u32(c + HEAD + 4 * k);
        if (a->have[1 + k / 4][k % 4] < need)
            return (nostwier_answer){14, 6 + k};
        if (why == CHECK)
            bound += u32(q + CERTIFICATE_HEAD + 4 * k) * need;
    }
    for (uint32_t g = 0; g < f; g++) {
        int64_t limit = 1000 * (int64_t)i32(gates + (size_t)(4 + 2 * r) * g);
        if (a->flow[g] > limit)
            return (nostwier_answer){14, 6 + 4 * z + g};
        if (why == CHECK)
            bound -= gate_price[g] * limit;
    }
    if (own)
        return (nostwier_answer){14, own};
    if (why == CHECK) {
        a->cost = 1000 * cost;
        a->bound = bound + balance_price * u32(c + 8);
    }
    return (nostwier_answer){0, 0};
}

/* ---- The calls. */

nostwier_result baseline_check_certificate(const uint8_t *c, size_t cn, const uint8_t *q, size_t qn)
{
    account a;
    counts n;
    uint32_t refusal = case_refusal(c, cn, &n);
    if (refusal)
        return (nostwier_result){.refusal = refusal};
    nostwier_answer answer = take_account(&a, c, q, qn, n, CHECK);
    if (answer.refusal)
        return (nostwier_result){.refusal = answer.refusal, .place = answer.place};
    return (nostwier_result){.cost = a.cost, .bound = a.bound, .gap = a.cost - a.bound};
}

nostwier_answer baseline_prices(const uint8_t *c, size_t cn, const uint8_t *q, size_t qn, int64_t *out, size_t n)
{
    account a;
    counts counted;
    uint32_t refusal = case_refusal(c, cn, &counted);
    if (refusal)
        return (nostwier_answer){refusal, 0};
    nostwier_answer answer = take_account(&a, c, q, qn, counted, PRICES);
    if (answer.refusal)
        return answer;
    const uint32_t r = counted.resources, z = counted.zones;
    if (n < r + 4 * z)
        return (nostwier_answer){15, 0};
    const int64_t balance = i32(q + 24);
    for (uint32_t i = 0; i < r; i++)
        out[i] = balance - a.congestion[i];
    memcpy(out + r, a.price, z * sizeof *a.price);
    return answer;
}

INLINE int64_t charge(int64_t net, int64_t amount, int64_t bound)
{
    return net * amount - negative(net * bound);
}

nostwier_answer baseline_charges(const uint8_t *c, size_t cn, const uint8_t *q, size_t qn, int64_t *out, size_t n)
{
    account a;
    counts counted;
    uint32_t refusal = case_refusal(c, cn, &counted);
    if (refusal)
        return (nostwier_answer){refusal, 0};
    nostwier_answer answer = take_account(&a, c, q, qn, counted, CHARGES);
    if (answer.refusal)
        return answer;
    const uint32_t r = counted.resources, z = counted.zones, f = counted.flowgates;
    if (n < 21 + 4 * z + f + (size_t)19 * r)
        return (nostwier_answer){15, 0};
    const uint8_t *resources = c + HEAD + ZONE * z, *gates = resources + RESOURCE * r;
    const uint8_t *gate_prices = q + CERTIFICATE_HEAD + ZONE * z, *entries = gate_prices + 4 * f;

    *out++ = 0; /* row 1 is met exactly */
    for (int k = 0; k < 4; k++)
        *out++ = u32(q + 28 + 4 * k) * (a.have[0][k] - u32(q + 8 + 4 * k));
    for (uint32_t k = 0; k < 4 * z; k++)
        *out++ = u32(q + CERTIFICATE_HEAD + 4 * k) * (a.have[1 + k / 4][k % 4] - u32(c + HEAD + 4 * k));
    for (uint32_t g = 0; g < f; g++)
        *out++ = i32(gate_prices + 4 * g) * (1000 * (int64_t)i32(gates + (size_t)(4 + 2 * r) * g) - a.flow[g]);
    int64_t *row = out, *priced = out + 5 * r;
    const int64_t balance = i32(q + 24);
    for (uint32_t i = 0; i < r; i++) {
        const uint8_t *at = resources + RESOURCE * i, *entry = entries + ENTRY * i;
        const standing *s = &a.of[i];
        int64_t amount[5], net[5];
        for (int k = 0; k < 5; k++)
            amount[k] = u32(entry + 4 * k);
        int64_t left = amount[0];
        *row++ = u32(entry + 20) * (s->max - left - amount[1] - amount[2]);
        *row++ = u32(entry + 24) * (s->max - left - amount[3]);
        *row++ = u32(entry + 28) * (left - amount[1] - s->min);
        *row++ = u32(entry + 32) * (s->high - left);
        *row++ = u32(entry + 36) * (left - s->low);
        take_nets(net, at, entry, balance - a.congestion[i], a.price[at[1] - 1], s->spins);
        for (int j = 0; j < STEPS; j++) {
            int64_t width = u32(at + 74 + 8 * j), part = least(left, width);
            *priced++ = charge(1000 * (int64_t)i32(at + 78 + 8 * j) + net[0], part, s->on ? width : 0);
            left -= part;
        }
        for (int k = 1; k < 5; k++)
            *priced++ = charge(net[k], amount[k], s->bound[k]);
    }
    for (int k = 0; k < 4; k++) {
        int64_t left = u32(q + 8 + 4 * k);
        for (int j = 0; j < CURVE_STEPS; j++) {
            int64_t width = u32(c + 42 + 32 * k + 8 * j), part = least(left, width);
            *priced++ = charge((int64_t)u32(q + 28 + 4 * k) - 1000 * (int64_t)u32(c + 46 + 32 * k + 8 * j), part, width);
            left -= part;
        }
    }
    return answer;
}
