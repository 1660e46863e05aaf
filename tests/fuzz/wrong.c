/* The library gone wrong in one way, to see that the fuzzer finds it and makes it small: linked with --wrap, these functions
 * stand between the host and the library. The environment names the fault (FAULT). The faults are misreadings of the paper
 * that show only in some cases. */
#include "../host/wrapped.h"

enum { MOST = 1 << 16, HEAD = 170, RESOURCE = 154 };

/* Whether a self-schedule is in range, to 2,000,000, and above the economic maximum. */
static int above_economic_maximum(const uint8_t *self_schedule, const uint8_t *maximum)
{
    return memcmp(self_schedule, "\x00\x1e\x84\x80", 4) <= 0 && memcmp(self_schedule, maximum, 4) > 0;
}

/* The case as a wrong reader would see it; the certificate and the answer are left alone. */
static const uint8_t *misread(const uint8_t *c, size_t cn)
{
    static uint8_t seen[MOST];
    if (cn < HEAD || cn > MOST || cn < HEAD + 16u * c[6] + RESOURCE * (size_t)c[5])
        return c;
    memcpy(seen, c, cn);
    for (uint8_t *at = seen + HEAD + 16 * c[6], *end = at + RESOURCE * c[5]; at < end; at += RESOURCE) {
        if (fault("certificate:trip-of-15-minutes-is-over") && at[4] == 15)
            at[4] = 16;
        if (fault("certificate:tripped-is-off-line") && at[0] == 1 && at[4] <= 15)
            at[2] = 0, at[4] = 16;
        if (fault("certificate:kind-2-trips") && at[0] == 2 && at[4] <= 15)
            at[0] = 1;
        if (fault("certificate:regulating-limits-before-emergency-ones") && (at[5] & 1) != 0)
            at[5] &= (uint8_t)~16;
        if (fault("certificate:self-schedule-yields-to-the-economic-maximum") && above_economic_maximum(at + 58, at + 14))
            memcpy(at + 58, at + 14, 4);
        if (fault("certificate:nine-energy-steps"))
            memset(at + 74 + 9 * 8, 0, 8);
    }
    return seen;
}

/* A file with one flowgate more than there may be, as one that has passed that test: without the last one's bytes, which end
 * there. Returns how many bytes are left; all, if it is no such file. */
static size_t one_flowgate_fewer(uint8_t *file, size_t length, size_t end, size_t last)
{
    if (length < 8 || file[7] != NOSTWIER_MOST_FLOWGATES + 1 || end > length || last > end)
        return length;
    file[7]--;
    memmove(file + end - last, file + end, length - end);
    for (int i = 0; i < 4; i++)
        file[i] = (uint8_t)((length - last - 4) >> (24 - 8 * i));
    return length - last;
}

uint32_t __wrap_nostwier_check_case(const uint8_t *c, size_t cn)
{
    static uint8_t seen[MOST];
    if (cn == 0 || cn > MOST)
        return __real_nostwier_check_case(c, cn);
    memcpy(seen, c, cn);
    if (fault("case:last-byte-unread"))
        seen[cn - 1] = 0;
    if (fault("case:one-flowgate-too-many-is-taken") && cn >= HEAD)
        cn = one_flowgate_fewer(seen, cn, NOSTWIER_CASE_BYTES(c[4], c[5], c[6], c[7]), 4 + 2 * (size_t)c[5]);
    return __real_nostwier_check_case(seen, cn);
}

#ifdef NOSTWIER_HAS_CERTIFICATE
nostwier_result __wrap_nostwier_check_certificate(const uint8_t *c, size_t cn, const uint8_t *q, size_t qn)
{
    return __real_nostwier_check_certificate(misread(c, cn), cn, q, qn);
}

nostwier_answer __wrap_nostwier_prices(const uint8_t *c, size_t cn, const uint8_t *q, size_t qn, int64_t *out, size_t n)
{
    nostwier_answer answer = __real_nostwier_prices(c, cn, q, qn, out, n);
    if (fault("prices:no-price-is-negative") && answer.refusal == 0)
        for (size_t i = 0; i < c[5]; i++)
            out[i] = out[i] < 0 ? 0 : out[i];
    return answer;
}
#endif

#ifdef NOSTWIER_HAS_CHARGES
nostwier_answer __wrap_nostwier_charges(const uint8_t *c, size_t cn, const uint8_t *q, size_t qn, int64_t *out, size_t n)
{
    nostwier_answer answer = __real_nostwier_charges(c, cn, q, qn, out, n);
    if (fault("charges:none-for-the-last-resource") && answer.refusal == 0)
        out[NOSTWIER_ROWS(c[4], c[5], c[6], c[7]) + 14 * (size_t)c[5] - 1] = 0;
    return answer;
}
#endif

#ifdef NOSTWIER_HAS_NUMBERS
nostwier_count __wrap_nostwier_read_case(const uint8_t *file, size_t length, int64_t *out, size_t n)
{
    nostwier_count count = __real_nostwier_read_case(file, length, out, n);
    if (fault("read-case:factors-have-no-sign") && count.refusal == 0 && out[2] > 0 && out[count.count - 1] < 0)
        out[count.count - 1] += 65536;
    return count;
}

nostwier_count __wrap_nostwier_read_certificate(const uint8_t *file, size_t length, int64_t *out, size_t n)
{
    static uint8_t seen[MOST];
    if (fault("read-certificate:one-flowgate-too-many-is-taken") && length >= 8 && length <= MOST) {
        size_t end = NOSTWIER_CERTIFICATE_BYTES(file[4], 0, file[6], file[7]);
        memcpy(seen, file, length);
        return __real_nostwier_read_certificate(seen, one_flowgate_fewer(seen, length, end, 4), out, n);
    }
    nostwier_count count = __real_nostwier_read_certificate(file, length, out, n);
    if (fault("read-certificate:price-of-row-1-has-no-sign") && count.refusal == 0 && out[7] < 0)
        out[7] += (int64_t)1 << 32;
    return count;
}

nostwier_count __wrap_nostwier_write_case(const int64_t *v, size_t n, uint8_t *out, size_t length)
{
    nostwier_count count = __real_nostwier_write_case(v, n, out, length);
    if (fault("write-case:order-of-refusals") && count.refusal == 5)
        count.refusal = 6;
    return count;
}

nostwier_count __wrap_nostwier_write_certificate(const int64_t *v, size_t n, uint8_t *out, size_t length)
{
    nostwier_count count = __real_nostwier_write_certificate(v, n, out, length);
    if (fault("write-certificate:one-byte-too-few-is-enough") && count.refusal == 15 && v[2] == 0)
        count.refusal = 0;
    return count;
}
#endif
