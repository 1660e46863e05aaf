/* The library with one fault, to see that the host notices it: linked with --wrap, these functions stand between the two.
 * The environment names the fault (FAULT). */
#include "wrapped.h"

/* A read that the compiler does not leave out. */
static void read_at(const uint8_t *byte)
{
    (void)*(const volatile uint8_t *)byte;
}

uint32_t __wrap_nostwier_check_case(const uint8_t *c, size_t cn)
{
    uint32_t refusal = __real_nostwier_check_case(c, cn);
    if (fault("case:reads-before"))
        read_at(c - 1);
    if (fault("case:reads-past"))
        read_at(c + cn);
    if (fault("case:changes-input") && cn > 0)
        ((uint8_t *)c)[cn - 1] ^= 1;
    if (fault("case:stops"))
        abort();
    if (fault("case:accepts-all"))
        return 0;
    if (fault("case:refuses-wrongly") && refusal == 7)
        return 6;
    return refusal;
}

#ifdef NOSTWIER_HAS_CERTIFICATE
nostwier_result __wrap_nostwier_check_certificate(const uint8_t *c, size_t cn, const uint8_t *q, size_t qn)
{
    nostwier_result result = __real_nostwier_check_certificate(c, cn, q, qn);
    if (fault("certificate:reads-past"))
        read_at(q + qn);
    if (fault("certificate:changes-input") && qn > 0)
        ((uint8_t *)q)[0] ^= 1;
    if (fault("certificate:place") && result.refusal == 13)
        result.place++;
    if (fault("certificate:row") && result.refusal == 14)
        result.place = 0;
    if (fault("certificate:cost") && result.refusal == 0)
        result.cost++;
    if (fault("certificate:bound") && result.refusal == 0)
        result.bound--;
    if (fault("certificate:gap") && result.refusal == 0)
        result.gap = 0;
    if (fault("certificate:refused-gap") && result.refusal != 0)
        result.gap = 1;
    return result;
}

nostwier_answer __wrap_nostwier_prices(const uint8_t *c, size_t cn, const uint8_t *q, size_t qn, int64_t *out, size_t n)
{
    nostwier_answer answer = __real_nostwier_prices(c, cn, q, qn, out, n);
    if (fault("prices:writes-before"))
        out[-1] = 0;
    if (fault("prices:writes-past"))
        out[n] = 0;
    if (fault("prices:writes-though-refused") && answer.refusal != 0 && n > 0)
        out[0]++;
    if (fault("prices:place") && answer.refusal == 14)
        answer.place++;
    return answer;
}

#endif

#ifdef NOSTWIER_HAS_CHARGES
nostwier_answer __wrap_nostwier_charges(const uint8_t *c, size_t cn, const uint8_t *q, size_t qn, int64_t *out, size_t n)
{
    nostwier_answer answer = __real_nostwier_charges(c, cn, q, qn, out, n);
    if (fault("charges:item") && answer.refusal == 0)
        out[20]++;
    if (fault("charges:last-of-buffer") && n > 0)
        out[n - 1]++;
    if (fault("charges:place") && answer.refusal == 13)
        answer.place = 0;
    return answer;
}
#endif

#ifdef NOSTWIER_HAS_NUMBERS
nostwier_count __wrap_nostwier_read_case(const uint8_t *file, size_t length, int64_t *out, size_t n)
{
    nostwier_count count = __real_nostwier_read_case(file, length, out, n);
    if (fault("read-case:writes-past"))
        out[n] = 0;
    if (fault("read-case:one-more") && count.count < n)
        out[count.count]++;
    return count;
}

nostwier_count __wrap_nostwier_read_certificate(const uint8_t *file, size_t length, int64_t *out, size_t n)
{
    nostwier_count count = __real_nostwier_read_certificate(file, length, out, n);
    if (fault("read-certificate:count") && count.refusal == 0)
        count.count++;
    if (fault("read-certificate:refused-count") && count.refusal != 0)
        count.count = 1;
    return count;
}

nostwier_count __wrap_nostwier_write_case(const int64_t *v, size_t n, uint8_t *out, size_t length)
{
    nostwier_count count = __real_nostwier_write_case(v, n, out, length);
    if (fault("write-case:reads-past"))
        read_at((const uint8_t *)(v + n));
    if (fault("write-case:writes-past"))
        out[length] = 0;
    if (fault("write-case:last-byte") && count.count > 0)
        out[count.count - 1] ^= 1;
    return count;
}

nostwier_count __wrap_nostwier_write_certificate(const int64_t *v, size_t n, uint8_t *out, size_t length)
{
    nostwier_count count = __real_nostwier_write_certificate(v, n, out, length);
    if (fault("write-certificate:changes-input") && n > 0)
        ((int64_t *)v)[n - 1]++;
    if (fault("write-certificate:writes-though-refused") && count.refusal != 0 && length > 0)
        out[0] ^= 1;
    return count;
}
#endif
