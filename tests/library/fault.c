/* The shared library with one fault, to see that the comparison notices it: loaded before the library, these functions stand
 * between it and the host. The environment names the fault (FAULT). */
#define _GNU_SOURCE
#include <nostwier.h>

#include <dlfcn.h>
#include <stdlib.h>
#include <string.h>

static int fault(const char *name)
{
    const char *chosen = getenv("FAULT");
    return chosen != NULL && strcmp(chosen, name) == 0;
}

/* The function behind this one. */
static void behind(void *function, const char *name)
{
    void *found = dlsym(RTLD_NEXT, name);
    if (found == NULL)
        abort();
    memcpy(function, &found, sizeof found);
}

nostwier_result nostwier_check_certificate(const uint8_t *c, size_t cn, const uint8_t *q, size_t qn)
{
    nostwier_result (*next)(const uint8_t *, size_t, const uint8_t *, size_t);
    behind(&next, "nostwier_check_certificate");
    nostwier_result result = next(c, cn, q, qn);
    if (fault("gap") && result.refusal == 0)
        result.gap++;
    if (fault("place") && result.refusal == 14)
        result.place++;
    return result;
}

typedef nostwier_answer list(const uint8_t *, size_t, const uint8_t *, size_t, int64_t *, size_t);

nostwier_answer nostwier_prices(const uint8_t *c, size_t cn, const uint8_t *q, size_t qn, int64_t *out, size_t n)
{
    list *next;
    behind(&next, "nostwier_prices");
    nostwier_answer answer = next(c, cn, q, qn, out, n);
    if (fault("price") && answer.refusal == 0)
        out[0]++;
    return answer;
}

nostwier_answer nostwier_charges(const uint8_t *c, size_t cn, const uint8_t *q, size_t qn, int64_t *out, size_t n)
{
    list *next;
    behind(&next, "nostwier_charges");
    nostwier_answer answer = next(c, cn, q, qn, out, n);
    if (fault("charge") && answer.refusal == 0)
        out[5]++;
    if (fault("charges-moved") && answer.refusal == 0)
        memmove(out + 1, out, (n - 1) * sizeof *out);
    return answer;
}

typedef nostwier_count reader(const uint8_t *, size_t, int64_t *, size_t);
typedef nostwier_count writer(const int64_t *, size_t, uint8_t *, size_t);

nostwier_count nostwier_read_case(const uint8_t *c, size_t cn, int64_t *out, size_t n)
{
    reader *next;
    behind(&next, "nostwier_read_case");
    nostwier_count count = next(c, cn, out, n);
    if (fault("number") && count.refusal == 0)
        out[3]++;
    return count;
}

nostwier_count nostwier_read_certificate(const uint8_t *q, size_t qn, int64_t *out, size_t n)
{
    reader *next;
    behind(&next, "nostwier_read_certificate");
    nostwier_count count = next(q, qn, out, n);
    if (fault("fewer-numbers") && count.refusal == 0)
        count.count--;
    return count;
}

nostwier_count nostwier_write_case(const int64_t *v, size_t n, uint8_t *out, size_t len)
{
    writer *next;
    behind(&next, "nostwier_write_case");
    nostwier_count count = next(v, n, out, len);
    if (fault("byte") && count.refusal == 0)
        out[11] ^= 1;
    if (fault("refusal") && count.refusal == 6)
        count.refusal = 5;
    return count;
}

nostwier_count nostwier_write_certificate(const int64_t *v, size_t n, uint8_t *out, size_t len)
{
    writer *next;
    behind(&next, "nostwier_write_certificate");
    nostwier_count count = next(v, n, out, len);
    if (fault("certificate-byte") && count.refusal == 0)
        out[count.count - 1] ^= 1;
    return count;
}
