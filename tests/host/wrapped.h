/* What stands between a host and the library when both are linked with --wrap: the functions in the way, those behind them,
 * and the fault that the environment names (FAULT). */
#include "nostwier.h"

#include <stdlib.h>
#include <string.h>

static int fault(const char *name)
{
    const char *chosen = getenv("FAULT");
    return chosen != NULL && strcmp(chosen, name) == 0;
}

uint32_t __real_nostwier_check_case(const uint8_t *c, size_t cn);
uint32_t __wrap_nostwier_check_case(const uint8_t *c, size_t cn);

#ifdef NOSTWIER_HAS_CERTIFICATE
nostwier_result __real_nostwier_check_certificate(const uint8_t *c, size_t cn, const uint8_t *q, size_t qn);
nostwier_result __wrap_nostwier_check_certificate(const uint8_t *c, size_t cn, const uint8_t *q, size_t qn);

typedef nostwier_answer list(const uint8_t *c, size_t cn, const uint8_t *q, size_t qn, int64_t *out, size_t n);
list __real_nostwier_prices, __wrap_nostwier_prices;
#endif

#ifdef NOSTWIER_HAS_CHARGES
list __real_nostwier_charges, __wrap_nostwier_charges;
#endif

#ifdef NOSTWIER_HAS_NUMBERS
typedef nostwier_count reader(const uint8_t *file, size_t length, int64_t *out, size_t n);
typedef nostwier_count writer(const int64_t *v, size_t n, uint8_t *out, size_t length);
reader __real_nostwier_read_case, __wrap_nostwier_read_case;
reader __real_nostwier_read_certificate, __wrap_nostwier_read_certificate;
writer __real_nostwier_write_case, __wrap_nostwier_write_case;
writer __real_nostwier_write_certificate, __wrap_nostwier_write_certificate;
#endif
