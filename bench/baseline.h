/* The baseline of the benchmark: the same calls as the library's, written for speed and proved by nobody. */
#ifndef BASELINE_H
#define BASELINE_H

#include "nostwier.h"

uint32_t baseline_check_case(const uint8_t *c, size_t cn);
nostwier_result baseline_check_certificate(const uint8_t *c, size_t cn, const uint8_t *q, size_t qn);
nostwier_answer baseline_prices(const uint8_t *c, size_t cn, const uint8_t *q, size_t qn, int64_t *out, size_t n);
nostwier_answer baseline_charges(const uint8_t *c, size_t cn, const uint8_t *q, size_t qn, int64_t *out, size_t n);

#endif
