/* The library's ideas in C, beside the baseline: the same calls, proved by nobody. */
#ifndef SAME_IDEAS_H
#define SAME_IDEAS_H

#include "nostwier.h"

uint32_t same_ideas_check_case(const uint8_t *c, size_t cn);
nostwier_result same_ideas_check_certificate(const uint8_t *c, size_t cn, const uint8_t *q, size_t qn);
nostwier_answer same_ideas_prices(const uint8_t *c, size_t cn, const uint8_t *q, size_t qn, int64_t *out, size_t n);
nostwier_answer same_ideas_charges(const uint8_t *c, size_t cn, const uint8_t *q, size_t qn, int64_t *out, size_t n);

#endif
