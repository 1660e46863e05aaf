/* Nostwier: checks of dispatch cases and certificates, for C hosts.
 *
 * What a host owes in each call:
 * - a pointer is not null, is aligned for its type, and is valid for as many items as the length next to it says (with a
 *   length of 0 nothing is read or written there);
 * - a buffer that is written to overlaps nothing else that is lent;
 * - no other thread changes what is lent before the call returns.
 *
 * What it gets: a call takes any bytes and any numbers whatever, and returns. It reads and writes nothing but what is lent,
 * keeps no pointer and allocates nothing. Calls may be made from several threads at a time. A refused call writes nothing; a
 * call that succeeds writes its output from the buffer's start on and leaves the rest of the buffer as it was.
 *
 * Every function that is declared here is proved to do what it says, for all inputs. Texts for the refusals are in
 * nostwier_refusals.h, which is plain C.
 *
 * Link with libnostwier.a or libnostwier.so: `make lib` makes both, `make install` puts them where pkg-config finds them.
 */
#ifndef NOSTWIER_H
#define NOSTWIER_H

#include <stddef.h>
#include <stdint.h>

/* The version of the library. Within one first number the functions that are there stay as they are, so that a host that is
 * built goes on with a newer shared library. The second number rises where a rule of the market changes, and with it an
 * answer, or where a host's source must be edited before it is built again: since 1.4 the sizes are told a file's version. */
#define NOSTWIER_VERSION "1.4.0"

/* ---- Units. Power is in kW; prices of offers, curves and flowgates in cents per MWh, all other prices in thousandths of a
 * cent per MWh. Cost, bound, gap and charges are in grains, a thousandth of a cent per MWh times one kW: so many grains are
 * one dollar of a five-minute interval. */
#define NOSTWIER_GRAINS_PER_DOLLAR INT64_C(1200000000)

/* ---- Sizes, of files of a version with r resources, z zones and f flowgates. A file holds these four as its bytes 4 to 7,
 * counted from 0; they are to be relied on once the file is accepted. Each size is a constant where its arguments are, and 0 for
 * a version that this header does not know, which a newer library may accept. An argument may be evaluated more than once. */
#define NOSTWIER_MOST_RESOURCES 64
#define NOSTWIER_MOST_ZONES 8
#define NOSTWIER_MOST_FLOWGATES 12

/* Bytes of the two files. */
#define NOSTWIER_CASE_BYTES(version, r, z, f) \
    ((version) == 1 ? 170 + 16 * (size_t)(z) + 154 * (size_t)(r) + (size_t)(f) * (4 + 2 * (size_t)(r)) : 0)
#define NOSTWIER_CERTIFICATE_BYTES(version, r, z, f) \
    ((version) == 1 ? 44 + 16 * (size_t)(z) + 4 * (size_t)(f) + 40 * (size_t)(r) : 0)

/* Numbers that are read out of the files, and written into them: every field but length and version. */
#define NOSTWIER_CASE_NUMBERS(version, r, z, f) \
    ((version) == 1 ? 48 + 4 * (size_t)(z) + 43 * (size_t)(r) + (size_t)(f) * (1 + (size_t)(r)) : 0)
#define NOSTWIER_CERTIFICATE_NUMBERS(version, r, z, f) \
    ((version) == 1 ? 12 + 4 * (size_t)(z) + (size_t)(f) + 10 * (size_t)(r) : 0)

/* Rows of the case, and the numbers that the calls for prices and charges write. Prices are as many in every version. */
#define NOSTWIER_ROWS(version, r, z, f) \
    ((version) == 1 ? 5 + 4 * (size_t)(z) + (size_t)(f) + 5 * (size_t)(r) : 0)
#define NOSTWIER_PRICES(r, z) ((size_t)(r) + 4 * (size_t)(z))
#define NOSTWIER_CHARGES(version, r, z, f) \
    ((version) == 1 ? 21 + 4 * (size_t)(z) + (size_t)(f) + 19 * (size_t)(r) : 0)

/* The same of the largest case: buffers of these sizes are long enough for any. */
#define NOSTWIER_OF_MOST(size) size(1, NOSTWIER_MOST_RESOURCES, NOSTWIER_MOST_ZONES, NOSTWIER_MOST_FLOWGATES)
#define NOSTWIER_MOST_CASE_BYTES NOSTWIER_OF_MOST(NOSTWIER_CASE_BYTES)
#define NOSTWIER_MOST_CERTIFICATE_BYTES NOSTWIER_OF_MOST(NOSTWIER_CERTIFICATE_BYTES)
#define NOSTWIER_MOST_CASE_NUMBERS NOSTWIER_OF_MOST(NOSTWIER_CASE_NUMBERS)
#define NOSTWIER_MOST_CERTIFICATE_NUMBERS NOSTWIER_OF_MOST(NOSTWIER_CERTIFICATE_NUMBERS)
#define NOSTWIER_MOST_CHARGES NOSTWIER_OF_MOST(NOSTWIER_CHARGES)
#define NOSTWIER_MOST_PRICES NOSTWIER_PRICES(NOSTWIER_MOST_RESOURCES, NOSTWIER_MOST_ZONES)

#ifdef __cplusplus
extern "C" {
#endif

/* ---- Refusals. A call is refused by a number only if its ground holds and the ground of no earlier one does, in the order
 * that the call gives. */
enum nostwier_refusal {
    NOSTWIER_ACCEPTED = 0,
    NOSTWIER_CASE_LENGTH = 1,         /* a case under 170 bytes, or not as long as its first four bytes say */
    NOSTWIER_CASE_VERSION = 2,        /* a case of a version other than 1 */
    NOSTWIER_COUNTS = 3,              /* the number of resources, zones or flowgates out of range */
    NOSTWIER_CASE_SIZE = 4,           /* a case of a size other than these numbers need */
    NOSTWIER_FIELD_RANGE = 5,         /* a field of the case outside its range */
    NOSTWIER_STEP_RULE = 6,           /* energy or curve steps against their rule */
    NOSTWIER_LIMIT_PAIR = 7,          /* a minimum above its maximum */
    NOSTWIER_CERTIFICATE_LENGTH = 8,  /* a certificate under 44 bytes, or not as long as its first four bytes say */
    NOSTWIER_CERTIFICATE_VERSION = 9, /* a certificate of a version other than 1 */
    NOSTWIER_CERTIFICATE_COUNTS = 10, /* numbers of resources, zones or flowgates that are not the case's */
    NOSTWIER_CERTIFICATE_SIZE = 11,   /* a certificate of a size other than these numbers need */
    NOSTWIER_PRICE_RANGE = 12,        /* a price of the certificate outside its range */
    NOSTWIER_QUANTITY_BOUND = 13,     /* a quantity above its bound; the place is the first one's */
    NOSTWIER_ROW_BROKEN = 14,         /* a row that is not met; the place is the first one's number */
    NOSTWIER_BUFFER_SHORT = 15,       /* the lent buffer too short */
    NOSTWIER_NUMBERS = 16,            /* a list too short or of a wrong length, or a number not fitting its field */
    NOSTWIER_INPUT_LONG = 17          /* of the program alone: above 32,768 bytes on standard input */
};

/* Places of 13: 1 to 4 are the cleared quantities (operating, regulating-plus-spinning, regulating, short-term); then five a
 * resource (energy, regulating, contingency, on-line short-term, off-line short-term). All five bounds of a resource of kind 1
 * whose trip was 15 minutes ago or less are 0.
 *
 * Rows of 14, from 1: energy equals demand; the four market-wide reserve rows in the order of the cleared quantities; the
 * same four for each zone; each flowgate; five a resource (e+g+c <= MAX, e+s <= MAX, e-g >= MIN, e <= HI, e >= LO). */

/* ---- The check of a case. */

/* Checks the cn bytes of a case at c. Returns 0 if the case is valid, else the number of its refusal, 1 to 7. */
uint32_t nostwier_check_case(const uint8_t *c, size_t cn);

/* ---- The check of a certificate, and its prices. In all that follows refusal 0 is success, and a refused answer has every
 * other field 0, but the place is the quantity's of 13 and the row's of 14. */
#define NOSTWIER_HAS_CERTIFICATE

typedef struct {
    uint32_t refusal, place;
    int64_t cost, bound, gap;
} nostwier_result;

typedef struct {
    uint32_t refusal, place;
} nostwier_answer;

/* Checks the qn bytes of a certificate at q against the case at c. Accepted (refusal 0) means: the case is valid, every
 * quantity is within its bound and every row is met; no other whole-kilowatt schedule within those bounds and rows costs
 * less than cost - gap, which is the bound. All three numbers are in grains. Refused by 1 to 14, in that order. */
nostwier_result nostwier_check_certificate(const uint8_t *c, size_t cn, const uint8_t *q, size_t qn);

/* Writes the prices of an accepted certificate to the n numbers at out: NOSTWIER_PRICES(r, z) of them, an LMP for each
 * resource and then for each zone its regulating, spinning, supplemental and short-term price, in thousandths of a cent per
 * MWh. Refused by 1 to 14, then by 15 if n is too small. */
nostwier_answer nostwier_prices(const uint8_t *c, size_t cn, const uint8_t *q, size_t qn, int64_t *out, size_t n);

/* ---- The charges. */
#define NOSTWIER_HAS_CHARGES

/* Writes the charges of an accepted certificate to the n numbers at out: NOSTWIER_CHARGES(version, r, z, f) of them, one for
 * each row, in the order of rows; then for each resource its ten energy steps, regulating, contingency, on-line short-term and
 * off-line short-term; then the four steps of each of the four curves. None is negative and their sum is the gap: they say
 * where the gap comes from. In grains. Refused by 1 to 14, then by 15 if n is too small. */
nostwier_answer nostwier_charges(const uint8_t *c, size_t cn, const uint8_t *q, size_t qn, int64_t *out, size_t n);

/* ---- Numbers out of files, and into them: every field but length and version, in the file's order, so that the first three
 * are the numbers of resources, zones and flowgates. What is written is read back as the same numbers; what is read out of a
 * file is written as the same bytes. */
#define NOSTWIER_HAS_NUMBERS

typedef struct {
    uint32_t refusal, count; /* count: the numbers or bytes written */
} nostwier_count;

/* Writes the NOSTWIER_CASE_NUMBERS(version, r, z, f) numbers of a valid case to the n numbers at out. Refused by 1 to 7, then
 * by 15 if n is too small. */
nostwier_count nostwier_read_case(const uint8_t *c, size_t cn, int64_t *out, size_t n);

/* Writes the NOSTWIER_CERTIFICATE_NUMBERS(version, r, z, f) numbers of a certificate to the n numbers at out. No case is lent,
 * so neither prices nor quantities are judged. Refused by 8, 9, 3 and 11, in that order, then by 15 if n is too small. */
nostwier_count nostwier_read_certificate(const uint8_t *q, size_t qn, int64_t *out, size_t n);

/* Writes the case of the n numbers at v to the len bytes at out: NOSTWIER_CASE_BYTES(1, r, z, f) of them, a valid case of
 * version 1. Refused by 16 if n is under three; by 3; by 16 if the list is not as long as r, z and f need or a number does not
 * fit its field; by 5, 6 and 7 as the case would be; then by 15 if len is too small. */
nostwier_count nostwier_write_case(const int64_t *v, size_t n, uint8_t *out, size_t len);

/* Writes the certificate of the n numbers at v to the len bytes at out: NOSTWIER_CERTIFICATE_BYTES(1, r, z, f) of them, of
 * version 1. Whether a case accepts it, the check says. Refused by 16 if n is under three; by 3; by 16 as above; then by 15 if
 * len is too small. */
nostwier_count nostwier_write_certificate(const int64_t *v, size_t n, uint8_t *out, size_t len);

#ifdef __cplusplus
}
#endif

#endif
